#!/usr/bin/env python3
"""Scripts that people can write for `dgraph run`, and a shell over it. It needs Python 3.9 or later, and nothing else.

    dgraph_shell.py run FILE [--program PATH] [--table] [--plain]
    dgraph_shell.py shell [--program PATH]
    dgraph_shell.py check FILE EXPECTED [--program PATH]
    dgraph_shell.py frame FILE
    dgraph_shell.py unframe FILE
    dgraph_shell.py why FILE

docs/SHELL.md says what each does. This file only starts the tool, which is the package beside it.
"""

import sys

if sys.version_info < (3, 9):
    sys.exit("dgraph_shell: Python 3.9 or later is needed, and this is " + sys.version.split()[0])

# Of a module and a package of one name in one folder, Python takes the package.
from dgraph_shell.words import main

if __name__ == "__main__":
    sys.exit(main())
