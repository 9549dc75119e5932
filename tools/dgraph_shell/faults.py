"""What ends the tool, and what is expected where something else is found.

`run` and `shell` end with the status of the program (0 to 6; 128 and the signal's number where a signal ended it),
`check` with 0 where all replies are as expected and else 1. A fault of the tool's own has one of the numbers below.
"""

from __future__ import annotations

import sys
from collections.abc import Iterator
from contextlib import contextmanager

# Replies that aren't as expected.
DIFFERENT = 1
# Words that aren't understood.
BAD_WORDS = 64
# A file that isn't what it should be.
BAD_DATA = 65
# A file that can't be read or written.
NO_FILE = 66
# The program can't be started.
NO_PROGRAM = 69
# The program wrote what is no reply, or ended well with requests unanswered.
NO_REPLY = 76
INTERRUPTED = 130
# Nobody reads the output.
UNREAD = 141


class Trouble(Exception):
    """What ends the tool: a message, and the status to end with."""

    def __init__(self, message: str, status: int) -> None:
        super().__init__(message)
        self.status = status


class Unexpected(Exception):
    """What was expected, and what stands in its place, so many lines below the first one read."""

    def __init__(self, wanted: str, found: str, below: int = 0) -> None:
        super().__init__(f"expected {wanted}; found {found}")
        self.below = below


@contextmanager
def counted_from(line: int) -> Iterator[None]:
    """Lines of faults inside are counted from this line on."""
    try:
        yield
    except Unexpected as unexpected:
        unexpected.below += line
        raise


def complain(message: str) -> None:
    """Says on standard error what is wrong."""
    sys.stdout.flush()
    print(f"dgraph_shell: {message}", file=sys.stderr, flush=True)
