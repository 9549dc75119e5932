"""Scripts that people can write for `dgraph run`, and a shell over it.

`dgraph run` reads frames, whose headers carry the length of the body in bytes. This tool makes frames of scripts that
people can write, runs them, and shows the replies in words. It only frames and shows: what a request means is the
program's business.

- `faults`, `verbs`: what ends the tool; the verbs that the program takes, and requests
- `scripts`, `frames`: readable scripts and frames, each read into requests and written
- `replies`, `meanings`, `spots`: replies; what each refusal means and what to do next; the spot in a body that it names
- `show`: requests and replies on a terminal
- `program`: a running `dgraph run`, asked through pipes
- `commands`, `words`: what the tool does for its words
- `shell`, `work`, `help`: the shell; what it knows of open transactions and unsaved work; what it says of requests
- `statements`, `loading`: N-Quads of any size, read and handed to the program
"""
