"""The words that the tool takes, and its start."""

from __future__ import annotations

import argparse
import io
import os
import sys
from collections.abc import Callable, Sequence
from pathlib import Path
from typing import NoReturn, Optional

from .commands import check, frame, run, unframe, why
from .faults import BAD_WORDS, INTERRUPTED, UNREAD, Trouble, complain
from .program import DEFAULT_PROGRAM
from .shell import shell
from .verbs import GROUP

DESCRIPTION = "Scripts that people can write for `dgraph run`, and a shell over it."
EPILOG = """\
With the one word `run` the program itself, crates/dgraph/out/dgraph, reads frames from standard input and writes one
reply for each; docs/REFERENCE.md has its other words. docs/SHELL.md says what each command does, and how scripts and frames are written."""


class Parser(argparse.ArgumentParser):
    """A parser of words that ends with a status which is none of the program's."""

    def error(self, message: str) -> NoReturn:
        self.print_help(sys.stderr)
        self.exit(BAD_WORDS, f"\n{self.prog}: {message}\n")


def group_count(word: str) -> int:
    """The number of groups that a word says."""
    if not GROUP.pattern.fullmatch(word):
        raise argparse.ArgumentTypeError(f"expected a number from 1 to 16, found {word!r}")
    return int(word)


def parser() -> Parser:
    """What words the tool takes."""
    top = Parser(prog="dgraph_shell.py", description=DESCRIPTION, epilog=EPILOG)
    commands = top.add_subparsers(dest="command", metavar="COMMAND", required=True)

    def command(serve: Callable[[argparse.Namespace], int], *files: str) -> Parser:
        added: Parser = commands.add_parser(serve.__name__, help=serve.__doc__, description=serve.__doc__)
        added.set_defaults(serve=serve)
        for name in files:
            added.add_argument(name, type=Path, metavar=name.upper())
        return added

    def over_program(added: Parser) -> Parser:
        # Handed to the program, which doesn't take it yet, and so not told of.
        added.add_argument("--groups", type=group_count, metavar="N", help=argparse.SUPPRESS)
        helps = "the program to run, in the place of crates/dgraph/out/dgraph"
        added.add_argument("--program", type=Path, metavar="PATH", default=DEFAULT_PROGRAM, help=helps)
        return added

    runs = over_program(command(run, "file"))
    runs.add_argument("--table", action="store_true", help="show answers as tables")
    runs.add_argument("--plain", action="store_true", help="show no colours")
    over_program(command(shell))
    over_program(command(check, "file", "expected"))
    command(frame, "file")
    command(unframe, "file")
    command(why, "file")
    return top


def set_up_streams() -> None:
    """Lets the tool go on at what can't be read as text, which it refuses, or shown, which it escapes."""
    for stream, errors in ((sys.stdin, "surrogateescape"), (sys.stdout, "backslashreplace")):
        if isinstance(stream, io.TextIOWrapper):
            stream.reconfigure(errors=errors)


def main(words: Optional[Sequence[str]] = None) -> int:
    """Does what the words say, and answers the status to end with."""
    arguments = parser().parse_args(words)
    set_up_streams()
    try:
        status = arguments.serve(arguments)
        sys.stdout.flush()
        return status
    except Trouble as trouble:
        complain(str(trouble))
        return trouble.status
    except KeyboardInterrupt:
        return INTERRUPTED
    except BrokenPipeError:
        # Python would write what is left once more when it ends.
        os.dup2(os.open(os.devnull, os.O_WRONLY), sys.stdout.fileno())
        return UNREAD
