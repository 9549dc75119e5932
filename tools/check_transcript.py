#!/usr/bin/env python3
"""Compares transcripts with what their commands do now.

    check_transcript.py [--print] FILE ..

A transcript is what a terminal shows. A line that begins with `$ ` is a command for bash, and the lines below it, up to
the next command, are what it shows. Where it asks for a line (a prompt of the shell, or a question that ends in `) `),
what stands behind that is typed. Lines before the first command are free.

Each transcript has a folder of its own, in which the files and folders of the repository stand by their names, and on a
pseudo-terminal of 200 columns without colours. Times and rates may be others. `--print` writes the transcript as it is
now. It ends with 1 where something else is shown, and needs Python 3.9 or later.
"""

from __future__ import annotations

import argparse
import difflib
import fcntl
import os
import pty
import re
import select
import struct
import subprocess
import sys
import tempfile
import termios
import time
from collections.abc import Iterator
from pathlib import Path
from typing import NamedTuple

TOP = Path(__file__).resolve().parent.parent
COMMAND = "$ "
# What asks for a line, at the start of one.
ASKS = re.compile(r"dgraph> |   \.\.\.> |[A-Z][^\n]*\? \([^\n]*\) ")
SECONDS = 20
COLUMNS = 200
ESCAPES = re.compile(r"\x1b\[[0-9;?]*[A-Za-z]")
VARYING = [(re.compile(r"[0-9]+\.[0-9]+ (m?s)\b"), r"N \1"), (re.compile(r"[0-9,]+ a second"), "N a second")]


class Step(NamedTuple):
    """A command, and the lines that it shows."""

    command: str
    shown: list[str]

    def typed(self) -> list[str]:
        """What is typed where it asks."""
        return [line[asked.end() :] for line in self.shown if (asked := ASKS.match(line + " "))]


def steps_of(lines: list[str]) -> Iterator[Step]:
    """The commands of a transcript and what each shows."""
    starts = [at for at, line in enumerate(lines) if line.startswith(COMMAND)]
    for start, end in zip(starts, [*starts[1:], len(lines)]):
        yield Step(lines[start][len(COMMAND) :], lines[start + 1 : end])


class Late(Exception):
    """A command didn't end in time."""


def shown_by(step: Step, folder: Path) -> list[str]:
    """What a command shows now, in that folder."""
    ours, theirs = pty.openpty()
    fcntl.ioctl(theirs, termios.TIOCSWINSZ, struct.pack("HHHH", 50, COLUMNS, 0, 0))
    environment = {**os.environ, "TERM": "dumb", "LC_ALL": "C.UTF-8", "PYTHONDONTWRITEBYTECODE": "1"}
    command = subprocess.Popen(
        ["bash", "-c", step.command],
        stdin=theirs,
        stdout=theirs,
        stderr=theirs,
        cwd=folder,
        env=environment,
        start_new_session=True,
    )
    os.close(theirs)
    try:
        return lines_of(talk(ours, step.typed()))
    finally:
        command.kill()
        command.wait()
        os.close(ours)


def talk(terminal: int, typed: list[str]) -> bytes:
    """Types lines where they are asked for, and gives all that is shown."""
    shown = b""
    until = time.monotonic() + SECONDS
    while select.select([terminal], [], [], max(0.0, until - time.monotonic()))[0]:
        try:
            piece = os.read(terminal, 65_536)
        except OSError:
            return shown
        shown += piece
        last = ESCAPES.sub("", shown.decode("utf-8", "replace")).rpartition("\n")[2].rpartition("\r")[2]
        if ASKS.fullmatch(last):
            # The end of the input, where nothing more is typed.
            os.write(terminal, f"{typed.pop(0)}\n".encode() if typed else b"\x04")
    raise Late(shown.decode("utf-8", "replace")[-500:])


def lines_of(shown: bytes) -> list[str]:
    """The lines that stand on the terminal in the end."""
    text = ESCAPES.sub("", shown.decode("utf-8", "replace")).replace("\r\n", "\n")
    lines = [line.rpartition("\r")[2] for line in text.split("\n")]
    return lines[:-1] if lines and not lines[-1] else lines


def steady(line: str) -> str:
    """The line without what may vary."""
    for pattern, word in VARYING:
        line = pattern.sub(word, line)
    return line.rstrip()


def transcript_now(lines: list[str]) -> list[str]:
    """The transcript with what its commands show now."""
    first = next((at for at, line in enumerate(lines) if line.startswith(COMMAND)), len(lines))
    now = lines[:first]
    with tempfile.TemporaryDirectory() as room:
        for path in TOP.iterdir():
            Path(room, path.name).symlink_to(path)
        for step in steps_of(lines):
            now += [COMMAND + step.command, *shown_by(step, Path(room))]
    return now


def is_as_written(path: Path) -> bool:
    """Whether the commands of a transcript show what it says; what is otherwise is printed."""
    lines = path.read_text(encoding="utf-8").splitlines()
    try:
        now = transcript_now(lines)
    except Late as late:
        print(f"{path}: a command hadn't ended after {SECONDS} seconds; the last that it showed: {late}")
        return False
    wanted, found = [[steady(line) for line in it] for it in (lines, now)]
    different = list(difflib.unified_diff(wanted, found, str(path), "now", lineterm=""))
    commands = sum(line.startswith(COMMAND) for line in lines)
    print("\n".join(different) or f"{path}: {commands} commands show what stands there")
    return not different and commands > 0


def main() -> int:
    words = argparse.ArgumentParser(description=__doc__, formatter_class=argparse.RawDescriptionHelpFormatter)
    words.add_argument("--print", action="store_true", dest="prints", help="write the transcript as it is now")
    words.add_argument("files", type=Path, nargs="+", metavar="FILE")
    asked = words.parse_args()
    if asked.prints:
        for path in asked.files:
            print("\n".join(transcript_now(path.read_text(encoding="utf-8").splitlines())))
        return 0
    return 0 if all([is_as_written(path) for path in asked.files]) else 1


if __name__ == "__main__":
    sys.exit(main())
