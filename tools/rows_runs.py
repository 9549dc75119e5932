#!/usr/bin/env python3
"""The answers to the rows about whole scripts.

    rows_runs.py crates/table_runs

They take the place of all lines of the folder's stdout before those of `section groups`. The replies are those of
`plain_machine.py`, which is independent of the programs; what is read and written where a call fails is computed here. It
needs Python 3.9 or later.
"""

from __future__ import annotations

import io
import sys
from contextlib import redirect_stdout
from pathlib import Path
from typing import Optional

import plain_machine as plain

PICTURES = dict(zip("␊␉␍␀", "\n\t\r\0"))
PIECE = 16_384
LONGEST_SHOWN = 400
SHOWN_FRONT = 40
# The rows behind this one are no scripts.
END = "section groups"
ENDINGS = {
    "Done": "0 dgraph: done",
    "ReadFault": "1 dgraph: read fault",
    "WriteFault": "2 dgraph: write fault",
    "BadWords": "3 dgraph: bad words",
    "BadFrame": "4 dgraph: bad frame at ",
    "TooLong": "5 dgraph: input too long",
    "OutOfMemory": "6 dgraph: out of memory",
}


def plain_bytes(text: str) -> bytes:
    return "".join(PICTURES.get(letter, letter) for letter in text).encode()


def shown(said: bytes) -> str:
    pictures = {control: picture for picture, control in PICTURES.items()}
    return "".join(pictures.get(letter, letter) for letter in said.decode())


def bytes_of_row(table: str, line: str, *parts: str) -> bytes:
    """What a row adds to the script."""
    if table == "raw" or not parts:
        return plain_bytes(line) + (b"" if table == "raw" else b"\n")
    body = bytes.fromhex(parts[0]) if table == "hex" else plain_bytes(parts[0])
    if table == "filled":
        body = body.replace("…".encode(), b"a" * int(parts[1]))
    if table == "repeated":
        body = body.replace("…".encode(), plain_bytes(parts[2]) * int(parts[1]))
    return b"%s %d\n%s\n" % (line.encode(), len(body), body)


def reply_text(reply: Optional[bytes]) -> str:
    if reply is None:
        return "no reply"
    if len(reply) > LONGEST_SHOWN:
        return f"{shown(reply[:SHOWN_FRONT])}… of {len(reply)} bytes"
    return shown(reply[:-1])


def ending(fault: Optional[int]) -> str:
    return ENDINGS["Done"] if fault is None else f"{ENDINGS['BadFrame']}{fault}"


class Script:
    """The rows of a script, its bytes, and the whole of what its run writes."""

    def __init__(self) -> None:
        self.rows: list[str] = []
        self.bytes = b""
        self.written: Optional[bytes] = None

    def add(self, row: str, added: bytes) -> Script:
        script = Script() if self.written is not None else self
        script.rows.append(row)
        script.bytes += added
        return script

    def run(self, asked: str = "run", timestamp: int = 1) -> None:
        done = plain.run(self.bytes, timestamp)
        replies = [*done.replies, *[None] * len(self.rows)]
        for row, reply in zip(self.rows, replies):
            print(f"{row} => {reply_text(reply)}")
        self.written = b"".join(done.replies)
        print(f"{asked} => {ending(done.fault)}, {len(done.replies)} replies, {len(self.written)} bytes")

    def again(self, count: str, most: str, reads: str, writes: str) -> str:
        """What comes of so many bytes in pieces, where calls fail."""
        data = self.bytes if count == "all" else self.bytes[: int(count)]
        piece, failing_read = min(int(most), PIECE), int(reads)
        taken = data if failing_read == 0 else data[: piece * (failing_read - 1)]
        asks = -(-len(data) // piece) + 1
        done = plain.run(taken)
        said = ending(done.fault)
        if 0 < failing_read <= asks and not ends_early(taken, done):
            said = ENDINGS["ReadFault"]
        written = front_written(done.replies, int(most), int(writes))
        if written is not None:
            said = ENDINGS["WriteFault"]
        else:
            written = b"".join(done.replies)
        assert self.written is not None and self.written.startswith(written)
        return f"{said}, {len(written)} bytes of the same"


def ends_early(taken: bytes, done: plain.Run) -> bool:
    """Whether no frame begins behind the last whole one, so that no more is read: these rows have no such script."""
    assert done.fault is None or taken[done.fault :].split(b" ")[0] in {b"", *plain_fronts()}, taken
    return False


def plain_fronts() -> set[bytes]:
    return {verb[:length].encode() for verb in plain.VERBS for length in range(len(verb) + 1)}


def front_written(replies: list[bytes], most: int, failing: int) -> Optional[bytes]:
    """What is written before the call that fails, if there is one."""
    written, call = b"", 0
    for reply in replies:
        for at in range(0, len(reply), most):
            call += 1
            if call == failing:
                return written
            written += reply[at : at + most]
    return None


def words_row(words: str) -> str:
    if words.split() != ["run"]:
        return f"{ENDINGS['BadWords']}, 0 bytes"
    return f"{ENDINGS['Done']}, {len(plain.run(b'begin 1' + bytes([10])).replies[0])} bytes"


def is_asked(row: str) -> bool:
    return bool(row) and not row.startswith("#")


def print_answers(rows: list[str]) -> None:
    script = Script()
    for row in filter(is_asked, rows):
        table, *fields = row.split(" | ")
        if table in ("frame", "hex", "filled", "repeated", "raw"):
            script = script.add(row, bytes_of_row(table, *fields))
        elif table == "run":
            script.run()
        elif table == "from":
            if fields[0].isdigit() and 1 <= int(fields[0]) <= plain.LAST_TIMESTAMP + 1:
                script.run(row, int(fields[0]))
            else:
                print(f"? {row}")
        elif table == "again":
            print(f"{row} => {script.again(*fields)}")
        elif table == "groups":
            print(f"{row} => {script.again('all', '16384', '0', '0')}")
        elif table == "words":
            print(f"{row} => {words_row(' '.join(fields))}")
        else:
            print(f"{row} => {ENDINGS[fields[0]]}{''.join(fields[1:])}")


def main(folder: Path) -> None:
    rows = (folder / "stdin").read_text(encoding="utf-8").split("\n")
    end = rows.index(END)
    answers = io.StringIO()
    with redirect_stdout(answers):
        print_answers(rows[:end])
    behind = next(filter(is_asked, rows[end + 1 :]))
    _, found, rest = (folder / "stdout").read_text(encoding="utf-8").partition(f"\n{behind} => ")
    assert found, f"no answer to {behind}"
    (folder / "stdout").write_text(answers.getvalue() + found[1:] + rest, encoding="utf-8")


if __name__ == "__main__":
    main(Path(sys.argv[1]))
