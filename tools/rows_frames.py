#!/usr/bin/env python3
"""The answers to the rows about sources, sinks, frames, scripts and replies.

    rows_frames.py <crates/table_frames/stdin >crates/table_frames/stdout

It is independent of the programs: it knows what a source, a sink and a frame are from their description, and finds
out whether a frame may go on by trying ends of lines. It needs Python 3.9 or later.
"""

from __future__ import annotations

import re
import sys
from collections.abc import Callable, Iterator
from typing import NamedTuple, Optional, Union

import plain_machine as plain

PIECE = 16_384
LONGEST_INPUT = 67_108_864
PICTURES = dict(zip("␊␉␍␀", "\n\t\r\0"))
SAMPLES = {plain.SMALL: "1", plain.LENGTH: "0", plain.NAME: "a"}


def plain_bytes(text: str) -> bytes:
    return "".join(PICTURES.get(letter, letter) for letter in text).encode()


def shown(said: bytes) -> str:
    pictures = {control: picture for picture, control in PICTURES.items()}
    return "".join(pictures.get(letter, letter) for letter in said.decode())


# ---------------------------------------------------------------------------------------------------
# Sources and sinks
# ---------------------------------------------------------------------------------------------------


class Source:
    """Bytes that are given piece by piece; the calls that fail are named, and count from 1."""

    def __init__(self, data: bytes, most: int, failing: str) -> None:
        self.data, self.most, self.failing = data, most, [int(call) for call in failing.split()]
        self.given = self.calls = self.faults = 0

    def read(self, room: int) -> Optional[bytes]:
        self.calls += 1
        if self.calls in self.failing:
            self.faults += 1
            return None
        piece = self.data[self.given : self.given + min(room, self.most)]
        self.given += len(piece)
        return piece


class Sink:
    """Takes pieces, so many bytes a call and within its room."""

    def __init__(self, most: int, failing: str, room: int = sys.maxsize) -> None:
        self.most, self.failing, self.room = most, [int(call) for call in failing.split()], room
        self.held = b""
        self.calls = self.faults = 0

    def write(self, piece: bytes) -> Optional[int]:
        self.calls += 1
        taken = piece[: min(self.most, self.room - len(self.held))]
        if self.calls in self.failing or piece and not taken:
            self.faults += 1
            return None
        self.held += taken
        return len(taken)

    def write_whole(self, piece: bytes) -> bool:
        while piece:
            taken = self.write(piece)
            if taken is None:
                return False
            piece = piece[taken:]
        return True


def reads(source: Source, room: str, times: str) -> str:
    buffer = b"-" * int(room)
    answers = []
    for _ in range(int(times)):
        piece = source.read(int(room))
        buffer = (piece or b"") + buffer[len(piece or b"") :]
        answers.append(f"{'fault' if piece is None else len(piece)} [{shown(buffer)}]")
    return ", ".join(answers)


def counted(taken: Optional[int]) -> str:
    return "fault" if taken is None else str(taken)


def source_row(data: str, most: str, failing: str, room: str, times: str) -> str:
    source = Source(plain_bytes(data), int(most), failing)
    return f"{reads(source, room, times)}; faults {source.faults}"


def text_source_row(data: str, room: str, times: str) -> str:
    return source_row(data, str(sys.maxsize), "0", room, times)


def broken_source_row(room: str, times: str) -> str:
    return source_row("", "1", " ".join(str(call) for call in range(1, 10)), room, times)


def sink_row(pieces: str, most: str, failing: str) -> str:
    sink = Sink(int(most), failing)
    answers = [f"{counted(sink.write(piece.encode()))} [{sink.held.decode()}]" for piece in pieces.split(",")]
    return f"{', '.join(answers)}; faults {sink.faults}"


def whole_row(piece: str, most: str, failing: str) -> str:
    sink = Sink(int(most), failing)
    written = "ok" if sink.write_whole(piece.encode()) else "fault"
    return f"{written} [{sink.held.decode()}]; faults {sink.faults}"


def full_sink_row(pieces: str, room: str) -> str:
    sink = Sink(sys.maxsize, "0", int(room))
    answers = ", ".join(counted(sink.write(piece.encode())) for piece in pieces.split(","))
    return f"{answers}; faults {sink.faults}; held [{sink.held.decode().ljust(min(int(room), 99), '-')}]"


def growing_sink_row(pieces: str) -> str:
    return full_sink_row(pieces, str(len(pieces))).replace("-", "")


# ---------------------------------------------------------------------------------------------------
# Frames
# ---------------------------------------------------------------------------------------------------

MOVES = {"copy": "Copy", "hold": "Hold", "flip": "Flip", "off": "Off", "start": "Start", "plan": "Plan"}
MOVES["install"] = "Install"
VARIANTS = {verb: verb.capitalize() for verb in plain.VERBS}
VARIANTS |= {
    front + end: front.capitalize() + MOVES[end] for front in ("roll", "move") for end in MOVES if front + end in VARIANTS
}


class Header(NamedTuple):
    """A sound line: its verb, its words, and the length of the body, if the verb has one."""

    verb: str
    words: list[str]
    body: Optional[int]


def header_of(line: bytes) -> Optional[Header]:
    verb, *words = line.decode("latin-1").split(" ")
    forms = plain.VERBS.get(verb)
    if forms is None or len(words) != len(forms) or len(line) >= plain.LONGEST_HEADER:
        return None
    if not all(plain.is_whole(form, word) for form, word in zip(forms, words)):
        return None
    length = int(words[-1]) if plain.LENGTH in forms else None
    return None if length is not None and length > plain.LONGEST_BODY else Header(verb, words, length)


LINES = [" ".join([verb, *(SAMPLES[form] for form in forms)]).encode() for verb, forms in plain.VERBS.items()]
ENDS = {line[at:] for line in LINES for at in range(len(line) + 1)}


def goes_on(front: bytes) -> bool:
    """Whether a line may begin so: one of some ends makes it sound."""
    return any(header_of(front + end) for end in ENDS)


def printed(header: Header, body: bytes) -> str:
    """A request as the program prints it."""
    named = {plain.SMALL: "sid", plain.NAME: "pred"}
    fields = []
    for form, word in zip(plain.VERBS[header.verb], header.words):
        if form is plain.LENGTH:
            fields.append(f"body: List {{ items: {list(body)} }}")
        elif form is plain.NAME:
            fields.append(f'pred: Str {{ text: "{word}" }}')
        else:
            fields.append(f"{'group' if header.verb == 'movestart' else named[form]}: {word}")
    return VARIANTS[header.verb] + (f" {{ {', '.join(fields)} }}" if fields else "")


class Found(NamedTuple):
    header: Header
    body: bytes
    end: int


def found_at(data: bytes, at: int, end: int) -> Union[Found, bool]:
    """The frame at a byte; or whether one may stand there that isn't whole yet."""
    feed = data.find(b"\n", at, min(end, at + plain.LONGEST_HEADER))
    if feed < 0:
        return end - at < plain.LONGEST_HEADER and goes_on(data[at:end])
    header = header_of(data[at:feed])
    if header is None or header.body is None:
        return Found(header, b"", feed + 1) if header else False
    stop = feed + 1 + header.body
    if end <= stop:
        return True
    return Found(header, data[feed + 1 : stop], stop + 1) if data[stop : stop + 1] == b"\n" else False


class Frames:
    """The requests of a source. What is answered is told apart from a fault by its type."""

    def __init__(self, source: Source) -> None:
        self.source = source
        self.at = 0
        self.taken = 0
        self.fault: Optional[str] = None

    def next(self) -> Union[Found, str]:
        if self.fault is None:
            found = self.find()
            if isinstance(found, str) and found != "end":
                self.fault = found
            return found
        return self.fault

    def find(self) -> Union[Found, str]:
        while True:
            found = found_at(self.source.data, self.at, min(self.taken, LONGEST_INPUT))
            if isinstance(found, Found):
                self.at = found.end
                return found
            if not found:
                return f"bad frame at {self.at}"
            if self.taken > LONGEST_INPUT:
                return "too long"
            piece = self.source.read(PIECE)
            if piece is None:
                return "read fault"
            self.taken += len(piece)
            if not piece:
                return "end" if self.at == self.taken else f"bad frame at {self.at}"

    def all(self) -> Iterator[Union[Found, str]]:
        found = self.next()
        while isinstance(found, Found):
            yield found
            found = self.next()
        yield found


def text_of(found: Union[Found, str]) -> str:
    return found if isinstance(found, str) else printed(found.header, found.body)


def only(data: bytes) -> Frames:
    """The frames of a source that fails where more than these bytes are asked for."""
    return Frames(Source(data, PIECE, "2" if data else "1"))


def front_row(data: str) -> str:
    return "; ".join(text_of(found) for found in only(plain_bytes(data)).all())


def roll_row(end: str, count: str) -> str:
    return front_row("roll " + "a" * int(count) + end)


def cuts_row(data: str) -> str:
    whole = plain_bytes(data)
    answers = [only(whole[:length]).next() for length in range(len(whole) + 1)]
    return "".join("r" if isinstance(found, Found) else "w" if found == "read fault" else "b" for found in answers)


def frames_row(data: str, most: str, failing: str) -> str:
    frames = Frames(Source(plain_bytes(data), int(most), failing))
    answers = [text_of(found) for found in frames.all()]
    return "; ".join([*answers, "again " + text_of(frames.next())])


def after_row(data: str, most: str, failing: str, times: str) -> str:
    source = Source(plain_bytes(data), int(most), failing)
    frames = Frames(source)
    answers = [text_of(found) for found in frames.all()]
    answers += ["again " + text_of(frames.next()), "then " + reads(source, "8", times)]
    return "; ".join([*answers, f"faults {source.faults}"])


def bodies_row(behind: str, times: str, length: str, last: str) -> str:
    lengths = [int(length)] * int(times) + [int(last)]
    queries = b"".join(b"query 1 %d\n%s\n" % (each, b"a" * each) for each in lengths)
    *found, end = Frames(Source(queries + plain_bytes(behind), PIECE, "0")).all()
    while found and found[-1].header.verb != "query":  # type: ignore[union-attr]
        end = found.pop()
    total = sum(len(one.body) for one in found)  # type: ignore[union-attr]
    return f"{len(found)} queries with {total} bytes; {text_of(end)}"


def name_row(text: str) -> str:
    return "true" if plain.is_whole(plain.NAME, text) else "false"


# ---------------------------------------------------------------------------------------------------
# Scripts that are made from a seed
# ---------------------------------------------------------------------------------------------------

SCHEMA = "name: string @index(exact) .\nage: int @index(int) .\nfriend: [uid] @reverse @count ."
QUESTION = "{ q(func: eq(age, 7), first: 5) { uid name count(friend) } }"
BATCH = 100
MOST_SHOWN = 3


def draws(state: int) -> Iterator[int]:
    """Numbers of 15 bits, one after another."""
    while True:
        state = (state * 1103515245 + 12345) % (1 << 31)
        yield state >> 16


def with_length(line: str, body: str) -> str:
    return f"{line} {len(body)}\n{body}\n"


def script_of(seed: int, size: int) -> str:
    drawn = draws(seed)
    lines = []
    for node in range(1, size + 1):
        lines.append(f'<{node:#x}> <name> "n{next(drawn) % 1000}" .')
        lines.append(f'<{node:#x}> <age> "{next(drawn) % 100}" .')
        lines.append(f"<{node:#x}> <friend> <{next(drawn) % size + 1:#x}> .")
    script = with_length("alter", SCHEMA)
    for at in range(0, len(lines), 3 * BATCH):
        body = "\n".join(lines[at : at + 3 * BATCH])
        script += f"begin 1\n{with_length('mutate 1', body)}commit 1\nroll name\n"
    return f"{script}begin 1\n{with_length('query 1', QUESTION)}discard 1\n"


def gen_row(seed: str, size: str) -> str:
    script = script_of(int(seed), int(size)).encode()
    if int(size) <= MOST_SHOWN:
        return shown(script)
    total = 0
    for byte in script:
        total = (total * 257 + byte) % (1 << 32)
    return f"{len(script)} bytes, sum {total}"


# ---------------------------------------------------------------------------------------------------
# Replies
# ---------------------------------------------------------------------------------------------------

REFUSALS = """
1 NoSession, 2 SessionOpen, 3 BadToken, 4 BadSyntax, 5 TooDeep, 6 UnknownVariable, 7 VariableTwice, 8 VariableCycle,
9 NotIndexed, 10 BadLiteral, 11 BadPage, 12 BadDepth, 13 NoPredicate, 14 WrongObject, 15 UidsSpent, 16 SumOverflow,
17 AnswerTooLarge, 18 Moving, 19 Conflict, 20 Pending, 22 HasData, 23 NoGroup, 24 SameGroup, 25 AlreadyMoving,
26 NotMoving, 27 SchemaSyntax, 28 TimestampsSpent, 29 Stale, 30 NotHere, 31 NoWork, 32 OldCopy, 98 Unbuilt, 99 Memory
"""
NAMES = dict(words.split() for words in re.split(r",\s", REFUSALS.strip()))


def refusal_row(number: str, *parts: str) -> str:
    said = [hex(int(parts[0]))] if number == "15" else parts
    return " ".join([number, NAMES[number], *said])


def reply_row(verb: str, *parts: str) -> str:
    if verb == "refused":
        return f"error {refusal_row('1', *parts)}␊ no body"
    if verb not in ("mutate", "upsert", "query", "state"):
        return f"{' '.join(['ok', verb, *parts])}␊ no body"
    numbers = [part for part in parts if part.isdigit()]
    body = next((part for part in parts if not part.isdigit()), "")
    return f"{' '.join(['ok', verb, *numbers, str(len(plain_bytes(body)))])}␊{body}␊ body [{body}]"


TABLES: dict[str, Callable[..., str]] = {
    "source": source_row,
    "text source": text_source_row,
    "broken source": broken_source_row,
    "sink": sink_row,
    "whole": whole_row,
    "growing sink": growing_sink_row,
    "full sink": full_sink_row,
    "gate": lambda *_: "open",
    "name": name_row,
    "front": front_row,
    "roll": roll_row,
    "cuts": cuts_row,
    "frames": frames_row,
    "after": after_row,
    "bodies": bodies_row,
    "gen": gen_row,
    "reply": reply_row,
    "refusal": refusal_row,
}


def main() -> None:
    for row in sys.stdin.read().split("\n"):
        if row and not row.startswith("#"):
            table, *fields = row.split(" | ")
            print(f"{row} => {TABLES[table](*fields)}")


if __name__ == "__main__":
    main()
