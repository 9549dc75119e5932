"""Readable scripts (`*.dgs`), which people can write.

A script is UTF-8 text without control characters other than line feeds and tabs, so its lines end in line feeds alone.
The line feed of the last line may be missing. A blank line has nothing but spaces and tabs; what is said of other lines
below is said of lines that aren't blank.

- A line that begins with `#` is a comment.
- A line that begins with neither a space, a tab nor `#` is a request: its verb and its arguments as in a frame, single
  spaces between, without the length of a body and without blanks at the end.
- The lines that begin with a space or a tab are the body of the request above them. They stand under a verb that takes
  a body, from the next line on, and end at the next request, comment or at the end of the script. No such line is an
  empty body.
- The spaces and tabs that begin all lines of a body alike are taken away; there has to be at least one. Everything else
  of a line is kept, blanks at its end too, and so is `#`, which begins a comment of the body's own language.
- Blank lines before and between the lines of a body are empty lines of the body. Other blank lines are free.
- The lines of a body are joined by line feeds, with none at the end.

So a body can be shown in this format exactly where it is empty, or else is UTF-8 without control characters other than
line feeds and tabs, has no line of spaces and tabs alone, doesn't end in a line feed, and has a line that begins with
neither a space nor a tab, or two lines that begin with different ones.
"""

from __future__ import annotations

import os
import re
from collections.abc import Iterable, Iterator, Sequence
from typing import Optional

from .faults import BAD_DATA, Trouble, Unexpected, counted_from
from .verbs import MAX_BODY, VERBS, Request, parse_head

INDENT = "    "
BLANKS = " \t"
UNSHOWABLE = re.compile(r"[\x00-\x08\x0b-\x1f\x7f-\x9f\ud800-\udfff]")


def is_blank(line: str) -> bool:
    """Whether a line has nothing but spaces and tabs."""
    return not line.strip(BLANKS)


def is_indented(line: str) -> bool:
    """Whether a line begins with a space or a tab, and isn't blank."""
    return line.startswith(tuple(BLANKS)) and not is_blank(line)


def leading_blanks(line: str) -> str:
    """The spaces and tabs that a line begins with."""
    return line[: len(line) - len(line.lstrip(BLANKS))]


def check_characters(lines: Sequence[str]) -> None:
    """Refuses control characters."""
    for below, line in enumerate(lines):
        found = UNSHOWABLE.search(line)
        if found:
            place = f"{found[0]!r} in column {found.start() + 1}"
            raise Unexpected("no control characters but line feeds and tabs", place, below)


def check_margin(lines: Sequence[str]) -> None:
    """Refuses indented lines that don't begin with the same blank."""
    firsts = [(below, line[0]) for below, line in enumerate(lines) if not is_blank(line)]
    for below, first in firsts:
        if first != firsts[0][1]:
            wanted = f"{firsts[0][1]!r} at the start of the line, as in the lines of the body above"
            raise Unexpected(wanted, repr(first), below)


def common_margin(lines: Sequence[str]) -> str:
    """The spaces and tabs that begin all lines alike that aren't blank."""
    return os.path.commonprefix([leading_blanks(line) for line in lines if not is_blank(line)])


def body_of(lines: Sequence[str]) -> bytes:
    """The body that indented lines and the blank lines between them say."""
    check_margin(lines)
    margin = len(common_margin(lines))
    body = "\n".join("" if is_blank(line) else line[margin:] for line in lines).encode()
    if len(body) > MAX_BODY:
        raise Unexpected(f"a body of at most {MAX_BODY:,} bytes", f"{len(body):,} bytes")
    return body


def end_of_body(lines: Sequence[str], start: int) -> int:
    """Where the indented lines end, and the blank ones between them, that begin at a place."""
    end = start
    for at in range(start, len(lines)):
        if is_indented(lines[at]):
            end = at + 1
        elif not is_blank(lines[at]):
            break
    return end


def requests_of(lines: Sequence[str]) -> Iterator[Request]:
    """The requests of the lines of a readable script."""
    check_characters(lines)
    at = 0
    while at < len(lines):
        if is_blank(lines[at]) or lines[at].startswith("#"):
            at += 1
            continue
        with counted_from(at):
            check_unindented(lines[at])
            check_no_length(lines[at])
            verb, arguments = parse_head(lines[at])
        below = at + 1
        end = end_of_body(lines, below) if verb.has_body else below
        with counted_from(below):
            body = body_of(lines[below:end]) if verb.has_body else None
        yield Request(verb, arguments, body, below)
        at = end


def check_unindented(line: str) -> None:
    """Refuses an indented line where none can stand."""
    if is_indented(line):
        raise Unexpected("a verb or a comment, since no verb that takes a body is above", repr(line))


def check_no_length(line: str) -> None:
    """Refuses a frame's first line, which has the length of its body."""
    name, *words = line.split(" ")
    verb = VERBS.get(name)
    if verb and verb.has_body and len(words) == len(verb.arguments) + 1 and words[-1].isdecimal():
        hint = ", a frame's first line: no length is written here (`run` takes frames where the name ends in `.script`)"
        raise Unexpected(f"`{verb.usage}`", repr(line) + hint)


def text_of_script(data: bytes, name: str) -> str:
    """The bytes of a script as text."""
    try:
        return data.decode()
    except UnicodeDecodeError as error:
        line = data.count(b"\n", 0, error.start) + 1
        found = f"the byte 0x{data[error.start]:02x}"
        raise Trouble(f"{name}:{line}: expected UTF-8; found {found}", BAD_DATA) from None


def parse_script(data: bytes, name: str) -> list[Request]:
    """The requests of a readable script."""
    try:
        return list(requests_of(text_of_script(data, name).split("\n")))
    except Unexpected as unexpected:
        raise Trouble(f"{name}:{unexpected.below + 1}: {unexpected}", BAD_DATA) from None


def why_unshowable(body: bytes) -> Optional[str]:
    """Why a body can't be shown in a readable script; None where it can."""
    try:
        text = body.decode()
    except UnicodeDecodeError as error:
        return f"it isn't UTF-8 at its byte {error.start}"
    lines = text.split("\n")
    found = UNSHOWABLE.search(text)
    if found:
        return f"it has the control character {found[0]!r}"
    if text.endswith("\n"):
        return "it ends with a line feed"
    if any(line and is_blank(line) for line in lines):
        return "it has a line of blanks alone"
    if common_margin(lines):
        return "each of its lines begins with the same blanks"
    return None


def show_script(requests: Iterable[Request]) -> Iterator[str]:
    """The lines of the readable script of requests whose bodies can be shown."""
    for request in requests:
        yield request.head
        if request.body:
            for line in request.body.decode().split("\n"):
                yield INDENT + line if line else ""
