"""Replies, as the program writes them."""

from __future__ import annotations

import re
from dataclasses import dataclass
from typing import IO, Optional

from .faults import NO_REPLY, Trouble
from .verbs import LENGTH, VERBS


@dataclass(frozen=True)
class Reply:
    """A reply: its line without the line feed, and its body, None where it has none."""

    line: bytes
    body: Optional[bytes] = None

    @property
    def is_ok(self) -> bool:
        """Whether the request was answered."""
        return self.line.startswith(b"ok ")

    @property
    def head(self) -> str:
        """The line as text, without the length of the body."""
        text = self.line.decode("utf-8", "backslashreplace")
        return text if self.body is None else text.rpartition(" ")[0]

    def written(self) -> bytes:
        """The bytes that the program wrote."""
        return self.line + b"\n" + (b"" if self.body is None else self.body + b"\n")


def length_after(line: bytes) -> Optional[int]:
    """The length of the body that a reply's line tells of; None where it has none."""
    words = line.decode("utf-8", "backslashreplace").split(" ")
    verb = VERBS.get(words[1]) if words[0] == "ok" and len(words) > 1 else None
    if verb is None and words[0] != "error":
        raise Trouble(f"no reply begins with {line!r}", NO_REPLY)
    if verb is None or not verb.answers_body:
        return None
    if not LENGTH.fullmatch(words[-1]):
        raise Trouble(f"the reply {line!r} doesn't end with the length of its body", NO_REPLY)
    return int(words[-1])


def read_reply(stream: IO[bytes]) -> Optional[Reply]:
    """The next reply; None at the end of the stream."""
    line = stream.readline()
    if not line:
        return None
    if not line.endswith(b"\n"):
        raise Trouble(f"the reply {line!r} is cut short", NO_REPLY)
    length = length_after(line[:-1])
    if length is None:
        return Reply(line[:-1])
    body = stream.read(length + 1)
    if len(body) != length + 1 or not body.endswith(b"\n"):
        raise Trouble(f"the reply {line!r} isn't followed by its body and a line feed", NO_REPLY)
    return Reply(line[:-1], body[:-1])


@dataclass(frozen=True)
class Refusal:
    """A refusal: its number, its name, and its fields as one text."""

    number: int
    name: str
    fields: str

    @classmethod
    def of(cls, reply: Reply) -> Optional[Refusal]:
        """The refusal that a reply is; None where it is none."""
        found = re.fullmatch(r"error ([0-9]{1,4}) ([A-Za-z]+)(?: (.*))?", reply.head)
        return cls(int(found[1]), found[2], found[3] or "") if found else None

    @property
    def head(self) -> str:
        """The line of the reply."""
        return f"error {self.number} {self.name} {self.fields}".rstrip()
