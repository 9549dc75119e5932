"""Spots in the bodies of requests, which refusals name."""

from __future__ import annotations

import unicodedata
from dataclasses import dataclass
from typing import Optional

from .replies import Refusal
from .scripts import BLANKS, leading_blanks
from .verbs import LENGTH

OFFSETS = {"BadToken", "BadSyntax", "TooDeep"}
LINES = {"SchemaSyntax"}
PIECE = 72


@dataclass(frozen=True)
class Spot:
    """A spot in a body: the number of its line, the line, how many of its characters stand before and over the mark,
    whether it is the end of the body, and whether it is a whole line."""

    line: int
    text: str
    before: int
    marked: int = 1
    is_end: bool = False
    is_whole_line: bool = False

    def lines(self) -> list[str]:
        """The line, or the piece of a long one round the spot, and a mark under it."""
        start = max(0, self.before - PIECE // 2) if len(self.text) > PIECE else 0
        end = start + PIECE
        front, back = "..." if start else "", "..." if end < len(self.text) else ""
        under = under_text(front + self.text[start : self.before])
        marked = self.text[self.before : min(end, self.before + self.marked)]
        return [front + self.text[start:end] + back, under + "^" * max(1, width_of(marked))]


def width_of(text: str) -> int:
    """How many columns a text takes on a terminal, tabs aside."""
    return sum(width_of_character(character) for character in text)


def width_of_character(character: str) -> int:
    """How many columns a character takes on a terminal."""
    if unicodedata.category(character) in ("Mn", "Me", "Cf"):
        return 0
    return 2 if unicodedata.east_asian_width(character) in "WF" else 1


def under_text(text: str) -> str:
    """Blanks as wide as the text, with its tabs kept."""
    return "".join("\t" if c == "\t" else " " * width_of_character(c) for c in text)


def spot_at_offset(body: bytes, offset: int) -> Optional[Spot]:
    """The spot of a byte of the body, or of its end."""
    if offset > len(body):
        return None
    start = body.rfind(b"\n", 0, offset) + 1
    line, _, _ = body[start:].partition(b"\n")
    before = body[start:offset].decode("utf-8", "replace")
    text = line.decode("utf-8", "replace")
    number = body.count(b"\n", 0, offset) + 1
    return Spot(number, text, len(before), is_end=offset == len(body))


def spot_of_line(body: bytes, number: int) -> Optional[Spot]:
    """The spot of a line of the body, counted from 1."""
    lines = body.decode("utf-8", "replace").split("\n")
    if not 1 <= number <= len(lines):
        return None
    text = lines[number - 1]
    before = len(leading_blanks(text))
    return Spot(number, text, before, len(text.rstrip(BLANKS)) - before, is_whole_line=True)


def spot_of(refusal: Refusal, body: Optional[bytes]) -> Optional[Spot]:
    """The spot in the request's body that a refusal names; None where it names none."""
    if body is None or not LENGTH.fullmatch(refusal.fields):
        return None
    if refusal.name in OFFSETS:
        return spot_at_offset(body, int(refusal.fields))
    if refusal.name in LINES:
        return spot_of_line(body, int(refusal.fields))
    return None
