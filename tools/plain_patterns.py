"""Patterns, read as Python reads them, of a part of their language: the faults that are known are refused, and what isn't known is
not answered.
"""

from __future__ import annotations

import re
from typing import NamedTuple

from plain_graph import folded

ESCAPED = r"\\[!-/:;=?@\[-`{-~]"
CLASSED = rf"(?:[^\\\[\]^&~\-]|{ESCAPED})"
CLASS = re.compile(rf"\[(\^?)((?:{CLASSED}(?:-{CLASSED})?)+)\]")
PIECE = re.compile(rf"(?P<atom>{CLASS.pattern}|{ESCAPED}|[^\\\[\](){{}}|?*+])(?P<often>[?*+]\??)?(?![?*+{{])")
RANGE = re.compile(rf"({CLASSED})(?:-({CLASSED}))?")


class BadPattern(Exception):
    """A pattern that no one reads."""


class UnknownPattern(Exception):
    """A pattern beyond the part of the language that is read here."""


class Pattern(NamedTuple):
    """A pattern of Python, and whether texts are folded before it is looked for."""

    form: re.Pattern[str]
    folds: bool

    def is_in(self, text: str) -> bool:
        return self.form.search("".join(map(folded, text)) if self.folds else text) is not None


def bare(character: str) -> str:
    """A character of a pattern without its escape."""
    return character[-1]


def class_form(negated: str, inside: str, folds: bool) -> str:
    """A class of characters, each folded where case doesn't count."""
    members: list[str] = []
    for low, high in RANGE.findall(inside):
        if high and bare(high) < bare(low):
            raise BadPattern(inside)
        members += map(chr, range(ord(bare(low)), ord(bare(high or low)) + 1))
    if len(members) > 1000:
        raise UnknownPattern(inside)
    return f"[{negated}{''.join(re.escape(folded(one) if folds else one) for one in members)}]"


def atom_form(atom: str, folds: bool) -> str:
    """An atom as Python reads it: a class, a mark, or a character for itself."""
    in_class = CLASS.fullmatch(atom)
    if in_class:
        return class_form(in_class[1], in_class[2], folds)
    if atom in (".", "^", "$"):
        return {"$": r"\Z"}.get(atom, atom)
    return re.escape(folded(bare(atom)) if folds else bare(atom))


def is_faulty(rest: str) -> bool:
    """Whether what is left of a pattern, behind whole pieces, is known to be no pattern."""
    unclosed = rest[0] == "(" and ")" not in rest or rest[0] == "[" and "]" not in rest
    return unclosed or rest[0] in ")?*+" or bool(re.match(r"\\[0-9]", rest))


def pattern_of(text: str, folds: bool) -> Pattern:
    """What a pattern says: characters, `.`, classes, `^`, `$`, and `?`, `*` and `+` behind one of these."""
    form, at = "", 0
    while at < len(text):
        piece = PIECE.match(text, at)
        if piece is None or piece["atom"] in ("^", "$") and piece["often"]:
            raise BadPattern(text) if piece is None and is_faulty(text[at:]) else UnknownPattern(text)
        form += atom_form(piece["atom"], folds) + (piece["often"] or "")
        at = piece.end()
    return Pattern(re.compile(form), folds)
