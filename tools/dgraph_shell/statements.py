"""The statements of a file of N-Quads, read one after another.

A statement goes on to its `.`, over any number of lines. Where a line has what begins no token, the statement ends with
that line, so that one fault doesn't reach into the next lines. Comments are left out. What a statement means, and
whether it is one at all, is the program's business.
"""

from __future__ import annotations

import re
from collections.abc import Iterable, Iterator, Mapping
from typing import NamedTuple

from .verbs import MAX_BODY

TOKEN = re.compile(
    rb"""
      (?P<blank> [\x20\t\r]+ | \#.* )
    | (?P<node> _:[A-Za-z0-9_]+ )
    | "(?:[^"\\\r]|\\.)*"
    | <[^\x00-\x20<>"{}|^`\\]+>
    | @?[A-Za-z_](?:[A-Za-z0-9_]|\.(?=[A-Za-z0-9_]))*
    | -?[0-9][0-9A-Za-z]*
    | \^\^
    | (?P<end> \.)
    | [*{}()\[\],:~]
    """,
    re.VERBOSE,
)

BLANK = b" "


class Statement(NamedTuple):
    """A statement: the line of the file that it begins in, and its tokens and the blanks between them."""

    line: int
    pieces: tuple[bytes, ...]

    def text(self, known: Mapping[bytes, bytes]) -> bytes:
        """The statement, with the nodes whose names are known named by their numbers."""
        return b"".join(known.get(piece, piece) for piece in self.pieces)

    def offset(self, known: Mapping[bytes, bytes], offset: int) -> int:
        """The byte of the statement as it stands in the file, for one of that text."""
        ours = theirs = 0
        for piece in self.pieces:
            named = known.get(piece, piece)
            if offset < theirs + len(named):
                return ours + (offset - theirs if named == piece else 0)
            ours, theirs = ours + len(piece), theirs + len(named)
        return ours + offset - theirs


def statements_of(lines: Iterable[bytes]) -> Iterator[Statement]:
    """The statements of lines, each of which has its line feed."""
    began, size = 0, 0
    pieces: list[bytes] = []
    for number, line in enumerate(lines, 1):
        for piece, is_end in pieces_of(line.rstrip(b"\n")):
            if piece == BLANK and (not pieces or pieces[-1] == BLANK):
                continue
            if not pieces:
                began, size = number, 0
            # Of one that no body holds, enough is kept to tell that.
            if size <= MAX_BODY:
                pieces.append(piece)
                size += len(piece)
            if is_end:
                yield Statement(began, tuple(pieces))
                pieces = []
        if pieces and pieces[-1] != BLANK:
            pieces.append(BLANK)
    if pieces:
        yield Statement(began, tuple(pieces[:-1]))


def pieces_of(line: bytes) -> Iterator[tuple[bytes, bool]]:
    """The tokens of a line, with one blank for those between them, and whether each ends its statement. What begins no
    token is one piece, to the end of the line."""
    at = 0
    while at < len(line):
        found = TOKEN.match(line, at)
        if not found:
            yield line[at:].rstrip(), True
            return
        yield (BLANK, False) if found["blank"] else (found[0], bool(found["end"]))
        at = found.end()
