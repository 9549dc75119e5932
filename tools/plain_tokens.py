"""Tokens, refusals, and reading from the left, written plainly.

One lexer serves schemas, mutations and queries: the longest token wins, and a byte at which none starts is told by its
offset.
"""

from __future__ import annotations

import re
from typing import NamedTuple, Optional

LONGEST_NAME = 64


class Refusal(Exception):
    """A numbered refusal, with its name and fields."""

    def __init__(self, number: int, *words: object) -> None:
        super().__init__(number)
        self.line = " ".join(str(word) for word in ("error", number, *words))


# ---------------------------------------------------------------------------------------------------
# Tokens
# ---------------------------------------------------------------------------------------------------


class Token(NamedTuple):
    """A token: its kind (a mark is its own kind), what it says, and its first byte."""

    kind: str
    says: str
    offset: int


NAME = re.compile(r"[A-Za-z_](?:[A-Za-z0-9_]|\.(?=[A-Za-z0-9_]))*")
UID = re.compile(r"0x[0-9a-fA-F]{1,16}")
FORMS = [
    ("name", NAME),
    ("blank", re.compile(r"_:[A-Za-z0-9_]+")),
    ("int", re.compile(r"-?[0-9]+")),
    ("uid", UID),
    ("quoted", re.compile(r'"(?:[^"\\\n\r]|\\.)*"')),
    ("iri", re.compile(r'<[^\0-\x20<>"{}|^`\\]+>')),
    ("at", re.compile("@" + NAME.pattern)),
    ("regex", re.compile(r"/(?:[^/\n\\]|\\[\s\S])+/i?")),
    ("caret", re.compile(r"\^\^")),
    ("mark", re.compile(r"[{}()\[\],:.~*]")),
]
BLANKS = re.compile(r"(?:[ \t\r\n]|#[^\n]*)*")
ESCAPE = re.compile(r"\\(?:u([0-9a-fA-F]{4})|U([0-9a-fA-F]{8})|(.))")
ESCAPED = dict(zip("tbnrf\"'\\/", "\t\b\n\r\f\"'\\/"))


def unescape(text: str) -> Optional[str]:
    """What stands between quotes, where each escape is one of the language."""
    said, at = [], 0
    for escape in ESCAPE.finditer(text):
        code = int(escape[1] or escape[2] or "0", 16)
        if escape[3] is not None and escape[3] not in ESCAPED:
            return None
        if code > 0x10FFFF or 0xD800 <= code <= 0xDFFF:
            return None
        said += [text[at : escape.start()], ESCAPED[escape[3]] if escape[3] else chr(code)]
        at = escape.end()
    return "".join(said) + text[at:]


def spelled(kind: str, text: str) -> Optional[str]:
    """What a text of the form of a kind says, where it is a token of that kind."""
    if kind == "quoted":
        return unescape(text[1:-1])
    if kind == "uid":
        return text if int(text, 16) else None
    if kind in ("name", "blank", "at"):
        said = {"name": text, "blank": text[2:], "at": text[1:]}[kind]
        return said if len(said) <= LONGEST_NAME else None
    return text[1:-1] if kind == "iri" else text


def lex(text: str) -> tuple[list[Token], Optional[int]]:
    """The tokens of a text up to a byte that begins none, if there is one."""
    tokens: list[Token] = []
    at = BLANKS.match(text).end()  # type: ignore[union-attr]
    counted, offset = 0, 0
    while at < len(text):
        offset += len(text[counted:at].encode())
        counted = at
        matched = [(match.end(), kind) for kind, form in FORMS if (match := form.match(text, at))]
        ends = {end: kind for end, kind in matched if spelled(kind, text[at:end]) is not None}
        longest = max(ends, default=at)
        # A name or a node's name that is too long begins no token, rather than a shorter one.
        if longest == at or longest < max(end for end, kind in matched if kind != "uid"):
            return tokens, offset
        kind = ends[longest]
        said = spelled(kind, text[at:longest])
        tokens.append(Token(said if kind == "mark" else kind, said, offset))  # type: ignore[arg-type]
        at = BLANKS.match(text, longest).end()  # type: ignore[union-attr]
    return tokens, None


def text_of(body: bytes) -> str:
    try:
        return body.decode()
    except UnicodeDecodeError as fault:
        raise Refusal(3, "BadToken", fault.start) from None


class Reader:
    """Tokens that are read from the left; the end of the text is a token of its own."""

    def __init__(self, tokens: list[Token], end: Token) -> None:
        self.tokens = [*tokens, end]
        self.at = 0

    def next(self) -> Token:
        return self.tokens[self.at]

    def take(self) -> Token:
        self.at += 1
        return self.tokens[self.at - 1]

    def refuse(self, token: Token) -> Refusal:
        raise NotImplementedError

    def want(self, kind: str) -> Token:
        if self.next().kind != kind:
            raise self.refuse(self.next())
        return self.take()


def is_whole(form: re.Pattern[str], text: str) -> bool:
    return form.fullmatch(text) is not None and len(text) <= LONGEST_NAME
