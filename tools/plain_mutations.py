"""The language of mutations, read plainly.

A statement of an upsert block may name a variable in the place of a node or of a text; `plain_upserts.py` reads those, and says
what such a statement stands for.
"""

from __future__ import annotations

from collections.abc import Iterator
from typing import NamedTuple, Optional, Union

from plain_tokens import NAME, UID, Reader, Refusal, Token, is_whole, lex

TYPES = {
    prefix + word: kind
    for prefix in ("xs:", "http://www.w3.org/2001/XMLSchema#")
    for word, kind in {
        "string": "string",
        "int": "int",
        "integer": "int",
        "boolean": "bool",
        "dateTime": "dateTime",
        "date": "dateTime",
    }.items()
}


class Node(NamedTuple):
    """A node by its number, or a new one by its name."""

    uid: int
    name: str = ""


class Literal(NamedTuple):
    text: str
    kind: Optional[str]


class NodesOf(NamedTuple):
    """The nodes of a variable."""

    name: str


class ValueOf(NamedTuple):
    """The value of a variable at the subject."""

    name: str


Object = Union[Node, Literal, NodesOf, ValueOf, None]


class Statement(NamedTuple):
    """A triple that is set or deleted; None as the object stands for each that there is."""

    deletes: bool
    subject: Union[Node, NodesOf]
    predicate: str
    object: Object


class StatementReader(Reader):
    """Reads statements, which name variables in upsert blocks alone."""

    has_variables = False

    def behind_word(self) -> str:
        """The name in the brackets behind `uid` or `val`, which is refused itself where there are no variables."""
        word = self.take()
        if self.next().kind == "(" and not self.has_variables:
            raise self.refuse(word)
        self.want("(")
        name = self.want("name").says
        self.want(")")
        return name

    def subject(self, deletes: bool) -> Union[Node, NodesOf]:
        token = self.next()
        if token.kind == "name" and token.says == "uid":
            return NodesOf(self.behind_word())
        if token.kind == "iri" and UID.fullmatch(token.says) and int(token.says, 16):
            return Node(int(self.take().says, 16))
        if token.kind == "blank" and not deletes:
            return Node(0, self.take().says)
        raise self.refuse(token)

    def stated(self) -> str:
        """The predicate of a statement."""
        token = self.next()
        if token.kind not in ("name", "iri") or not is_whole(NAME, token.says):
            raise self.refuse(token)
        return self.take().says

    def text(self) -> Literal:
        text, kind = self.take().says, None
        if self.next().kind == "caret":
            self.take()
            if self.next().kind != "iri" or self.next().says not in TYPES:
                raise self.refuse(self.next())
            kind = TYPES[self.take().says]
        return Literal(text, kind)

    def object(self, deletes: bool) -> Object:
        token = self.next()
        if token.kind == "name" and token.says == "val":
            return ValueOf(self.behind_word())
        if token.kind == "*" and deletes:
            self.take()
            return None
        return self.text() if token.kind == "quoted" else self.subject(deletes)

    def statement(self, deletes: bool) -> Statement:
        read = Statement(deletes, self.subject(deletes), self.stated(), self.object(deletes))
        if self.next().kind in ("iri", "blank", "quoted"):
            self.take()
        self.want(".")
        return read

    def group(self) -> Iterator[Statement]:
        word = self.next()
        if word.kind != "name" or word.says not in ("set", "delete"):
            raise self.refuse(word)
        self.take()
        self.want("{")
        while self.next().kind != "}":
            yield self.statement(word.says == "delete")
        self.take()

    def groups(self) -> list[Statement]:
        """The statements of groups in braces."""
        read: list[Statement] = []
        self.want("{")
        while self.next().kind != "}":
            read.extend(self.group())
        self.take()
        return read


class MutationReader(StatementReader):
    """Reads the body of a mutation."""

    def __init__(self, text: str) -> None:
        tokens, stop = lex(text)
        if stop is not None:
            raise Refusal(3, "BadToken", stop)
        super().__init__(tokens, Token("end", "", len(text.encode())))

    def refuse(self, token: Token) -> Refusal:
        return Refusal(4, "BadSyntax", token.offset)

    def read(self) -> list[Statement]:
        read: list[Statement] = []
        if self.next().kind != "{":
            while self.next().kind != "end":
                read.append(self.statement(False))
            return read
        read = self.groups()
        self.want("end")
        return read
