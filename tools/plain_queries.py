"""The query language, read plainly by recursive descent.

A case beside the grammar notes the offset of the token that it refuses, and reading goes on; the first of these places
and of the token that the grammar doesn't allow is the fault. `read_query` gives the blocks of a query;
`rows_queries.py` prints them for the rows `queries` of `table_checks`, and `plain_answers.py` answers them.
"""

from __future__ import annotations

from collections.abc import Callable
from typing import Any, NamedTuple, Optional, TypeVar, Union

from plain_tokens import Reader, Token, lex
from plain_values import number_of

Said = TypeVar("Said")

MOST_OPEN = 32
COMPARISONS = ("eq", "le", "lt", "ge", "gt")
TERMS = ("anyofterms", "allofterms")
FUNCTIONS = (*COMPARISONS, *TERMS, "uid", "between", "has", "regexp", "uid_in")
AGGREGATES = ("min", "max", "sum")
RESERVED = ("uid", "count", "val", *AGGREGATES, "as", "expand")
DIRECTIVES = ("filter", "cascade", "normalize", "recurse")
ARGUMENTS = ("first", "offset", "after", "orderasc", "orderdesc")


# ---------------------------------------------------------------------------------------------------
# What is read
# ---------------------------------------------------------------------------------------------------


class Edge(NamedTuple):
    """A predicate, and whether it is followed from the object to the subject."""

    back: bool
    predicate: str


class Count(NamedTuple):
    """The number of what an edge leads to, or of objects."""

    edge: Edge


class Val(NamedTuple):
    """The value of a variable."""

    name: str


class Function(NamedTuple):
    """A function: its word, what it is asked of (nothing for `uid`), and what stands behind that: texts of literals, of
    terms or of a pattern, or nodes (numbers) and variables (names)."""

    word: str
    of: Union[str, Edge, Count, Val, None]
    values: list[Any]
    # The flag of a pattern.
    folds: bool = False


class Part(NamedTuple):
    """A part of a filter or a condition, and how many `not` stand before it: an atom, or parts with a joint."""

    nots: int
    joint: str
    parts: list[Part]
    atom: Any


class Argument(NamedTuple):
    """An argument of a list of nodes: a number, or an order by a predicate or a variable."""

    word: str
    value: Union[int, str, Val]


class Directive(NamedTuple):
    """A directive, with its filter or its options where it has any."""

    word: str
    filter: Optional[Part] = None
    options: Optional[list[tuple[str, Union[int, str]]]] = None


class Uid(NamedTuple):
    """The field `uid`."""


class CountUid(NamedTuple):
    """The field `count(uid)`."""


class Aggregate(NamedTuple):
    """The least, the greatest or the sum of a variable's values."""

    word: str
    name: str


class Followed(NamedTuple):
    """A predicate as a field, and what stands behind it; None where brackets or braces don't stand."""

    edge: Edge
    arguments: Optional[list[Argument]]
    directives: list[Directive]
    fields: Optional[list[Field]]


class Field(NamedTuple):
    """A field, with the names of its variable and its alias; empty where it has none."""

    variable: str
    alias: str
    item: Union[Uid, CountUid, Count, Val, Aggregate, Followed]


class Block(NamedTuple):
    """A block, with the name of its variable; empty where it has none."""

    variable: str
    name: str
    function: Optional[Function]
    arguments: list[Argument]
    directives: list[Directive]
    fields: list[Field]


class Fault(Exception):
    """What is wrong, by a letter (T: no token, D: too deep, S: not in the grammar), and the offset of it."""

    def __init__(self, letter: str, offset: int) -> None:
        super().__init__(letter, offset)
        self.letter = letter
        self.offset = offset


class Around:
    """What is known of the block in which a field stands."""

    def __init__(self, has_func: bool) -> None:
        self.has_func = has_func
        self.recurse = False


# ---------------------------------------------------------------------------------------------------
# The reader
# ---------------------------------------------------------------------------------------------------


class QueryReader(Reader):
    """Reads a query, and notes each token that a case beside the grammar refuses."""

    def __init__(self, text: str) -> None:
        tokens, stop = lex(text)
        if stop is not None:
            raise Fault("T", stop)
        opened = 0
        for token in tokens:
            opened += (token.kind in ("{", "(", "[")) - (token.kind in ("}", ")", "]"))
            if opened > MOST_OPEN:
                raise Fault("D", token.offset)
        super().__init__(tokens, Token("end", "", len(text.encode())))
        self.refused: list[int] = []

    # ---- tokens

    def refuse(self, token: Token) -> Fault:  # type: ignore[override]
        return Fault("S", token.offset)

    def case(self, holds: bool, offset: Optional[int]) -> None:
        if holds and offset is not None:
            self.refused.append(offset)

    def second(self) -> Token:
        return self.tokens[min(self.at + 1, len(self.tokens) - 1)]

    def is_word(self, *words: str) -> bool:
        return self.next().kind == "name" and self.next().says in words

    def is_joint(self, word: str) -> bool:
        return self.next().kind == "name" and self.next().says.lower() == word

    def word(self, *words: str) -> str:
        if not self.is_word(*words):
            raise self.refuse(self.next())
        return self.take().says

    def name(self) -> str:
        return self.want("name").says

    def number(self) -> int:
        token = self.want("int")
        number = number_of(token.says)
        self.case(number is None, token.offset)
        return number or 0

    def predicate(self) -> str:
        token = self.want("name")
        self.case(token.says in RESERVED, token.offset)
        return token.says

    def edge(self) -> Edge:
        back = self.next().kind == "~"
        if back:
            self.take()
        return Edge(back, self.predicate())

    def bracketed(self, read: Callable[[], Said]) -> Said:
        self.want("(")
        said = read()
        self.want(")")
        return said

    def val(self) -> Val:
        self.word("val")
        return Val(self.bracketed(self.name))

    def by_commas(self, read: Callable[[], Said]) -> list[Said]:
        said = [read()]
        while self.next().kind == ",":
            self.take()
            said.append(read())
        return said

    # ---- functions

    def node(self) -> Union[int, str]:
        token = self.next()
        if token.kind not in ("uid", "name"):
            raise self.refuse(token)
        self.take()
        return int(token.says, 16) if token.kind == "uid" else token.says

    def nodes(self) -> list[Union[int, str]]:
        return self.by_commas(self.node)

    def literal(self) -> str:
        token = self.next()
        if token.kind == "int":
            self.number()
        elif token.kind == "quoted" or self.is_word("true", "false"):
            self.take()
        else:
            raise self.refuse(token)
        return token.says

    def literals(self, many: bool) -> list[str]:
        first = self.next()
        if first.kind == "[":
            self.case(not many, first.offset)
            self.take()
        said = [self.literal()]
        while self.next().kind == ",":
            self.take()
            offset = self.next().offset
            said.append(self.literal())
            self.case(not many, offset)
        if first.kind == "[":
            self.want("]")
        return said

    def compared(self) -> Union[str, Count, Val]:
        if self.is_word("count"):
            self.take()
            return Count(self.bracketed(self.edge))
        return self.value_or_predicate()

    def value_or_predicate(self) -> Union[str, Val]:
        return self.val() if self.is_word("val") else self.predicate()

    def function(self, root: bool) -> Function:
        offset = self.next().offset
        word = self.word(*FUNCTIONS)
        self.case(root and word == "uid_in", offset)
        return self.bracketed(lambda: self.inside(word))

    def inside(self, word: str) -> Function:
        if word == "uid":
            return Function(word, None, self.nodes())
        if word == "has":
            return Function(word, self.edge(), [])
        if word in COMPARISONS or word == "between":
            of = self.compared()
            self.want(",")
            return Function(word, of, self.bounds() if word == "between" else self.literals(word == "eq"))
        if word == "uid_in":
            edge = self.edge()
            self.want(",")
            return Function(word, edge, self.nodes())
        predicate = self.predicate()
        self.want(",")
        if word in TERMS:
            return Function(word, predicate, [self.want("quoted").says])
        pattern, _, flag = self.want("regex").says[1:].rpartition("/")
        return Function(word, predicate, [pattern.replace("\\/", "/")], bool(flag))

    def bounds(self) -> list[str]:
        low = self.literal()
        self.want(",")
        return [low, self.literal()]

    # ---- filters and conditions

    def any_of(self, atom: Callable[[], Any], joint: str) -> Part:
        below = (lambda: self.negated(atom)) if joint == "and" else (lambda: self.any_of(atom, "and"))
        parts = [below()]
        while self.is_joint(joint):
            self.take()
            parts.append(below())
        return parts[0] if len(parts) == 1 else Part(0, joint, parts, None)

    def negated(self, atom: Callable[[], Any]) -> Part:
        nots = 0
        while self.is_joint("not"):
            self.take()
            nots += 1
        if self.next().kind != "(":
            return Part(nots, "", [], atom())
        part = self.bracketed(lambda: self.any_of(atom, "or"))
        return part._replace(nots=nots + part.nots)

    def filter(self) -> Part:
        return self.any_of(lambda: self.function(False), "or")

    # ---- arguments and directives

    def argument(self) -> Argument:
        word = self.word(*ARGUMENTS)
        self.want(":")
        if word in ("first", "offset"):
            return Argument(word, self.number())
        if word == "after":
            return Argument(word, int(self.want("uid").says, 16))
        return Argument(word, self.value_or_predicate())

    def option(self, before: list[str]) -> tuple[str, Union[int, str]]:
        offset = self.next().offset
        word = self.word("depth", "loop")
        self.case(word in before, offset)
        before.append(word)
        self.want(":")
        return word, self.number() if word == "depth" else self.word("true", "false")

    def options(self) -> list[tuple[str, Union[int, str]]]:
        before: list[str] = []
        return self.by_commas(lambda: self.option(before))

    def directives(self, around: Around, block: bool, as_offset: Optional[int]) -> list[Directive]:
        said: list[Directive] = []
        seen: dict[str, int] = {}
        while self.next().kind == "at" and self.next().says in DIRECTIVES:
            token = self.take()
            word = token.says
            self.case(not around.has_func or word in seen, token.offset)
            in_recursion = around.recurse or block and "recurse" in seen
            self.case(word == "cascade" and in_recursion, token.offset)
            self.case(word == "normalize" and (in_recursion or not block), token.offset)
            self.case(word == "recurse" and not block, token.offset)
            if word == "recurse" and block:
                for offset in (as_offset, seen.get("cascade"), seen.get("normalize")):
                    self.case(True, offset)
            seen.setdefault(word, token.offset)
            said.append(self.directive(word))
        if block:
            around.recurse = "recurse" in seen
        return said

    def directive(self, word: str) -> Directive:
        """What stands behind the word of a directive."""
        if word == "filter":
            return Directive(word, self.bracketed(self.filter))
        if word == "recurse" and self.next().kind == "(":
            return Directive(word, None, self.bracketed(self.options))
        return Directive(word)

    # ---- fields

    def variable(self) -> tuple[str, Optional[int]]:
        """The name before an `as`, and the place of that word."""
        if self.next().kind == "name" and self.second().kind == "name" and self.second().says == "as":
            return self.take().says, self.take().offset
        return "", None

    def fields(self, around: Around) -> list[Field]:
        said: list[Field] = []
        keys: set[str] = set()
        self.want("{")
        while self.next().kind in ("name", "~"):
            said.append(self.field(around, keys))
        self.want("}")
        return said

    def field(self, around: Around, keys: set[str]) -> Field:
        variable, as_offset = self.variable()
        self.case(not around.has_func or around.recurse, as_offset)
        alias = ""
        if self.next().kind == "name" and self.second().kind == ":":
            alias = self.take().says
            self.take()
        offset = self.next().offset
        self.case(bool(alias) and alias in keys, offset)
        self.case(self.is_word(*AGGREGATES) and around.has_func, offset)
        self.case(not self.is_word(*AGGREGATES) and not around.has_func, offset)

        def keyed(key: str) -> None:
            self.case(not alias and key in keys, offset)
            keys.add(alias or key)

        item = self.item(around, as_offset, offset, keyed)
        if self.next().kind == ",":
            self.take()
        return Field(variable, alias, item)

    def item(
        self, around: Around, as_offset: Optional[int], offset: int, keyed: Callable[[str], None]
    ) -> Union[Uid, CountUid, Count, Val, Aggregate, Followed]:
        if self.is_word("uid"):
            keyed(self.take().says)
            return Uid()
        if self.is_word("count"):
            self.take()
            return self.counted(around, as_offset, offset, keyed)
        if self.is_word("val"):
            self.case(True, as_offset)
            val = self.val()
            keyed(f"val({val.name})")
            return val
        if self.is_word(*AGGREGATES):
            word = self.take().says
            name = self.bracketed(self.val).name
            keyed(f"{word}(val({name}))")
            return Aggregate(word, name)
        edge = self.edge()
        keyed(key_of(edge))
        return self.behind_edge(edge, around)

    def counted(
        self, around: Around, as_offset: Optional[int], offset: int, keyed: Callable[[str], None]
    ) -> Union[CountUid, Count]:
        self.want("(")
        if self.is_word("uid"):
            self.take()
            self.want(")")
            self.case(True, as_offset)
            self.case(around.recurse, offset)
            keyed("count")
            return CountUid()
        edge = self.edge()
        self.want(")")
        keyed(f"count({key_of(edge)})")
        return Count(edge)

    def behind_edge(self, edge: Edge, around: Around) -> Followed:
        arguments: Optional[list[Argument]] = None
        if self.next().kind == "(":
            self.take()
            arguments = self.by_commas(self.argument) if self.is_word(*ARGUMENTS) else []
            self.want(")")
        directives = self.directives(around, False, None)
        fields: Optional[list[Field]] = None
        if self.next().kind == "{":
            self.case(around.recurse, self.next().offset)
            fields = self.fields(around)
        return Followed(edge, arguments, directives, fields)

    # ---- blocks

    def block(self, names: set[str]) -> Block:
        variable, as_offset = self.variable()
        offset = self.next().offset
        name = self.name()
        self.case(name != "var" and name in names, offset)
        names.add(name)
        self.want("(")
        function: Optional[Function] = None
        arguments: list[Argument] = []
        if self.is_word("func"):
            self.take()
            self.want(":")
            function = self.function(True)
            if self.next().kind == ",":
                self.take()
                arguments = self.by_commas(self.argument)
        self.want(")")
        self.case(function is None, as_offset)
        around = Around(function is not None)
        directives = self.directives(around, True, as_offset)
        return Block(variable, name, function, arguments, directives, self.fields(around))

    def blocks(self) -> list[Block]:
        said: list[Block] = []
        names: set[str] = set()
        self.want("{")
        while self.next().kind == "name":
            said.append(self.block(names))
        self.want("}")
        return said

    def query(self) -> list[Block]:
        if self.is_word("query"):
            self.take()
        return self.blocks()

    def whole(self, read: Callable[[], Said]) -> Said:
        """What is read to the end; a fault at the first token that a case or the grammar refuses."""
        try:
            said = read()
            self.want("end")
        except Fault as fault:
            raise Fault("S", min([*self.refused, fault.offset])) from None
        if self.refused:
            raise Fault("S", min(self.refused))
        return said


def key_of(edge: Edge) -> str:
    """The key of an edge."""
    return ("~" if edge.back else "") + edge.predicate


def read_query(text: str) -> list[Block]:
    """The blocks of a query."""
    reader = QueryReader(text)
    return reader.whole(reader.query)
