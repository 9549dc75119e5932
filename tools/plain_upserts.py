"""Upsert blocks, read and carried out plainly: a query, and mutations that name its variables.

The query is answered in the transaction's view, but for what it shows. Its variables decide which of the mutations are taken, and
what each of their statements stands for: one statement for each pair of nodes, in which nothing is a variable any more.
"""

from __future__ import annotations

from collections.abc import Iterator, Mapping
from typing import NamedTuple, Optional, Union

from plain_answers import HOLDS, refused_as, view_of
from plain_checks import Schema, Use, check
from plain_graph import Graph
from plain_mutations import Literal, Node, NodesOf, Object, Statement, StatementReader, ValueOf
from plain_queries import COMPARISONS, Block, Part, QueryReader
from plain_values import Moment, Posting, moment_text
from plain_variables import Variable, refuse_overflow

# ---------------------------------------------------------------------------------------------------
# What is read
# ---------------------------------------------------------------------------------------------------


class Length(NamedTuple):
    """A comparison of the number of a variable's nodes."""

    word: str
    name: str
    number: int


class Mutation(NamedTuple):
    """Statements, and the condition under which they are taken, if there is one."""

    condition: Optional[Part]
    statements: list[Statement]


class Upsert(NamedTuple):
    """The blocks of a query, and mutations."""

    blocks: list[Block]
    mutations: list[Mutation]


class UpsertReader(QueryReader, StatementReader):
    """Reads an upsert block."""

    has_variables = True

    def length(self) -> Length:
        word = self.word(*COMPARISONS)
        self.want("(")
        self.word("len")
        name = self.bracketed(self.name)
        self.want(",")
        number = self.number()
        self.want(")")
        return Length(word, name, number)

    def condition(self) -> Optional[Part]:
        if self.next().kind != "at" or self.next().says != "if":
            return None
        self.take()
        return self.bracketed(lambda: self.any_of(self.length, "or"))

    def mutation(self) -> Mutation:
        self.word("mutation")
        return Mutation(self.condition(), self.groups())

    def upsert(self) -> Upsert:
        self.word("upsert")
        self.want("{")
        self.word("query")
        blocks = self.blocks()
        mutations = [self.mutation()]
        while self.is_word("mutation"):
            mutations.append(self.mutation())
        self.want("}")
        return Upsert(blocks, mutations)


def read_upsert(text: str) -> Upsert:
    """What an upsert block says."""
    reader = UpsertReader(text)
    return reader.whole(reader.upsert)


# ---------------------------------------------------------------------------------------------------
# Variables
# ---------------------------------------------------------------------------------------------------


def lengths_in(part: Part) -> Iterator[Length]:
    """The comparisons of a condition, in the order of the text."""
    if not part.joint:
        yield part.atom
    for below in part.parts:
        yield from lengths_in(below)


def uses_of(mutations: list[Mutation]) -> Iterator[Use]:
    """The variables that mutations use, in the order of the text."""
    for condition, statements in mutations:
        if condition is not None:
            yield from (Use(length.name, False) for length in lengths_in(condition))
        for said in (said for statement in statements for said in (statement.subject, statement.object)):
            if isinstance(said, (NodesOf, ValueOf)):
                yield Use(said.name, isinstance(said, ValueOf))


Variables = Mapping[str, Variable]


def is_taken(part: Part, variables: Variables) -> bool:
    """Whether a condition holds."""
    if not part.joint:
        word, name, number = part.atom
        holds = HOLDS[word](len(variables[name].nodes), number)
    else:
        holds = (any if part.joint == "or" else all)(is_taken(below, variables) for below in part.parts)
    return holds != (part.nots % 2 == 1)


# ---------------------------------------------------------------------------------------------------
# What statements stand for
# ---------------------------------------------------------------------------------------------------


def text_of_value(posting: Posting) -> str:
    """The text of a value, as a statement would say it."""
    value = posting.value()
    if isinstance(value, Moment):
        return moment_text(value)
    return str(value).lower() if isinstance(value, bool) else str(value)


def nodes_for(said: NodesOf, deletes: bool, variables: Variables) -> list[Node]:
    """The nodes that a variable stands for: its own, ascending; where it has none, in a set a new one that is named after it."""
    nodes = [Node(uid) for uid in sorted(variables[said.name].nodes)]
    return nodes if nodes or deletes else [Node(0, f"uid({said.name})")]


def objects_for(said: Object, subject: Node, deletes: bool, variables: Variables) -> list[Union[Node, Literal, None]]:
    """What an object stands for beside a subject."""
    if isinstance(said, NodesOf):
        return [*nodes_for(said, deletes, variables)]
    if isinstance(said, ValueOf):
        # A new node is no variable's, and its number is 0 here.
        value = variables[said.name].values.get(subject.uid)
        return [] if value is None else [Literal(text_of_value(value), None)]
    return [said]


def given_by(statement: Statement, variables: Variables) -> Iterator[Statement]:
    """The statements that one stands for."""
    said, deletes = statement.subject, statement.deletes
    for subject in nodes_for(said, deletes, variables) if isinstance(said, NodesOf) else [said]:
        for one in objects_for(statement.object, subject, deletes, variables):
            yield Statement(deletes, subject, statement.predicate, one)


def statements_of(graph: Graph, schema: Schema, text: str) -> Iterator[Statement]:
    """The statements that an upsert block gives over a graph under a schema; else a refusal."""
    blocks, mutations = refused_as(lambda: read_upsert(text))
    check(schema, blocks, uses_of(mutations))
    view = view_of(graph, schema, blocks)
    refuse_overflow(view, blocks)
    for condition, statements in mutations:
        if condition is None or is_taken(condition, view.variables):
            for statement in statements:
                yield from given_by(statement, view.variables)
