"""What a script of the bench is made of: triples, questions, upsert blocks and requests, with what SQLite is asked
instead; what a workload is; and the data of workloads by their size."""

from __future__ import annotations

import json
import random
import re
from collections.abc import Callable, Iterable, Iterator
from dataclasses import dataclass
from itertools import islice
from typing import NamedTuple, Optional, Union

# How many changes a transaction of a load has where something else is measured.
LARGE = 1_000
# What texts are made of.
WORDS = [front + back for front in "bdfgklmnprstvz" for back in "ab ek il om un ast erd ink".split()]


class Triple(NamedTuple):
    """What is set: an object that is a number is a node, or else a value where that is said."""

    subject: int
    predicate: str
    object: Union[int, str]
    is_value: bool = False

    @property
    def place(self) -> tuple[str, int]:
        return self.predicate, self.subject

    def text(self) -> str:
        is_node = isinstance(self.object, int) and not self.is_value
        said = f"<{self.object:#x}>" if is_node else f'"{self.object}"'
        return f"<{hex(self.subject)}> <{self.predicate}> {said} ."


class Asked(NamedTuple):
    """What is asked: a function and a filter, SQLite's statement of them with what is bound in it, and the field that
    is shown, `uid` of nodes and else a predicate of values."""

    function: str
    statement: str
    bound: tuple[Union[int, str], ...]
    filter: str = ""
    field: str = "uid"

    def text(self) -> str:
        return f"{{ q(func: {self.function}){self.filter} {{ {self.field} }} }}"

    def answer(self, rows: Iterable[tuple[Union[int, str]]]) -> str:
        """The text of an answer that has what these rows say."""
        if self.field == "uid":
            nodes = ",".join([f'{{"uid":"{node:#x}"}}' for node, in rows])
        else:
            nodes = ",".join([f'{{"{self.field}":{json.dumps(value)}}}' for value, in rows])
        return f'{{"data":{{"q":[{nodes}]}}}}'


class Block(NamedTuple):
    """An upsert block: its text, SQLite's statement of what it finds, with what is bound in it, and what is set by the
    nodes that were found, given the next new node."""

    text: str
    statement: str
    bound: tuple[str, ...]
    sets: Callable[[list[int], int], list[Triple]]


class Step(NamedTuple):
    """A request: a mutation's triples, what a query asks, an upsert block, or the definitions of an alter, which adds an
    index."""

    verb: str
    session: int
    triples: tuple[Triple, ...] = ()
    asked: Optional[Asked] = None
    block: Optional[Block] = None
    schema: str = ""
    adds: str = ""

    def frame(self) -> bytes:
        if self.verb == "alter":
            return f"alter {len(self.schema)}\n{self.schema}\n".encode()
        if self.verb == "mutate":
            body = "\n".join(triple.text() for triple in self.triples)
        elif self.asked:
            body = self.asked.text()
        elif self.block:
            body = self.block.text
        else:
            return f"{self.verb} {self.session}\n".encode()
        return f"{self.verb} {self.session} {len(body)}\n{body}\n".encode()


Steps = Iterator[Step]


def nothing(_: int) -> Steps:
    """No data are needed first."""
    return iter(())


@dataclass(frozen=True)
class Workload:
    """What is declared, what is done first, and what is measured, by size; which index SQLite has for it; whether
    transactions overlap, so that commits may be refused; and whether reads are of an older moment, which SQLite doesn't
    keep in memory."""

    name: str
    schema: str
    measured: Callable[[int], Steps]
    before: Callable[[int], Steps] = nothing
    index: str = ""
    overlaps: bool = False
    is_older: bool = False


def transactions(triples: Iterable[Triple], each: int) -> Steps:
    """The triples, so many in each transaction."""
    rest = iter(triples)
    while batch := tuple(islice(rest, each)):
        yield Step("begin", 1)
        yield Step("mutate", 1, batch)
        yield Step("commit", 1)


def adding(index: str) -> Workload:
    """An alter that adds an index to a predicate whose triples are there."""
    schema, triples = INDEXED[index]
    return Workload(
        f"an alter that adds {index}",
        re.sub(r" @[a-z]+(\([a-z]+\))?", "", schema),
        lambda size: iter([Step("alter", 0, schema=schema, adds=index)]),
        lambda size: transactions(triples(size), LARGE),
    )


def queries(questions: Iterable[Asked]) -> Steps:
    """The questions, in one transaction."""
    yield Step("begin", 1)
    yield from (Step("query", 1, asked=asked) for asked in questions)
    yield Step("discard", 1)


def sign_up(email: str) -> Block:
    """A new node for an e-mail, unless a node has it."""
    query = f'query {{ q(func: eq(email, "{email}")) {{ v as uid }} }}'
    return Block(
        f'upsert {{ {query} mutation @if(eq(len(v), 0)) {{ set {{ uid(v) <email> "{email}" . }} }} }}',
        "select s from triple where p = ? and o = ?",
        ("email", email),
        lambda found, node: [] if found else [Triple(node, "email", email)],
    )


def mark_all() -> Block:
    """A mark for each node that has a name."""
    return Block(
        'upsert { query { v as var(func: has(name)) { uid } } mutation { set { uid(v) <mark> "seen" . } } }',
        "select s from triple where p = ?",
        ("name",),
        lambda found, _: [Triple(node, "mark", "seen") for node in found],
    )


def upserts(blocks: Iterable[Block]) -> Steps:
    """The upsert blocks, each in a transaction of its own."""
    for block in blocks:
        yield Step("begin", 1)
        yield Step("upsert", 1, block=block)
        yield Step("commit", 1)


def name_of(node: int) -> Asked:
    """The name of a node."""
    return Asked(f"uid({hex(node)})", "select o from triple where p = ? and s = ?", ("name", node), field="name")


# ---------------------------------------------------------------------------------------------------
# Data
# ---------------------------------------------------------------------------------------------------


def names(size: int, many: int = 1_000) -> Iterator[Triple]:
    """A name for each node, of so many names."""
    return (Triple(node, "name", f"name {node % many}") for node in range(1, size + 1))


def texts(size: int) -> Iterator[Triple]:
    """A text of three words for each node."""
    draw = random.Random(size)
    return (Triple(node, "text", " ".join(draw.sample(WORDS, 3))) for node in range(1, size + 1))


def edges(size: int) -> Iterator[Triple]:
    """An edge from each node to one of a hundred."""
    draw = random.Random(size)
    return (Triple(node, "friend", draw.randrange(1, 101)) for node in range(1, size + 1))


def friends(size: int) -> Iterator[Triple]:
    """Five edges from each node to others at random, fewer where there are fewer nodes."""
    draw = random.Random(size)
    each = (draw.sample(range(1, size + 1), min(5, size)) for _ in range(size))
    return (Triple(node, "friend", friend) for node, some in enumerate(each, 1) for friend in sorted(some))


def ranks(size: int) -> Iterator[Triple]:
    """A number for each node, each of as many numbers once."""
    numbers = random.Random(size).sample(range(1, size + 1), size)
    return (Triple(node, "rank", number, True) for node, number in enumerate(numbers, 1))


NAME = "name: string .\n"
MARK = "name: string .\nmark: string .\n"
EMAIL = "email: string @index(exact) @upsert .\n"
RANK = "rank: int @index(int) .\n"
INDEXED = {
    "exact": ("name: string @index(exact) .\n", names),
    "term": ("text: string @index(term) .\n", texts),
    "reverse": ("friend: [uid] @reverse .\n", edges),
}
