"""The questions of the bench, each of which is asked over and over in one transaction."""

from __future__ import annotations

import random
from collections.abc import Callable, Iterable, Iterator
from dataclasses import dataclass
from itertools import chain, groupby, islice
from typing import Union

from bench_steps import (
    INDEXED, LARGE, NAME, RANK, WORDS, Asked, Triple, Workload, friends, name_of, names, queries, ranks, texts, transactions,
)  # fmt: skip


@dataclass(frozen=True)
class Question:
    """What is asked over and over in one transaction: what is declared and stored first, by the number of nodes; one
    question, drawn at random; about how many microseconds it takes; and which index SQLite has for it."""

    name: str
    schema: str
    stored: Callable[[int], Iterator[Triple]]
    drawn: Callable[[int, random.Random], Asked]
    takes: Callable[[int], int]
    index: str = ""

    def times(self, size: int) -> int:
        """How often it is asked: so that the queries together take about as long as a load under an index."""
        return max(4, 15 * max(size, 5_000) // self.takes(size))

    def questions(self, size: int) -> Iterator[Asked]:
        """What is asked, without an end."""
        draw = random.Random(size)
        while True:
            yield self.drawn(size, draw)

    def workload(self) -> Workload:
        """All of its queries, behind a load."""
        return Workload(
            self.name,
            self.schema,
            lambda size: queries(islice(self.questions(size), self.times(size))),
            lambda size: transactions(self.stored(size), LARGE),
            self.index,
        )


def named(number: int) -> Asked:
    """The nodes of a name."""
    name = f"name {number}"
    return Asked(f'eq(name, "{name}")', "select s from triple where p = ? and o = ? order by s", ("name", name))


def between(many: int, size: int, draw: random.Random) -> Asked:
    """So many nodes by their numbers, or all where there are fewer."""
    first = draw.randint(1, max(1, size - many + 1))
    last = first + many - 1
    return Asked(
        f"between(rank, {first}, {last})",
        "select s from triple indexed by by_object where p = ? and o between ? and ? order by s",
        ("rank", first, last),
    )


def from_on(least: int) -> Asked:
    """The nodes of this number and greater ones."""
    return Asked(
        f"ge(rank, {least})",
        "select s from triple indexed by by_object where p = ? and o >= ? order by s",
        ("rank", least),
    )


def half_of_thousand(size: int, draw: random.Random) -> Asked:
    """A half of a thousand nodes, by the order of their names."""
    asked = between(1_000, size, draw)
    return Asked(
        asked.function,
        "select t.s from triple t indexed by by_object cross join triple u "
        "where t.p = ? and t.o between ? and ? and u.p = ? and u.s = t.s and u.o >= ? and u.o < ? order by t.s",
        (*asked.bound, "name", "name 2", "name 7"),
        ' @filter(ge(name, "name 2") and lt(name, "name 7"))',
    )


def with_any(words: list[str]) -> Asked:
    """The nodes with one of these words."""
    marks = ", ".join("?" for _ in words)
    return Asked(
        f'anyofterms(text, "{" ".join(words)}")',
        f"select distinct s from word where p = ? and w in ({marks}) order by s",
        ("text", *words),
    )


def with_both(words: list[str]) -> Asked:
    """The nodes with two words."""
    return Asked(
        f'allofterms(text, "{" ".join(words)}")',
        "select a.s from word a join word b on b.p = a.p and b.s = a.s "
        "where a.p = ? and a.w = ? and b.w = ? order by a.s",
        ("text", *words),
    )


class Hops(Asked):
    """The nodes that are three edges away from one, each under those that lead to it."""

    def text(self) -> str:
        return f"{{ q(func: {self.function}) {{ friend {{ friend {{ friend {{ uid }} }} }} }} }}"

    def answer(self, rows: Iterable[tuple[Union[int, str], ...]]) -> str:
        return f'{{"data":{{"q":[{nested(list(rows))}]}}}}'


def nested(rows: list[tuple[Union[int, str], ...]]) -> str:
    """The object of a node, by the ways that lead on from it."""
    if len(rows[0]) == 1:
        return '{"friend":[' + ",".join(f'{{"uid":"{row[0]:#x}"}}' for row in rows) + "]}"
    groups = groupby(rows, lambda row: row[0])
    return '{"friend":[' + ",".join(nested([row[1:] for row in group]) for _, group in groups) + "]}"


def three_hops(size: int, draw: random.Random) -> Hops:
    """The nodes that are three edges away from one at random."""
    node = draw.randrange(1, size + 1)
    return Hops(
        f"uid({node:#x})",
        "select a.o, b.o, c.o from triple a join triple b on b.p = a.p and b.s = a.o join triple c on c.p = b.p and c.s = b.o "
        "where a.p = ? and a.s = ? order by 1, 2, 3",
        ("friend", node),
    )


def read_of(terms: int, size: int) -> int:
    """About how many microseconds it takes to read the nodes that so many terms list, of three terms for each node."""
    return 10 + terms * 3 * size // len(WORDS) // 2


HOLDERS = Asked("has(name)", "select distinct s from triple where p = ? order by s", ("name",))
EXACT, TERM = INDEXED["exact"][0], INDEXED["term"][0]

QUESTIONS = [
    Question(
        "query: a value of a node",
        NAME,
        names,
        lambda size, draw: name_of(draw.randrange(1, size + 1)),
        lambda size: 10,
    ),
    Question(
        "query: eq, one node",
        EXACT,
        lambda size: names(size, size),
        lambda size, draw: named(draw.randrange(size)),
        lambda size: 10,
        "exact",
    ),
    Question(
        "query: eq, a tenth of the nodes",
        EXACT,
        lambda size: names(size, 10),
        lambda size, draw: named(draw.randrange(10)),
        lambda size: 10 + size // 25,
        "exact",
    ),
    Question(
        "query: between, 100 nodes",
        RANK,
        ranks,
        lambda size, draw: between(100, size, draw),
        lambda size: 300,
        "int",
    ),
    Question(
        "query: ge, 100 nodes",
        RANK,
        ranks,
        lambda size, draw: from_on(max(1, size - 99)),
        lambda size: 300,
        "int",
    ),
    *(
        Question(
            f"query: anyofterms, {many} term{'s' if many > 1 else ''}",
            TERM,
            texts,
            lambda size, draw, many=many: with_any(draw.sample(WORDS, many)),  # type: ignore[misc]
            lambda size, many=many: read_of(many, size),  # type: ignore[misc]
            "term",
        )
        for many in (1, 4)
    ),
    Question(
        "query: allofterms, 2 terms",
        TERM,
        texts,
        lambda size, draw: with_both(draw.sample(WORDS, 2)),
        lambda size: read_of(2, size),
        "term",
    ),
    Question("query: has, all nodes", NAME, names, lambda size, draw: HOLDERS, lambda size: 10 + size * 3 // 2),
    Question(
        "query: filter of two functions, 1,000 nodes",
        NAME + RANK,
        lambda size: chain(names(size, 10), ranks(size)),
        half_of_thousand,
        lambda size: 4_000,
        "int",
    ),
    Question("query: three hops, 125 ways", INDEXED["reverse"][0], friends, three_hops, lambda size: 100, "reverse"),
]
