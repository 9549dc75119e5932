#!/usr/bin/env python3
"""Prints the rows of crates/table_levels: `rows_levels.py stdin` the rows, `rows_levels.py stdout` with their answers.

Graphs and queries are random. The answers come from `plain_levels.py`, which goes node by node over triples alone. The rows of whole
queries stand in `rows_variables.py` and `rows_recursions.py`, those of the calls that are made in `rows_counted.py`, and the section
`shapes` in `rows_shapes.py`.
"""

from __future__ import annotations

import random
import sys
from collections.abc import Iterator
from typing import Optional

import rows_counted
import rows_recursions
import rows_shapes
import rows_variables
from plain_answers import View
from plain_levels import LONGEST_ANSWER, Made, shown, whole
from plain_queries import read_query
from rows_graphs import RING, SCHEMA, graph_of, graph_rows, random_arguments, random_filter, random_function, random_triples
from rows_printed import print_rows

SEED = 31

# ---------------------------------------------------------------------------------------------------
# Queries
# ---------------------------------------------------------------------------------------------------


def random_edge(name: str, depth: int, cascades: float) -> str:
    braces = random_fields(depth - 1, cascades) if random.random() < 0.9 else ""
    said = [f"{name} {random_arguments()}".strip(), random_filter() if random.random() < 0.3 else ""]
    if cascades and random.random() < cascades:
        said.insert(random.choice([1, 2]), "@cascade")
    return " ".join(part for part in [*said, braces] if part)


def random_fields(depth: int, cascades: float = 0.0) -> str:
    """Fields of a query, no two under one key; such a part of the edges has a cascade."""
    said = ["uid", "name", "nick", "age", "ok", "born", "none", "count(friend)", "count(~friend)", "count(likes)", "count(uid)", "a: name", "n: count(uid)", "c: count(none)"]
    if depth:
        edges = ["friend", "~friend", "likes", "boss", "~boss", "none", "~none", "name"]
        said += [f"k{place}: {random_edge(random.choice(edges), depth, cascades)}" for place in range(4)]
    chosen = random.sample(said, random.randrange(1, 6))
    return f"{{ {' '.join(chosen)} }}"


def random_flat_fields(depth: int, cascades: float) -> str:
    """Fields with few aliases, which stand twice at different depths."""
    names = ["uid", "name", "nick", "age", "ok", "none", "count(friend)", "count(uid)"]
    said = {alias: f"{alias}: {random.choice(names)}" for alias in random.sample("abc", random.choice([0, 1, 1, 2, 3]))}
    said |= {name: name for name in random.sample(names, random.choice([0, 0, 1, 2])) if name not in ("none", "ok")}
    if depth:
        edges = random.sample(["friend", "~friend", "likes", "boss", "~boss", "none", "a: likes", "x: friend"], random.choice([1, 1, 2, 3]))
        for edge in edges:
            braces = random_flat_fields(depth - 1, cascades) if random.random() < 0.95 else ""
            cascade = "@cascade" if random.random() < cascades else ""
            key = edge.partition(":")[0]
            said.setdefault(key, " ".join(part for part in (f"{edge} {random_arguments()}".strip(), cascade, braces) if part))
    chosen = list(said.values())
    random.shuffle(chosen)
    return f"{{ {' '.join(chosen)} }}"


def random_query() -> str:
    """A query of one block that has a cascade, is normalized, or both, or has a cascade below."""
    words = [word for word in ("@cascade", "@normalize") if random.random() < 0.5]
    if random.random() < 0.3:
        words.append(random_filter())
    random.shuffle(words)
    depth, cascades = random.choice([0, 1, 1, 2, 2, 3]), random.choice([0.0, 0.3])
    fields = random_flat_fields(depth, cascades) if "@normalize" in words or random.random() < 0.3 else random_fields(depth, cascades)
    arguments = random_arguments().removeprefix("(").removesuffix(")")
    said = ", ".join(part for part in (f"func: {random_function()}", arguments) if part)
    return f"{{ q({said}) {' '.join([*words, fields])} }}"


def rows_of(view: View, text: str) -> list[str]:
    block = read_query(text)[0]
    assert block.function is not None
    made: Made = {}
    return [",".join(shown(block.fields, whole(view, block.fields, node, made))) for node in view.root(block.function)]


def rows_text(rows: list[str], limit: int = LONGEST_ANSWER) -> str:
    if sum(len(row.encode()) for row in rows) > limit:
        return "the answer is too large"
    return " ".join(f"{{{row}}}" for row in rows)


def random_rows(view: View, cascades: float = 0.0) -> Iterator[tuple[str, str]]:
    """Rows over a graph; in each text with a cascade at such a part of the edges there are edges."""
    for _ in range(60):
        text = f"{{ q(func: {random_function()}) {random_fields(random.randrange(1 if cascades else 0, 4), cascades)} }}"
        rows = rows_of(view, text)
        yield f"rows\t{text}", rows_text(rows)
        total = sum(len(row.encode()) for row in rows)
        if random.random() < 0.2:
            for limit in (total - 1, total):
                if limit >= 0:
                    yield f"within\t{limit}\t{text}", rows_text(rows, limit)


def nested(depth: int, fields: str, edge: str = "next") -> str:
    """A query of so many edges in one another, of which the first may have more behind it."""
    return f"{{ q(func: uid(0x1)) {{ {edge} {'{ next ' * (depth - 1)}{{ {fields} }}{' }' * depth} }}"


def ring_rows() -> Iterator[tuple[str, Optional[str]]]:
    """A graph in which each of many nodes leads to each: what is shown of it, or that it is too large, comes at once."""
    yield f"schema\t{RING}", "2 declared"
    yield "ring\t200", "40000 triples"
    for depth in (1, 2, 3, 10, 28):
        yield f"size\t{nested(depth, 'none')}", "0 bytes"
    one = sum(len(f'{{"uid":"{hex(node)}"}},') for node in range(1, 201)) - 1
    row = len('"next":[]') + one
    yield f"size\t{nested(1, 'uid')}", f"{row} bytes"
    row = len('"next":[]') + 200 * (row + 3) - 1
    yield f"size\t{nested(2, 'uid')}", f"{row} bytes"
    for depth in (4, 10, 28):
        yield f"size\t{nested(depth, 'uid')}", "the answer is too large"
    chain = len('"next":[{' + "}]") * 10 + len('"uid":"0x1"')
    yield f"size\t{{ q(func: uid(0x1)) {'{ next (first: 1) ' * 10}{{ uid }}{' }' * 10} }}", f"{chain} bytes"


def cascade_ring_rows() -> Iterator[tuple[str, Optional[str]]]:
    """The same of a cascade: where the last nodes lack something, nothing is left of all."""
    yield f"schema\t{RING}", "2 declared"
    yield "ring\t30", "900 triples"
    for depth in (1, 2, 10, 28):
        yield f"size\t{nested(depth, 'none', 'next @cascade')}", "0 bytes"
        yield f"size\t{nested(depth, 'uid next @filter(uid(0x1f))', 'next @cascade')}", "0 bytes"
        yield f"size\t{nested(depth, 'count(uid) none', 'next @cascade')}", f"{len(EMPTIED)} bytes" if depth == 1 else "0 bytes"
    row = len('"next":[]') + sum(len(f'{{"uid":"{hex(node)}"}},') for node in range(1, 31)) - 1
    for depth in (1, 2, 3):
        yield f"size\t{nested(depth, 'uid', 'next @cascade')}", f"{row} bytes"
        row = len('"next":[]') + 30 * (row + 3) - 1
    for depth in (5, 10, 28):
        yield f"size\t{nested(depth, 'uid', 'next @cascade')}", "the answer is too large"
        yield f"size\t{nested(depth, 'count(uid)', 'next @cascade')}", "the answer is too large"
    chain = len('"next":[{' + "}]") * 10 + len('"uid":"0x1"')
    pages = "{ next (first: 1) @cascade " + "{ next (first: 1) " * 9
    yield f"size\t{{ q(func: uid(0x1)) {pages}{{ uid }}{' }' * 10} }}", f"{chain} bytes"


# What an edge shows of which no node remains, where their number is asked for.
EMPTIED = '"next":[{"count":0}]'

# A graph for cascades: 4 has no name and leads to 3, as 2 does; 6 has nothing but edges.
CASCADE_TRIPLES = [
    *("1 name text:Ann", "1 age int:3", "1 friend 2", "1 friend 3", "1 friend 4", "1 likes 3", "1 boss 5"),
    *("2 name text:Bob", "2 friend 3", "2 likes 1", "2 likes 4", "2 boss 1"),
    *("3 name text:Cid", "3 age int:-1", "3 nick text:y", "3 nick text:x", "3 friend 5", "3 boss 4"),
    *("4 age int:2", "4 friend 3", "4 friend 4", "4 ok bool:false", "4 boss 2"),
    *("5 name text:Eve", "5 age int:7", "5 nick text:z", "5 likes 5"),
    *("6 friend 2", "6 friend 4", "6 likes 6"),
]
# Fields whose edges have a cascade.
CASCADES = [
    "friend @cascade { name age }",
    "uid friend @cascade { name age }",
    "friend @cascade { name friend { age } }",
    "friend @cascade { name friend @cascade { age } }",
    "friend { name friend @cascade { nick } }",
    "friend { uid friend { uid friend @cascade { nick } } }",
    "friend @cascade { friend { friend { friend { uid } } } }",
    "friend @cascade { uid friend { uid likes { uid } } }",
    "friend @cascade { name friend { uid } }",
    "friend @cascade { friend { name } } likes @cascade { friend { name } }",
    "a: friend @cascade { name } b: friend { name } c: friend @cascade { a: name b: age }",
    "uid friend @cascade { none }",
    "uid friend @cascade { none { uid } }",
    "uid friend @cascade { ~none { uid } }",
    "uid none @cascade { uid }",
    "uid ~none @cascade { uid }",
    "friend @cascade { count(none) count(likes) count(~friend) }",
    "friend @cascade { count(uid) name age }",
    "friend @cascade { count(uid) n: count(uid) }",
    "friend @cascade { count(uid) none }",
    "friend @cascade { name likes { count(uid) } }",
    "friend @cascade { name likes { count(uid) age } }",
    "friend { count(uid) friend @cascade { n: count(uid) nick } }",
    "friend @cascade",
    "uid friend @cascade { friend }",
    "friend @cascade { friend }",
    "friend @cascade { friend { } likes { } }",
    "friend @cascade { friend { friend } uid }",
    "friend @cascade { }",
    "boss @cascade { age }",
    "uid boss @cascade { nick }",
    "boss @cascade { boss { uid } }",
    "friend @cascade { boss { name } }",
    "friend @cascade { uid boss }",
    "boss @cascade { count(uid) nick }",
    "friend @cascade { uid boss { count(uid) name } }",
    "friend @cascade { nick }",
    "friend @cascade { nick ok }",
    "friend @cascade { name { none } uid }",
    "name @cascade { none } friend { name @cascade }",
    "friend (first: 1) @cascade { age }",
    "friend (first: 1) @cascade { name }",
    "friend (first: -1) @cascade { name }",
    "friend (offset: 1) @cascade { name }",
    "friend (after: 0x2) @cascade { count(uid) name }",
    "friend (orderdesc: age, first: 2) @cascade { name age }",
    "friend (orderasc: age, offset: 1) @cascade { uid friend (orderdesc: name, first: 1) { name } }",
    "friend @cascade { uid friend (first: 1) { age nick } }",
    "friend @cascade { uid friend (offset: 1) { uid } }",
    "friend @cascade { uid friend (first: 0) { uid } }",
    "friend @cascade @filter(has(age)) { name }",
    "friend @filter(not has(ok)) @cascade { name friend @filter(has(nick)) { uid } }",
    "friend @cascade { uid friend @filter(has(ok)) }",
    "~friend @cascade { name }",
    "~boss @cascade { ~friend { age } }",
    "friend @cascade { uid ~boss { count(uid) } }",
    "friend @cascade { ~friend { ~friend { none } } uid }",
]


def cascade_rows() -> Iterator[tuple[str, str]]:
    """Cascades at edges over the graph above, seen from three of its nodes."""
    yield from graph_rows(CASCADE_TRIPLES)
    graph = graph_of(CASCADE_TRIPLES)
    for fields in CASCADES:
        text = f"{{ q(func: uid(0x1, 0x3, 0x6)) {{ {fields} }} }}"
        yield f"rows\t{text}", rows_text(rows_of(View(graph, SCHEMA), text))


HAND = [
    "rows\t{ q(func: uid(0x1)) }",
    "rows\t{ q(func: uid(x)) { uid } }",
    "within\tx\t{ q(func: uid(0x1)) { uid } }",
    "within\t0\t{ }",
    "set\t1 name",
    "set\t1 name text:a\tx name text:b",
    "set\t1 age int:x",
    "ring\tx",
    "counted\t{ q(func: uid(0x1)) }",
    "schema\tname: strin .",
    "else\t1",
]


def rows() -> Iterator[tuple[str, Optional[str]]]:
    """Each row with its answer; none where it can't be read. A comment and the beginning of a section have an empty one."""
    for cascades in (0.0, 0.0, 0.0, 0.0, 0.4, 0.4):
        with_cascades = " with cascades" if cascades else ""
        yield f"# A random graph, and what queries{with_cascades} show of it. Wanted: tools/plain_levels.py, node by node.", ""
        triples = random_triples()
        yield from graph_rows(triples)
        yield from random_rows(View(graph_of(triples), SCHEMA), cascades)
    yield "# Cascades of each kind. Wanted: tools/plain_levels.py, node by node.", ""
    yield from cascade_rows()
    yield "# A graph of 30 nodes with all edges between them, and cascades. Wanted: counted by hand.", ""
    yield from cascade_ring_rows()
    yield from rows_variables.rows()
    yield from rows_recursions.rows()
    yield "# A graph of 200 nodes with all edges between them. Wanted: counted by hand.", ""
    yield from ring_rows()
    yield from rows_variables.ring_rows()
    yield from rows_recursions.ring_rows()
    yield from rows_counted.rows()
    yield "# Rows that can't be read.", ""
    yield from ((row, None) for row in HAND)
    yield "section shapes", ""
    yield from rows_shapes.rows()


def main() -> int:
    random.seed(SEED)
    return print_rows(rows())


if __name__ == "__main__":
    sys.exit(main())
