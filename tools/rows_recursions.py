"""Rows of table_levels about `@recurse`.

The answers come from the plain machine (`plain_recursion.py`), which goes node by node over triples alone; where all nodes lead to all,
they are counted by hand.
"""

from __future__ import annotations

import random
from collections.abc import Iterator
from typing import Optional

from plain_levels import by_commas
from rows_graphs import graph_of, graph_rows, random_arguments, random_filter, random_function, random_triples
from rows_variables import FAULTS, TRIPLES, answered

# ---------------------------------------------------------------------------------------------------
# Random queries
# ---------------------------------------------------------------------------------------------------


def random_fields() -> str:
    """Fields of a recursion, few of a node itself, so that some nodes are shown by what is below them alone."""
    own = ["uid", "name", "nick", "age", "ok", "born", "none", "~none", "count(friend)", "count(~boss)", "n: name"]
    said = random.sample(own, random.choice([0, 1, 1, 1, 2, 3]))
    for place in range(random.choice([1, 1, 2, 3])):
        edge = random.choice(["friend", "friend", "~friend", "likes", "boss", "boss", "~boss"])
        brackets = f" {random_arguments()}" if random.random() < 0.4 else ""
        said.append(f"e{place}: {edge}{brackets}{f' {random_filter()}' if random.random() < 0.3 else ''}")
    random.shuffle(said)
    return " ".join(said)


def random_recursion(deepest: int) -> str:
    """A query of one block that recurs, so deep at most."""
    options = [f"depth: {random.randrange(1, deepest + 1)}"]
    options += [f"loop: {random.choice(['true', 'true', 'false'])}"] if random.random() < 0.7 else []
    random.shuffle(options)
    words = [f"@recurse({', '.join(options)})"] + ([random_filter()] if random.random() < 0.3 else [])
    random.shuffle(words)
    arguments = random_arguments().removeprefix("(").removesuffix(")") if random.random() < 0.3 else ""
    root = random.choice([random_function(), "has(friend)", "uid(0x1, 0x2, 0x3)"])
    said = ", ".join(part for part in (f"func: {root}", arguments) if part)
    return f"{{ q({said}) {' '.join(words)} {{ {random_fields()} }} }}"


# The most characters of a row's answer.
LONG = 2_000


def random_rows(count: int) -> Iterator[tuple[str, Optional[str]]]:
    """Rows over a random graph, whose answers aren't long."""
    triples = random_triples()
    graph = graph_of(triples)
    yield from graph_rows(triples)
    while count:
        text = random_recursion(5)
        answer = answered(graph, text)
        if answer is None or len(answer) < LONG:
            yield f"answer\t{text}", answer
            count -= 1


# ---------------------------------------------------------------------------------------------------
# By hand
# ---------------------------------------------------------------------------------------------------

# Options and fields, from the nodes behind them.
RECURSIONS = [
    ("depth: 1", "name friend", "0x1"),
    ("depth: 2", "name friend", "0x1"),
    ("depth: 4", "name friend", "0x1"),
    ("depth: 32", "name friend", "0x1"),
    ("loop: false, depth: 3", "name friend", "0x1, 0x3, 0x6"),
    ("depth: 4, loop: true", "name friend", "0x1"),
    ("loop: true, depth: 3", "uid friend", "0x3, 0x5"),
    ("depth: 9", "friend name", "0x6"),
    ("depth: 3", "friend", "0x1"),
    ("depth: 32, loop: true", "friend likes boss", "0x1, 0x2"),
    ("depth: 1", "friend", "0x1"),
    ("depth: 3", "none friend", "0x1"),
    ("depth: 3", "~none friend", "0x1"),
    ("depth: 3", "name ~friend", "0x4"),
    ("depth: 9", "name boss", "0x6"),
    ("depth: 9", "born boss", "0x6"),
    ("depth: 3, loop: true", "born boss", "0x6"),
    ("depth: 9", "name ~boss", "0x1"),
    ("depth: 9", "n: name boss friend", "0x6"),
    ("depth: 9", "name likes", "0x2"),
    ("depth: 5, loop: true", "name likes", "0x2"),
    ("depth: 5", "born friend", "0x5, 0x6"),
    ("depth: 5", "nick a: friend b: likes", "0x4, 0x2"),
    ("depth: 3", "name friend (first: 1)", "0x1"),
    ("depth: 5", "name friend (first: 1)", "0x1"),
    ("depth: 5, loop: true", "name friend (first: 1)", "0x1"),
    ("depth: 4", "name friend (offset: 1)", "0x1"),
    ("depth: 4", "name friend (first: -1)", "0x1, 0x5"),
    ("depth: 4", "uid friend (orderdesc: age, first: 2)", "0x1"),
    ("depth: 4", "uid friend (orderasc: name, offset: 1) ~boss (first: 1)", "0x1"),
    ("depth: 4", "name friend (after: 0x2)", "0x1"),
    ("depth: 4", "name friend @filter(has(age))", "0x1"),
    ("depth: 4", "name friend @filter(not uid(0x5, 0x4)) likes", "0x1, 0x2"),
    ("depth: 3", "name (first: 0) @filter(has(none)) friend", "0x1"),
    ("depth: 3", "count(friend) count(none) friend", "0x1, 0x9"),
    ("depth: 3", "uid nick age ok born friend", "0x3"),
    ("depth: 3", "friend friend2: friend name", "0x2"),
    ("depth: 32", "ok friend", "0x6"),
    ("depth: 32", "ok ~friend", "0x5"),
    ("depth: 2", "uid", "0x7, 0x8"),
    ("depth: 2", "name friend", "0x9"),
]
# Whole queries.
QUERIES = [
    "{ q(func: has(name), orderdesc: age, first: 2) @recurse(depth: 2) { name age friend } }",
    "{ q(func: has(name)) @filter(has(nick)) @recurse(depth: 2) { name friend } r(func: uid(0x1)) { name } }",
    "{ var(func: has(name)) @recurse(depth: 3) { name friend } r(func: uid(0x1)) { name } }",
    "{ var(func: has(name)) { x as count(friend) y as friend } q(func: uid(x), first: 2) @recurse(depth: 3) { v: val(x) friend @filter(uid(y)) } }",
    "{ q(func: uid(0x1)) @recurse(depth: 3) { val(x) friend (orderdesc: val(x), first: 1) } var(func: has(name)) { x as count(friend) } }",
    "{ var(func: uid(0xa, 0xb)) { x as age } q(func: uid(0x1)) @recurse(depth: 32, loop: true) { uid friend ~friend } r() { sum(val(x)) } }",
    "{ q(func: uid(0x1)) @recurse(depth: 32, loop: true) { uid friend ~friend } }",
    "{ q(func: uid(0x9)) @recurse(depth: 3) { } }",
]
UNREAD = ["@recurse", "@recurse(depth: 0)", "@recurse(depth: 33)", "@recurse(loop: true)", "@recurse(depth: 2) @cascade", "@normalize @recurse(depth: 2)"]


def hand_rows() -> Iterator[tuple[str, Optional[str]]]:
    graph = graph_of(TRIPLES)
    yield from graph_rows(TRIPLES)
    texts = [f"{{ q(func: uid({nodes})) @recurse({options}) {{ {fields} }} }}" for options, fields, nodes in RECURSIONS]
    yield from ((f"answer\t{text}", answered(graph, text)) for text in [*texts, *QUERIES])
    yield from ((f"answer\t{{ q(func: uid(0x1)) {words} {{ name friend }} }}", None) for words in UNREAD)


def named(nodes: list[str]) -> str:
    """The answer of a block that shows so."""
    return f'{{"data":{{"q":[{by_commas(nodes)}]}}}}'


def ring_row(options: str, answer: str, fields: str = "name next") -> tuple[str, str]:
    return f"answer\t{{ q(func: uid(0x1)) @recurse({options}) {{ {fields} }} }}", answer


def ring_rows() -> Iterator[tuple[str, Optional[str]]]:
    """Where each of 200 nodes leads to each, what is shown comes at once, or that it is too large."""
    for options in ("depth: 32", "depth: 32, loop: true"):
        yield ring_row(options, named([]))
        yield ring_row(options, named([]), "name next ~next")
        yield ring_row(options, FAULTS["17"], "uid next")
        yield ring_row(options, FAULTS["17"], "next uid ~next")
    yield "set\t1 name text:A", "40001 triples"
    yield ring_row("depth: 32", named(['{"name":"A"}']))
    yield ring_row("depth: 2, loop: true", named(['{"name":"A","next":[{"name":"A"}]}']))
    yield ring_row("depth: 32, loop: true", FAULTS["17"])
    yield "set\t1 name text:B\t7 name text:C", "40002 triples"
    yield ring_row("depth: 1", named(['{"name":"B"}']))
    yield ring_row("depth: 2", named(['{"name":"B","next":[{"name":"C"}]}']))
    yield ring_row("depth: 32", FAULTS["17"])
    yield ring_row("depth: 32", named(['{"name":"B","next":[{"name":"C"}]}']), "name next @filter(has(name))")
    yield ring_row("depth: 32", named(['{"name":"B"}']), "name next (first: 1)")
    yield ring_row("depth: 4, loop: true", named([nest("B", 4)]), "name next (first: 1)")
    yield ring_row("depth: 3", named(['{"name":"B","next":[' + by_commas(three_deep()) + "]}"]))


def nest(name: str, depth: int) -> str:
    """A node that leads to itself, so deep."""
    below = f',"next":[{nest(name, depth - 1)}]' if depth > 1 else ""
    return f'{{"name":"{name}"{below}}}'


def three_deep() -> Iterator[str]:
    """The nodes that 1 leads to, each with 7, which alone has a name; 7 itself with no more."""
    for node in range(2, 201):
        yield '{"name":"C"}' if node == 7 else '{"next":[{"name":"C"}]}'


def rows() -> Iterator[tuple[str, Optional[str]]]:
    """Each row with its answer; none where it can't be read."""
    yield "# Recursions over a small graph. Wanted: tools/plain_recursion.py, node by node.", ""
    yield from hand_rows()
    for _ in range(2):
        yield "# A random graph, and random recursions. Wanted: the same.", ""
        yield from random_rows(40)
