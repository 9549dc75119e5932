"""Rows of table_levels about whole queries: variables, what is made of their values, and blocks that build on each other.

The answers come from the plain machine (`plain_answers.py`), which goes node by node over triples alone.
"""

from __future__ import annotations

import random
from collections.abc import Iterator
from typing import Optional

from plain_answers import answer_of
from plain_graph import Graph
from plain_tokens import Refusal
from rows_graphs import SCHEMA, graph_of, graph_rows, random_function, random_triples

# Why a query has no answer, as the program of the table says it; other refusals are rows that can't be read.
FAULTS = {"16": "a sum over {} is no number of 64 bits", "17": "the answer is too large"}
KINDS = {"name": "string", "nick": "string", "age": "int", "ok": "bool", "born": "dateTime"}
LITERALS = {
    "string": ['"Ann"', '"Bob"', '"x"', '"y"', '""'],
    "int": ["-1", "0", "1", "2", '"3"'],
    "bool": ["true", "false"],
    "dateTime": ['"2003-01-02"', '"2006-01-02T00:00:00Z"'],
}


def answered(graph: Graph, text: str) -> Optional[str]:
    """What a query answers, or why it has no answer."""
    try:
        return answer_of(graph, SCHEMA, text)
    except Refusal as refusal:
        words = refusal.line.split()
        return FAULTS[words[1]].format(words[-1]) if words[1] in FAULTS else None


# ---------------------------------------------------------------------------------------------------
# Random queries
# ---------------------------------------------------------------------------------------------------


class Known:
    """The variables of a query: those that blocks before have defined, with the kind of their values ("" where these are of none,
    None where there are only nodes), and those of the block that is drawn."""

    def __init__(self) -> None:
        self.kinds: dict[str, Optional[str]] = {}
        self.fresh: dict[str, Optional[str]] = {}

    def define(self, kind: Optional[str]) -> str:
        """A new variable with `as` and a blank behind it."""
        name = f"v{len(self.kinds) + len(self.fresh)}"
        self.fresh[name] = kind
        return f"{name} as "

    def end_block(self) -> None:
        self.kinds.update(self.fresh)
        self.fresh = {}

    def with_values(self) -> list[str]:
        return [name for name, kind in self.kinds.items() if kind is not None]

    def numbers(self) -> list[str]:
        return [name for name, kind in self.kinds.items() if kind == "int"]


def node_list(known: Known) -> str:
    """Variables, and now and then nodes."""
    names = random.sample([*known.kinds], random.randrange(1, min(3, len(known.kinds)) + 1))
    names += [hex(random.randrange(1, 10))] if random.random() < 0.3 else []
    return ", ".join(names)


def val_function(known: Known) -> str:
    """A comparison of the values of a variable."""
    name = random.choice(known.with_values())
    literals = LITERALS[known.kinds[name] or random.choice([*LITERALS])]
    word = random.choice(["eq", "eq", "le", "lt", "ge", "gt", "between"])
    if word == "between":
        return f"between(val({name}), {random.choice(literals)}, {random.choice(literals)})"
    if word == "eq" and random.random() < 0.5:
        return f"eq(val({name}), [{', '.join(random.sample(literals, 2))}])"
    return f"{word}(val({name}), {random.choice(literals)})"


def function(known: Known, root: bool) -> str:
    """A function of a root or a filter, mostly of a variable where there are some."""
    if known.with_values() and random.random() < 0.45:
        return val_function(known)
    if known.kinds and random.random() < 0.6:
        in_edge = not root and random.random() < 0.3
        return f"uid_in({random.choice(['friend', 'boss', '~friend'])}, {node_list(known)})" if in_edge else f"uid({node_list(known)})"
    return random.choice([random_function(), "has(friend)", "uid(0x1, 0x2, 0x3, 0x4, 0x5, 0x6, 0x7, 0x8)"])


def filter_of(known: Known) -> str:
    said = random.choice([" and ", " or "]).join(function(known, False) for _ in range(random.choice([1, 1, 2])))
    return f"@filter({random.choice(['', 'not '])}({said}))"


def arguments(known: Known) -> list[str]:
    """The arguments of a list: an order by values of variables and of predicates, and a page."""
    keys = [f"val({name})" for name in known.with_values()] + ["name", "age", "nick"]
    orders = random.sample(keys, random.choice([0, 0, 1, 1, 2])) if keys else []
    said = [f"{random.choice(['orderasc', 'orderdesc'])}: {key}" for key in orders]
    said += [f"first: {random.randrange(0 if orders else -2, 4)}"] if random.random() < 0.3 else []
    said += [f"offset: {random.randrange(2)}"] if random.random() < 0.2 else []
    said += [f"after: {hex(random.randrange(1, 5))}"] if random.random() < 0.1 and not orders else []
    return said


def own_field(known: Known, key: str, defines: bool) -> str:
    """A field of the node itself under a key, with a variable where it is to define one."""
    name = random.choice([*KINDS, *KINDS, "count(friend)", "count(~boss)", "uid", "uid", "none"])
    kind = {"uid": None, "none": ""}.get(name, "int" if name.startswith("count") else KINDS.get(name))
    return f"{known.define(kind) if defines else ''}{key}: {name}"


def edge_field(known: Known, key: str, depth: int, defines: float) -> str:
    """An edge under a key with fields in its braces, of which such a part defines a variable, as it may itself."""
    edge = random.choice(["friend", "friend", "~friend", "likes", "boss", "~boss", "none"])
    front = known.define("" if edge == "none" else None) if random.random() < defines else ""
    said = arguments(known)
    parts = [f"{front}{key}: {edge} ({', '.join(said)})" if said else f"{front}{key}: {edge}"]
    parts += [filter_of(known)] if random.random() < 0.3 else []
    parts += ["@cascade"] if random.random() < 0.15 else []
    return " ".join([*parts, fields(known, depth - 1, defines)])


def fields(known: Known, depth: int, defines: float) -> str:
    """Fields, no two under one key, of which such a part defines a variable."""
    said = [own_field(known, f"o{place}", random.random() < defines) for place in range(random.choice([1, 1, 2, 3]))]
    said += [f"val({name})" for name in known.with_values() if random.random() < 0.4]
    said += [edge_field(known, f"e{place}", depth, defines) for place in range(random.choice([0, 1, 1, 2]) if depth else 0)]
    return f"{{ {' '.join(said)} }}"


def block(known: Known, name: str) -> str:
    """A block that uses the variables of those before."""
    if known.with_values() and random.random() < 0.25:
        return f"{name}() {{ {aggregates(known)} }}"
    said = ", ".join([f"func: {function(known, True)}", *arguments(known)])
    words = [filter_of(known)] if random.random() < 0.3 else []
    words += [word for word in ("@cascade", "@normalize") if random.random() < 0.12]
    random.shuffle(words)
    front = known.define(None) if random.random() < 0.3 else ""
    return " ".join([f"{front}{name}({said})", *words, fields(known, random.choice([0, 1, 2]), 0.4)])


def aggregates(known: Known) -> str:
    """Fields of a block without a function."""
    said = [f"{random.choice(['min', 'max'])}(val({name}))" for name in known.with_values() if random.random() < 0.6]
    said += [f"sum(val({name}))" for name in known.numbers() if random.random() < 0.7]
    return " ".join(said)


def shown_at_end(known: Known, name: str, place: int) -> str:
    """A block that shows what a variable stands for."""
    value = "" if known.kinds[name] is None else f" val({name})"
    return f"s{place}(func: uid({name})) {{ uid{value} }}"


def random_query() -> str:
    """A query whose blocks build on each other, in any order of the text; some of its variables are shown."""
    known = Known()
    blocks = []
    for place in range(random.choice([2, 2, 3, 4])):
        blocks.append(block(known, "var" if random.random() < 0.3 else f"q{place}"))
        known.end_block()
    names = random.sample([*known.kinds], min(3, len(known.kinds)))
    blocks += [shown_at_end(known, name, place) for place, name in enumerate(names)]
    random.shuffle(blocks)
    return f"{{ {' '.join(blocks)} }}"


def random_rows(count: int) -> Iterator[tuple[str, Optional[str]]]:
    triples = random_triples()
    graph = graph_of(triples)
    yield from graph_rows(triples)
    for _ in range(count):
        text = random_query()
        yield f"answer\t{text}", answered(graph, text)


# ---------------------------------------------------------------------------------------------------
# By hand
# ---------------------------------------------------------------------------------------------------

GREATEST, LEAST = 2**63 - 1, -(2**63)
# 1 to 6 are people, 10 to 15 have numbers at the ends of 64 bits.
TRIPLES = [
    *("1 name text:Ann", "1 nick text:b", "1 nick text:a", "1 age int:30", "1 ok bool:true", "1 friend 2", "1 friend 3", "1 friend 4"),
    *("2 name text:Bob", "2 age int:-4", "2 born time:1990-05-01", "2 friend 3", "2 boss 1", "2 likes 2"),
    *("3 name text:Cid", "3 nick text:c", "3 ok bool:false", "3 born time:2001-02-03", "3 friend 1", "3 friend 5", "3 boss 1"),
    *("4 name text:Ann", "4 age int:30", "4 boss 3", "4 likes 5", "5 age int:7", "5 friend 5", "6 friend 4", "6 boss 2"),
    *(f"10 age int:{GREATEST}", "11 age int:1", f"12 age int:{LEAST}", "13 age int:-1", f"14 age int:{GREATEST}", f"15 age int:{LEAST}"),
]
PEOPLE = "uid(0x1, 0x2, 0x3, 0x4, 0x5, 0x6)"
# Where a variable `x` comes from; it is asked by its nodes, and by its values where it has some.
OF_NODES = [
    f"x as var(func: {PEOPLE}) {{ }}",
    "x as var(func: has(name), orderdesc: age, first: 2) { uid }",
    f"x as var(func: {PEOPLE}) @filter(has(born)) @cascade {{ ok nick }}",
    "x as shown(func: uid(0x9, 0x1)) { name }",
    f"var(func: {PEOPLE}) {{ x as uid }}",
    f"var(func: {PEOPLE}) {{ x as u: uid }}",
    f"var(func: {PEOPLE}) {{ x as friend }}",
    f"var(func: {PEOPLE}) {{ x as friend {{ name }} }}",
    f"var(func: {PEOPLE}) {{ x as friend (first: 1) }}",
    f"var(func: {PEOPLE}) {{ x as friend (first: -1) {{ uid }} }}",
    f"var(func: {PEOPLE}) {{ x as friend (offset: 1, first: 1) }}",
    f"var(func: {PEOPLE}) {{ x as friend (orderdesc: age, first: 1) }}",
    f"var(func: {PEOPLE}) {{ x as friend (after: 0x3) }}",
    f"var(func: {PEOPLE}) {{ x as friend @filter(has(ok)) @cascade {{ nick age }} }}",
    f"var(func: {PEOPLE}) {{ x as ~friend }}",
    f"var(func: {PEOPLE}) {{ x as boss }}",
    f"var(func: {PEOPLE}) {{ x as ~boss {{ count(uid) }} }}",
    f"var(func: {PEOPLE}) {{ boss {{ boss {{ x as uid }} }} }}",
    f"var(func: {PEOPLE}) {{ boss {{ x as likes }} }}",
    f"var(func: {PEOPLE}) {{ friend {{ friend (first: 1) {{ x as friend }} }} }}",
    f"var(func: {PEOPLE}) @cascade {{ none x as friend }}",
    f"var(func: {PEOPLE}) @cascade {{ friend {{ none x as uid }} }}",
    f"var(func: {PEOPLE}) @cascade {{ nick friend {{ x as friend }} }}",
    f"var(func: {PEOPLE}) {{ name {{ x as uid }} }}",
    f"var(func: {PEOPLE}) {{ none {{ x as uid }} }}",
    "var(func: uid(0x9)) { x as friend }",
    "x as var(func: has(none)) { }",
    f"shown(func: {PEOPLE}) @normalize {{ n: name x as friend {{ n: name }} }}",
]
OF_VALUES = [
    f"var(func: {PEOPLE}) {{ x as name }}",
    f"var(func: {PEOPLE}) {{ x as nick }}",
    f"var(func: {PEOPLE}) {{ x as age }}",
    f"var(func: {PEOPLE}, first: 2) {{ x as age }}",
    f"var(func: {PEOPLE}) {{ x as ok }}",
    f"var(func: {PEOPLE}) {{ x as born (first: 0) @filter(has(none)) }}",
    f"var(func: {PEOPLE}) {{ x as count(friend) }}",
    f"var(func: {PEOPLE}) {{ x as count(~friend) }}",
    f"var(func: {PEOPLE}) {{ x as count(boss) }}",
    f"var(func: {PEOPLE}) {{ x as count(nick) }}",
    f"var(func: {PEOPLE}) {{ x as count(none) }}",
    f"var(func: {PEOPLE}) {{ friend {{ x as age }} }}",
    f"var(func: {PEOPLE}) {{ friend (first: 1) {{ x as count(friend) }} }}",
    f"var(func: {PEOPLE}) @cascade {{ none friend {{ none x as age }} }}",
    f"var(func: {PEOPLE}) {{ boss {{ x as nick }} }}",
    f"var(func: {PEOPLE}) {{ age {{ x as age }} }}",
    f"var(func: {PEOPLE}) {{ x as none }}",
    f"var(func: {PEOPLE}) {{ x as ~none {{ y as none }} }}",
    "var(func: has(none)) { x as age }",
]
BY_NODES = f"a(func: uid(x, 0x9)) {{ uid }} b(func: {PEOPLE}) @filter(not uid(x)) {{ uid l: friend @filter(uid(x)) {{ uid }} }} c(func: {PEOPLE}) @filter(uid_in(friend, x)) {{ uid }}"
BY_VALUES = f"a(func: {PEOPLE}, orderasc: val(x)) {{ uid val(x) }} b(func: {PEOPLE}, orderdesc: val(x), first: 4) {{ uid v: val(x) friend (orderdesc: val(x), offset: 1) {{ uid val(x) }} }} c() {{ min(val(x)) greatest: max(val(x)) }}"
AGES = f"var(func: {PEOPLE}) {{ x as age n as count(friend) t as nick f as friend b as born k as ok z as none }}"
# Beside the variables above.
ASKED = [
    "q(func: ge(val(x), 7)) { uid val(x) }",
    "q(func: lt(val(x), 30)) { uid }",
    "q(func: eq(val(x), [30, 7])) { uid }",
    "q(func: eq(val(x), 30, 30)) { uid }",
    "q(func: between(val(x), -4, 7)) { uid }",
    "q(func: between(val(x), 7, -4)) { uid }",
    'q(func: gt(val(t), "a")) { uid val(t) }',
    'q(func: eq(val(t), "b")) { uid }',
    'q(func: le(val(b), "1990-05-01T00:00:00Z")) { uid val(b) }',
    "q(func: eq(val(k), false)) { uid val(k) }",
    "q(func: gt(val(k), false)) { uid }",
    "q(func: eq(val(n), 0)) { uid }",
    'q(func: ge(val(z), "whatever")) { uid }',
    "q(func: uid(z)) { uid } r(func: uid(z, 0x7)) { uid val(z) }",
    "q(func: uid(x), orderasc: val(n), orderdesc: val(x)) { uid val(n) val(x) }",
    "q(func: uid(n), orderdesc: val(x), orderdesc: val(n)) { uid }",
    "q(func: uid(n), orderasc: val(x), orderasc: name) { uid }",
    "q(func: uid(n), orderasc: val(k), offset: 1, first: 3) { uid }",
    "q(func: uid(n), orderasc: val(z)) { uid }",
    "q(func: uid(n), first: -2) @filter(ge(val(n), 1)) { uid }",
    "q(func: uid(n)) @filter(ge(val(n), 1) and not lt(val(x), 0)) { uid }",
    "q(func: uid(n)) @filter(not ge(val(x), -100)) { uid }",
    "q(func: uid(n)) @cascade { uid val(x) val(t) }",
    "q(func: uid(n)) @cascade { val(b) friend { val(x) } }",
    "q(func: uid(n)) @cascade { friend @filter(uid(x)) { count(uid) val(k) } }",
    "q(func: uid(n)) @normalize { v: val(x) val(n) friend { w: val(x) } }",
    "q(func: uid(n)) @normalize { v: val(x) friend { v: val(n) } }",
    "q(func: uid(n)) @cascade @normalize { v: val(x) friend { w: val(n) val(t) } }",
    "q(func: uid(n)) { val(z) }",
    "q(func: uid(f)) { boss @filter(uid(x)) { val(x) } boss2: boss (orderasc: val(x), first: 0) { uid } }",
    "q(func: uid(n)) @filter(uid_in(boss, x) or uid_in(~friend, t)) { uid }",
    "q(func: uid(f)) @filter(uid_in(friend, z)) { uid }",
    "q() { min(val(t)) max(val(t)) }",
    "q() { min(val(b)) max(val(k)) min(val(k)) }",
    "q() { sum(val(x)) sum(val(n)) s: sum(val(x)) }",
    "q() { min(val(z)) max(val(z)) }",
    "q() { }",
    "var() { sum(val(x)) } q() { max(val(x)) }",
    "q(func: uid(n)) { name @filter(uid(x)) age (orderasc: val(x)) { val(x) } }",
]
# Beside variables of numbers at the ends of 64 bits: `p` is beyond above, `m` beyond below, and `g`, `l` and `o` aren't.
ENDS = ("var(func: uid(0xa, 0xb)) { p as age } var(func: uid(0xc, 0xd)) { m as age } var(func: uid(0xa, 0xb, 0xd)) { g as age } "
        "var(func: uid(0xc, 0xd, 0xb)) { l as age } var(func: uid(0xa, 0xe, 0xc, 0xf)) { o as age } var(func: uid(0x3)) { e as age }")
SUMS = [
    "q() { sum(val(g)) sum(val(l)) sum(val(o)) }",
    "q() { sum(val(p)) }",
    "q() { sum(val(m)) }",
    "q() { sum(val(g)) sum(val(m)) sum(val(p)) }",
    "q() { sum(val(p)) } r() { sum(val(m)) }",
    "var() { sum(val(m)) } r() { sum(val(p)) }",
    "var() { sum(val(g)) a: sum(val(p)) } r() { sum(val(e)) }",
    "q() { min(val(p)) max(val(p)) min(val(m)) max(val(m)) }",
    "q() { sum(val(e)) min(val(e)) max(val(e)) }",
    "q(func: uid(p, m)) { val(p) val(m) }",
]
# Blocks in another order than that in which they build on each other.
ORDERS = [
    "{ q(func: uid(x)) { uid } x as var(func: uid(y)) @filter(has(age)) { } y as var(func: has(name)) { } }",
    "{ q(func: uid(a, b)) { val(b) } var(func: uid(a)) { b as count(friend) } var(func: uid(0x1)) { a as friend } }",
    "{ t() { sum(val(b)) } var(func: uid(a)) { b as count(friend) } a as q(func: has(boss)) { uid } }",
    "{ a as q(func: has(boss), orderasc: val(n)) { uid val(n) } r(func: uid(a)) { uid } var(func: has(friend)) { n as count(friend) } }",
    "{ q(func: has(name)) @filter(uid(b) and not uid(a)) { uid } a as var(func: uid(b), first: 1) { } b as var(func: has(age)) { } }",
    "{ x as a(func: uid(0x1)) { uid y as friend } b(func: uid(y)) @filter(uid(z)) { uid z2 as friend } z as c(func: uid(x, y)) { uid } d(func: uid(z2)) { uid } }",
    "{ }",
    "{ var(func: has(name)) { x as age } }",
    "{ q() { } var() { } }",
]


def chain(length: int) -> str:
    """Blocks of which each uses what the one behind it in the text finds."""
    blocks = [f"x{at} as var(func: uid(x{at + 1})) {{ }}" for at in range(length)]
    return f"{{ q(func: uid(x0)) {{ name }} {' '.join(blocks)} x{length} as var(func: has(nick)) {{ }} }}"


def steps(length: int) -> str:
    """Blocks of which each goes on along an edge from what the one behind it in the text finds."""
    blocks = [f"var(func: uid(x{at + 1})) {{ x{at} as friend n{at} as count(friend) }}" for at in range(length)]
    return f"{{ q(func: uid(x0)) {{ uid val(n0) last: val(n{length - 1}) }} {' '.join(blocks)} x{length} as var(func: uid(0x6)) {{ }} }}"


UNREAD = [
    "{ q(func: uid(x)) { uid } }",
    "{ var(func: has(name)) { x as friend } q(func: uid(x)) { val(x) } }",
    "{ x as q(func: uid(x)) { uid } }",
    "{ var(func: has(name)) { x as nick } q() { sum(val(x)) } }",
    "{ q() { name } }",
]


def hand_queries() -> Iterator[str]:
    """Queries by hand: each variable from each source, before and behind the blocks that use it."""
    for place, source in enumerate([*OF_NODES, *OF_VALUES]):
        asked = BY_NODES if source in OF_NODES else f"{BY_NODES.replace('a(', 'd(').replace('c(', 'e(').replace('b(', 'g(')} {BY_VALUES}"
        yield f"{{ {source} {asked} }}" if place % 2 == 0 else f"{{ {asked} {source} }}"
    yield from (f"{{ {AGES} {asked} }}" for asked in ASKED)
    yield from (f"{{ {ENDS} {asked} }}" for asked in SUMS)
    yield from ORDERS
    yield from (make(length) for make in (chain, steps) for length in (1, 2, 20))


def ring_rows() -> Iterator[tuple[str, Optional[str]]]:
    """Where each of 200 nodes leads to each, a variable ten edges on is found at once."""
    edges = "next { " * 9 + "x as next n as count(next)" + " }" * 9
    first = '{"uid":"0x1"},{"uid":"0x2"}'
    yield f"answer\t{{ var(func: uid(0x1)) {{ {edges} }} q(func: uid(x), first: 2) {{ uid }} }}", f'{{"data":{{"q":[{first}]}}}}'
    yield f"answer\t{{ var(func: uid(0x1)) {{ {edges} }} q() {{ sum(val(n)) }} }}", '{"data":{"q":[{"sum(val(n))":40000}]}}'
    large = "next { " * 9 + "n as count(next) next { uid }" + " }" * 9
    yield f"answer\t{{ q(func: uid(0x1)) {{ {large} }} t() {{ sum(val(n)) }} }}", FAULTS["17"]


def rows() -> Iterator[tuple[str, Optional[str]]]:
    """Each row with its answer; none where it can't be read."""
    yield "# Variables of each source, and all that asks of them. Wanted: tools/plain_variables.py, node by node.", ""
    graph = graph_of(TRIPLES)
    yield from graph_rows(TRIPLES)
    yield from ((f"answer\t{text}", answered(graph, text)) for text in hand_queries())
    yield from ((f"answer\t{text}", None) for text in UNREAD)
    for _ in range(3):
        yield "# A random graph, and random queries whose blocks build on each other. Wanted: the same.", ""
        yield from random_rows(60)
