"""Graphs of the rows of table_levels: what is declared in them, and triples, functions and lists at random."""

from __future__ import annotations

import random
from collections.abc import Iterator

from plain_graph import Definition, Graph
from plain_values import NODE, Posting, read_posting

SCHEMA = {
    "name": Definition("string", False, ("exact", "term")),
    "nick": Definition("string", True),
    "age": Definition("int", False, ("int",)),
    "ok": Definition("bool", False),
    "born": Definition("dateTime", False),
    "friend": Definition("uid", True, (), True, True),
    "likes": Definition("uid", True),
    "boss": Definition("uid", False, (), True),
}
TEXT = (
    "name: string @index(exact, term) . nick: [string] . age: int @index(int) . ok: bool . born: dateTime . "
    "friend: [uid] @reverse @count . likes: [uid] . boss: uid @reverse ."
)
NODES = range(1, 9)
RING = "next: [uid] @reverse . name: string ."


def random_triples() -> list[str]:
    """Triples as rows have them."""
    said = []
    for node in NODES:
        if random.random() < 0.7:
            said.append(f"{node} name text:{random.choice(['Ann', 'Bob', 'Cid', 'Ann Lee', 'é'])}")
        said += [f"{node} nick text:{nick}" for nick in random.sample("xyz", random.randrange(3))]
        if random.random() < 0.6:
            said.append(f"{node} age int:{random.randrange(-3, 4)}")
        if random.random() < 0.4:
            said.append(f"{node} ok bool:{random.choice(['true', 'false'])}")
        if random.random() < 0.3:
            said.append(f"{node} born time:200{random.randrange(10)}-01-02")
        said += [f"{node} friend {other}" for other in random.sample(NODES, random.randrange(5))]
        said += [f"{node} likes {other}" for other in random.sample(NODES, random.randrange(3))]
        if random.random() < 0.6:
            said.append(f"{node} boss {random.choice(NODES)}")
    return said


def graph_of(triples: list[str]) -> Graph:
    """The graph of triples, of which a later one of a predicate that is no list takes the place of an earlier one."""
    graph: dict[tuple[str, int], frozenset[Posting]] = {}
    for triple in triples:
        subject, name, said = triple.split(" ", 2)
        kind, colon, text = said.partition(":")
        posting = read_posting({"text": "string", "time": "dateTime"}.get(kind, kind), text) if colon else Posting(NODE, int(said))
        assert posting is not None
        key = (name, int(subject))
        graph[key] = frozenset({posting}) | (graph.get(key, frozenset()) if SCHEMA[name].is_list else frozenset())
    return graph


def graph_rows(triples: list[str]) -> Iterator[tuple[str, str]]:
    """The rows that make a graph, with their answers."""
    yield f"schema\t{TEXT}", f"{len(SCHEMA)} declared"
    yield "set\t" + "\t".join(triples), f"{sum(map(len, graph_of(triples).values()))} triples"


def random_function() -> str:
    return random.choice(
        [
            f"uid({', '.join(hex(node) for node in random.sample(range(1, 10), random.randrange(1, 5)))})",
            "has(name)",
            "has(friend)",
            f'eq(name, "{random.choice(["Ann", "Bob"])}")',
            f"ge(age, {random.randrange(-3, 4)})",
            "anyofterms(name, \"ann cid\")",
            f"eq(count(friend), {random.randrange(4)})",
        ]
    )


def random_filter() -> str:
    functions = [random_function() for _ in range(random.randrange(1, 3))]
    functions.append(f"uid_in({random.choice(['friend', 'boss', '~friend'])}, 0x{random.randrange(1, 9)})")
    said = random.choice([" and ", " or "]).join(random.sample(functions, random.randrange(1, len(functions) + 1)))
    return f"@filter({random.choice(['', '', 'not '])}({said}))"


def random_arguments() -> str:
    said = []
    has_order = random.random() < 0.4
    if has_order:
        said += [f"{random.choice(['orderasc', 'orderdesc'])}: {name}" for name in random.sample(["name", "age", "ok", "nick", "born", "none"], random.randrange(1, 3))]
    if random.random() < 0.3:
        said.append(f"first: {random.randrange(0 if has_order else -3, 4)}")
    if random.random() < 0.3:
        said.append(f"offset: {random.randrange(3)}")
    if random.random() < 0.2 and not has_order:
        said.append(f"after: {hex(random.randrange(1, 9))}")
    random.shuffle(said)
    return f"({', '.join(said)})" if said else ""
