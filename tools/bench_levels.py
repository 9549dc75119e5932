#!/usr/bin/env python3
"""Times nested queries of the built program, and queries with variables and recursion, at three sizes, and prints a table with the
growth exponent of each.

    bench_levels.py [PROGRAM] [--sizes SMALL MIDDLE LARGE] [--only WORD]

Each line is one query over a graph that is loaded first; where all nodes lead to all, or parents share their children, the sizes are
smaller ones of its own, and where the query itself grows they are those of its blocks. The program is asked through a pipe, and what counts is the time from a request to the end of its reply, the
least of as many as half a second holds, and of three at least. The exponent is that by which it grows with the nodes, from the smallest
size to the greatest. The memory is the most that the program had with the greatest, its graph included.
"""

from __future__ import annotations

import argparse
import math
import os
import random
import subprocess
import sys
import time
from collections.abc import Callable, Iterator
from pathlib import Path
from typing import NamedTuple, Union


PROGRAM = Path(__file__).resolve().parent.parent / "crates/dgraph/out/dgraph"
STATEMENTS = 10_000
# How many seconds one query is asked over and over, and how often at least.
LONG = 0.5
LEAST = 3
SIZES = [1_000, 10_000, 100_000]
CLIQUES = (50, 100, 200)
SHARED = (100, 300, 1_000)
CHAINS = (200, 2_000, 20_000)


class Nested(NamedTuple):
    """What is declared and stored by the number of nodes, and what is asked; and the sizes in the place of the usual."""

    name: str
    schema: str
    stored: Callable[[int], Iterator[str]]
    asked: Union[str, Callable[[int], str]]
    sizes: tuple[int, ...] = ()

    def query(self, size: int) -> str:
        """What is asked at a size."""
        return self.asked if isinstance(self.asked, str) else self.asked(size)


class Measured(NamedTuple):
    """The seconds of one query, the kilobytes of the program, and what was answered."""

    seconds: float
    memory: int
    answer: str


def friends(size: int) -> Iterator[str]:
    """Each node with a name and 2 to 14 friends."""
    draw = random.Random(size)
    for node in range(1, size + 1):
        yield f'<{hex(node)}> <name> "name {node}" .'
        for other in draw.sample(range(1, size + 1), draw.randrange(2, 15)):
            yield f"<{hex(node)}> <friend> <{hex(other)}> ."


def all_to_all(size: int) -> Iterator[str]:
    """Edges from each node to each."""
    for node in range(1, size + 1):
        for other in range(1, size + 1):
            yield f"<{hex(node)}> <friend> <{hex(other)}> ."


def all_named(size: int) -> Iterator[str]:
    """The same, with a name at each node."""
    yield from all_to_all(size)
    yield from (f'<{hex(node)}> <name> "name {node}" .' for node in range(1, size + 1))


def last_named(size: int) -> Iterator[str]:
    """The same, with a name at the last node alone."""
    yield from all_to_all(size)
    yield f'<{hex(size)}> <name> "the last" .'


def first_named(size: int) -> Iterator[str]:
    """The same, with a name at the first node alone."""
    yield from all_to_all(size)
    yield '<0x1> <name> "the first" .'


def shared(size: int) -> Iterator[str]:
    """Parents that all have the same children, as many as there are parents, of which each has a name."""
    for child in range(1, size + 1):
        yield f'<{hex(size + child)}> <name> "name {child}" .'
    for node in range(1, size + 1):
        for child in range(1, size + 1):
            yield f"<{hex(node)}> <friend> <{hex(size + child)}> ."


def ranked(size: int) -> Iterator[str]:
    """Each node with a number, in no order."""
    numbers = list(range(size))
    random.Random(size).shuffle(numbers)
    for node, number in enumerate(numbers, 1):
        yield f'<{hex(node)}> <rank> "{number}" .'


def deep(fields: str, depth: int = 10, edge: str = "friend", directives: str = "") -> str:
    """A query from one node along so many edges."""
    braces = f"{{ {edge} " * depth + f"{{ {fields} }}" + " }" * depth
    return f"{{ q(func: uid(0x1)) {directives} {braces} }}"


def beside(query: str, block: str) -> str:
    """A query with one block more."""
    return f"{query[:-1]}{block} }}"


def chain(size: int, backwards: bool) -> str:
    """So many blocks, of which each uses what the one before it finds, in this order of the text or backwards."""
    blocks = [f"x{at} as var(func: uid({f'x{at - 1}' if at else '0x1'})) {{}}" for at in range(size)]
    said = " ".join(reversed(blocks) if backwards else blocks)
    return f"{{ q(func: uid(x{size - 1})) {{ uid }} {said} }}"


NAMES = "name: string . friend: [uid] @reverse @count ."
RANKS = "rank: int @index(int) ."
OF_RANKS = "var(func: has(rank)) { x as rank }"
TWO = "friend (first: 2)"
EACH = "{ q(func: has(friend))"
SHARE = "parents that share as many children:"
ALL = "where all lead to all, depth 10:"
FAR = "where all lead to all, depth 29:"
QUERIES = [
    Nested("three hops from a node, of 2 to 14 friends each", NAMES, friends, deep("name", 3)),
    Nested("three hops with a cascade", NAMES, friends, deep("name friend", 3, directives="@cascade")),
    Nested("three hops as flat objects", NAMES, friends, deep("n: name", 3, directives="@normalize")),
    Nested("two friends of each, and how many there are", NAMES, friends, EACH + " { count(friend) friend (first: 2) { name } } }"),
    Nested(f"{SHARE} how many", NAMES, shared, EACH + " { friend { count(uid) } } }", SHARED),
    Nested(f"{SHARE} ten of each in order", NAMES, shared, EACH + " { friend (orderdesc: name, first: 10) { name } } }", SHARED),
    Nested(f"{SHARE} a cascade that drops all", NAMES, shared, EACH + " { friend @cascade { count(uid) friend } } }", SHARED),
    Nested(f"{ALL} nothing shown", NAMES, all_to_all, deep("name"), CLIQUES),
    Nested(f"{ALL} too large", NAMES, all_to_all, deep("uid"), CLIQUES),
    Nested(f"{ALL} pages of two", NAMES, all_to_all, deep("uid", edge=TWO), CLIQUES),
    Nested(f"{ALL} a cascade that leaves nothing", NAMES, all_to_all, deep("name", directives="@cascade"), CLIQUES),
    Nested(f"{ALL} a cascade, too large", NAMES, all_to_all, deep("uid", directives="@cascade"), CLIQUES),
    Nested(f"{ALL} a cascade, pages of two", NAMES, all_to_all, deep("uid", edge=TWO, directives="@cascade"), CLIQUES),
    Nested(f"{FAR} too large", NAMES, all_to_all, deep("uid", 29), CLIQUES),
    Nested(f"{FAR} a cascade, too large", NAMES, all_to_all, deep("uid", 29, directives="@cascade"), CLIQUES),
    Nested(f"{ALL} flat objects, none", NAMES, all_to_all, deep("n: name", directives="@normalize"), CLIQUES),
    Nested(f"{ALL} flat objects, too large", NAMES, all_to_all, deep("u: uid", directives="@normalize"), CLIQUES),
    Nested(f"{ALL} flat objects, pages of two", NAMES, all_to_all, deep("u: uid", edge=TWO, directives="@normalize"), CLIQUES),
    Nested("order by a number, 10 shown", RANKS, ranked, "{ q(func: has(rank), orderdesc: rank, first: 10) { rank } }"),
    Nested("the first 10 of all", RANKS, ranked, "{ q(func: has(rank), first: 10) { rank } }"),
    Nested("a variable of all nodes, 10 shown", RANKS, ranked, "{ x as var(func: has(rank)) { } q(func: uid(x), first: 10) { rank } }"),
    Nested("a variable of all friends, 10 shown", NAMES, friends, "{ var(func: has(name)) { x as friend } q(func: uid(x), first: 10) { name } }"),
    Nested("all but a variable's nodes", NAMES, friends, "{ var(func: uid(0x1)) { x as friend } q(func: has(name), first: 10) @filter(not uid(x)) { name } }"),
    Nested("order by a variable, 10 shown", RANKS, ranked, f"{{ {OF_RANKS} q(func: uid(x), orderdesc: val(x), first: 10) {{ val(x) }} }}"),
    Nested("a variable's values at a root, 10 shown", RANKS, ranked, f"{{ {OF_RANKS} q(func: ge(val(x), 5), first: 10) {{ val(x) }} }}"),
    Nested("the least, the greatest and the sum of a variable", RANKS, ranked, f"{{ {OF_RANKS} q() {{ min(val(x)) max(val(x)) sum(val(x)) }} }}"),
    Nested("a variable of counts, three hops from a node", NAMES, friends, beside(deep("x as count(friend)", 3), "t() { sum(val(x)) }")),
    Nested("a variable where all lead to all, depth 10", NAMES, all_to_all, beside(deep("x as count(friend)"), "t() { sum(val(x)) }"), CLIQUES),
    Nested("blocks that use the one before", RANKS, ranked, lambda size: chain(size, False), CHAINS),
    Nested("blocks that use the one behind", RANKS, ranked, lambda size: chain(size, True), CHAINS),
]


def recursion(options: str, fields: str = "name friend") -> str:
    return f"{{ q(func: uid(0x1)) @recurse({options}) {{ {fields} }} }}"


RECUR = "recursion where all lead to all, depth 32:"
LOOPS = "recursion with loops where all lead to all, depth 32:"
RECURSIONS = [
    Nested("recursion from a node, of 2 to 14 friends each, depth 3", NAMES, friends, recursion("depth: 3")),
    Nested(f"{RECUR} names everywhere", NAMES, all_named, recursion("depth: 32"), CLIQUES),
    Nested(f"{RECUR} a name at the last node", NAMES, last_named, recursion("depth: 32"), CLIQUES),
    Nested(f"{RECUR} a name at the first node", NAMES, first_named, recursion("depth: 32"), CLIQUES),
    Nested(f"{RECUR} no name", NAMES, all_to_all, recursion("depth: 32"), CLIQUES),
    Nested(f"{RECUR} to names alone", NAMES, last_named, recursion("depth: 32", "name friend @filter(has(name))"), CLIQUES),
    Nested(f"{LOOPS} names everywhere", NAMES, all_named, recursion("depth: 32, loop: true"), CLIQUES),
    Nested(f"{LOOPS} a name at the last node", NAMES, last_named, recursion("depth: 32, loop: true"), CLIQUES),
    Nested(f"{LOOPS} no name", NAMES, all_to_all, recursion("depth: 32, loop: true"), CLIQUES),
    Nested(f"{LOOPS} pages of one", NAMES, all_named, recursion("depth: 32, loop: true", "name friend (first: 1)"), CLIQUES),
]
# What is asked.
ASKED = [*QUERIES, *RECURSIONS]


def frame(head: str, body: str) -> bytes:
    said = body.encode()
    return f"{head} {len(said)}\n".encode() + said + b"\n"


def batches(lines: Iterator[str]) -> Iterator[str]:
    """Bodies of so many statements."""
    batch: list[str] = []
    for line in lines:
        batch.append(line)
        if len(batch) == STATEMENTS:
            yield "\n".join(batch)
            batch = []
    yield "\n".join(batch)


def load(query: Nested, size: int) -> Iterator[bytes]:
    """The requests before the query."""
    yield frame("alter", query.schema)
    for body in batches(query.stored(size)):
        yield from (b"begin 1\n", frame("mutate 1", body), b"commit 1\n")
    yield b"begin 1\n"


def answer_in(reply: str) -> str:
    """What the first line of a reply says of the answer: how long it is, or why there is none."""
    words = reply.split()
    return f"{int(words[-1]):,} bytes" if words[0] == "ok" else " ".join(words[1:])


class Running:
    """The program, which is asked one request after another."""

    def __init__(self, program: Path) -> None:
        self.child = subprocess.Popen([program, "run"], stdin=subprocess.PIPE, stdout=subprocess.PIPE)

    def __enter__(self) -> Running:
        return self

    def __exit__(self, *_: object) -> None:
        if self.child.returncode is None:
            self.child.kill()
        with self.child:
            pass

    def ask(self, request: bytes) -> str:
        """The first line of the reply, which is read to its end."""
        assert self.child.stdin is not None and self.child.stdout is not None
        self.child.stdin.write(request)
        self.child.stdin.flush()
        line = self.child.stdout.readline().decode()
        if not line:
            raise SystemExit("the program ended before its time")
        if line.startswith(("ok mutate ", "ok query ", "ok upsert ")):
            self.child.stdout.read(int(line.split()[-1]) + 1)
        return line

    def timed(self, request: bytes) -> tuple[float, str]:
        """The least time of a request that is asked over and over, and the first line of its reply."""
        took: list[float] = []
        line = ""
        while sum(took) < LONG or len(took) < LEAST:
            seconds, line = self.once(request)
            took.append(seconds)
        return min(took), line

    def once(self, request: bytes) -> tuple[float, str]:
        """The time of a request, and the first line of its reply."""
        started = time.perf_counter()
        line = self.ask(request)
        return time.perf_counter() - started, line

    def end(self) -> int:
        """Ends the program, and gives the most kilobytes that it had."""
        assert self.child.stdin is not None
        self.child.stdin.close()
        _, status, usage = os.wait4(self.child.pid, 0)
        self.child.returncode = os.waitstatus_to_exitcode(status)
        if self.child.returncode != 0:
            raise SystemExit(f"the program ended with {self.child.returncode}")
        return usage.ru_maxrss


def measured(program: Path, query: Nested, size: int) -> Measured:
    """One query over a graph of a size."""
    with Running(program) as running:
        for request in load(query, size):
            line = running.ask(request)
            if not line.startswith("ok "):
                raise SystemExit(f"the load was answered {line}")
        took, line = running.timed(frame("query 1", query.query(size)))
        return Measured(took, running.end(), answer_in(line))


def exponent(sizes: list[int], took: list[float]) -> float:
    """How the time grows from the first size to the last."""
    return math.log(took[-1] / took[0]) / math.log(sizes[-1] / sizes[0])


def line_of(query: Nested, sizes: list[int], found: list[Measured]) -> str:
    """A query's line of the table."""
    cells = [query.name, ", ".join(f"{size:,}" for size in sizes)]
    cells += [f"{one.seconds * 1000:,.2f} ms" for one in found]
    cells += [f"{exponent(sizes, [one.seconds for one in found]):.2f}", found[-1].answer, f"{found[-1].memory // 1024} MB"]
    return f"| {' | '.join(cells)} |"


def main() -> int:
    reader = argparse.ArgumentParser(description=__doc__, formatter_class=argparse.RawDescriptionHelpFormatter)
    reader.add_argument("program", type=Path, nargs="?", default=PROGRAM)
    reader.add_argument("--sizes", type=int, nargs=3, default=SIZES)
    reader.add_argument("--only", default="", help="a word in the names of the queries that are timed")
    said = reader.parse_args()
    print("| Query | Nodes | Small | Middle | Large | Exponent | Answer, large | Memory |\n|---|---|---|---|---|---|---|---|", flush=True)
    for query in ASKED:
        if said.only in query.name:
            sizes = list(query.sizes) or said.sizes
            print(line_of(query, sizes, [measured(said.program, query, size) for size in sizes]), flush=True)
    return 0


if __name__ == "__main__":
    sys.exit(main())
