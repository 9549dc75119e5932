#!/usr/bin/env python3
"""Times requests of the built program whose bodies have very many of one part, at three lengths up to the longest that is taken, and
prints a table with the growth exponent of each.

    bench_bodies.py [PROGRAM] [--nodes N] [--most SECONDS] [--only WORD]

Each line is one request over a small graph of N nodes (300), which is loaded first and asked once. A request that isn't answered within
SECONDS (60) is ended. The exponent is that by which the time grows with the length. A request should take about a second a MiB; what takes
longer asks each of its parts of each node.
"""

from __future__ import annotations

import argparse
import signal
from collections.abc import Callable, Iterator
from pathlib import Path
from typing import NamedTuple, Optional, Union

from bench_levels import PROGRAM, Running, answer_in, batches, exponent, frame

MOST = 1_048_576
LENGTHS = [MOST // 16, MOST // 4, MOST]
SCHEMA = """name: string @index(exact, term, trigram) .
age: int @index(int) .
friend: [uid] @reverse @count .
note: [string] @index(term) .
ok: bool @index(bool) ."""


class Form(NamedTuple):
    """A body of many parts: what stands before them, each by its number, and what stands behind them."""

    name: str
    front: str
    part: Union[str, Callable[[int], str]]
    back: str
    head: str = "query 1"

    def body(self, most: int) -> str:
        """As many parts as fit into so many bytes."""
        parts: list[str] = []
        left = most - len(self.front) - len(self.back)
        while True:
            part = self.part if isinstance(self.part, str) else self.part(len(parts))
            left -= len(part)
            if left < 0:
                return self.front + "".join(parts) + self.back
            parts.append(part)


NAMED = "{ q(func: has(name)"
VALUES = "{ var(func: has(name)) { x as age } "
FOUND = "upsert { query { q(func: uid(0x1)) { u as uid } } "
FORMS = [
    Form("fields that nobody has", NAMED + ") { uid", lambda i: f" f{i}", " } }"),
    Form("names of a node, each under a key of its own", "{ q(func: uid(0x1)) {", lambda i: f" a{i}:name", " } }"),
    Form("edges of a node, each under a key of its own", "{ q(func: uid(0x1)) {", lambda i: f" a{i}:friend{{name}}", " } }"),
    Form("the same of edges below edges, with a cascade", "{ q(func: uid(0x1)) @cascade {", lambda i: f" a{i}:friend{{friend{{name}}}}", " } }"),
    Form("counts", "{ q(func: uid(0x1)) {", lambda i: f" a{i}:count(friend)", " } }"),
    Form("orders", NAMED, ", orderasc: name", ") { uid } }"),
    Form("functions that all have to hold", NAMED + ") @filter(has(name)", lambda i: f" and ge(age, {i % 3})", ") { uid } }"),
    Form("functions of which one has to hold", NAMED + ') @filter(eq(name, "x")', lambda i: f' or eq(name, "n{i}")', ") { uid } }"),
    Form("patterns of which one has to be found", NAMED + ") @filter(regexp(name, /x/)", lambda i: f" or regexp(name, /n{i}.*z/)", ") { uid } }"),
    Form("`not`", NAMED + ") @filter(", "not ", "has(name)) { uid } }"),
    Form("literals of a root", '{ q(func: eq(name, "x"', lambda i: f', "name {i}"', ")) { uid } }"),
    Form("literals of a filter", NAMED + ') @filter(eq(note, "x"', lambda i: f', "name {i}"', ")) { uid } }"),
    Form("terms of a root", '{ q(func: anyofterms(name, "x', lambda i: f" t{i}", '")) { uid } }'),
    Form("terms of a filter", NAMED + ') @filter(anyofterms(note, "x', lambda i: f" t{i}", '")) { uid } }'),
    Form("nodes of a root", "{ q(func: uid(0x1", lambda i: f", 0x{i + 2:x}", ")) { name } }"),
    Form("nodes of `uid_in`", NAMED + ") @filter(uid_in(friend, 0x1", lambda i: f", 0x{i + 2:x}", ")) { uid } }"),
    Form("blocks of one node", "{ ", lambda i: f"b{i}(func: uid(0x1)){{name}}", "}"),
    Form("blocks of all nodes", "{ ", lambda i: f"b{i}(func: has(name), first: 1){{uid}}", "}"),
    Form("blocks that each use the one before", "{ v0 as var(func: uid(0x1)){uid} ", lambda i: f"v{i + 1} as var(func: uid(v{i})){{uid}}", " }"),
    Form("blocks with a pattern", "{ ", lambda i: f"b{i}(func: regexp(name, /na.*{i}$/)) {{ uid }} ", "}"),
    Form("values of a variable", VALUES + "q(func: uid(x), first: 3) {", lambda i: f" a{i}:val(x)", " } }"),
    Form("sums of a variable", VALUES + "q() {", lambda i: f" a{i}:sum(val(x))", " } }"),
    Form("functions of a variable's values", VALUES + "q(func: uid(x)) @filter(ge(val(x), 0)", lambda i: f" and ge(val(x), {i % 5})", ") { uid } }"),
    Form("recursion: names", "{ q(func: uid(0x1)) @recurse(depth: 4) { friend", lambda i: f" a{i}:name", " } }"),
    Form("recursion: edges", "{ q(func: uid(0x1)) @recurse(depth: 4) { name", lambda i: f" a{i}:friend", " } }"),
    Form("recursion with loops: edges", "{ q(func: uid(0x1)) @recurse(depth: 4, loop: true) { name", lambda i: f" a{i}:friend", " } }"),
    Form("recursion: blocks", "{ ", lambda i: f"b{i}(func: uid(0x1)) @recurse(depth: 30) {{ friend ok }}", " }"),
    Form("statements, each of another node", "", lambda i: f'<0x{i + 1:x}> <name> "v{i}" .\n', "", "mutate 1"),
    Form("statements of one node", "", lambda i: f"<0x1> <friend> <0x{i + 1:x}> .\n", "", "mutate 1"),
    Form("statements that lead to one node", "", lambda i: f"<0x{i + 1:x}> <friend> <0x1> .\n", "", "mutate 1"),
    Form("new nodes", "", lambda i: f'_:b{i} <name> "v" .\n', "", "mutate 1"),
    Form("words of one text", '<0x1> <name> "', lambda i: f"w{i} ", '" .', "mutate 1"),
    Form("statements of an upsert block", FOUND + "mutation { set {", lambda i: f' uid(u) <note> "z{i}" .\n', " } } }", "upsert 1"),
    Form("mutations with conditions", FOUND, ' mutation @if(eq(len(u), 5)) { set { uid(u) <note> "z" . } }', " }", "upsert 1"),
    Form("parts of a condition", FOUND + "mutation @if(eq(len(u), 1)", " or eq(len(u), 5)", ') { set { uid(u) <note> "z" . } } }', "upsert 1"),
]


def stored(nodes: int) -> Iterator[str]:
    """The graph: each node has a name, an age, two friends and two notes."""
    for node in range(1, nodes + 1):
        yield f'<{hex(node)}> <name> "name {node} of {node % 97}" .'
        yield f'<{hex(node)}> <age> "{node % 113}" .'
        for other in (node % nodes + 1, node * 7 % nodes + 1):
            yield f"<{hex(node)}> <friend> <{hex(other)}> ."
        for note in (f"a{node % 5}", f"b{node % 7}"):
            yield f'<{hex(node)}> <note> "{note}" .'


def load(nodes: int) -> Iterator[bytes]:
    """The requests before the one that is timed."""
    yield frame("alter", SCHEMA)
    for body in batches(stored(nodes)):
        yield from (b"begin 1\n", frame("mutate 1", body), b"commit 1\n")
    yield b"begin 1\n"


class Late(Exception):
    """A request that isn't answered in time."""


def late(*_: object) -> None:
    raise Late


def measured(program: Path, form: Form, length: int, nodes: int, most: int) -> Optional[tuple[float, str, int]]:
    """The seconds of a request, what was answered, and the kilobytes of the program; None, where it isn't answered in time."""
    with Running(program) as running:
        for request in load(nodes):
            running.ask(request)
        request = frame(form.head, form.body(length))
        signal.signal(signal.SIGALRM, late)
        signal.alarm(most)
        try:
            took, line = running.once(request)
        except Late:
            return None
        finally:
            signal.alarm(0)
        return took, answer_in(line), running.end()


def line_of(form: Form, found: list[Optional[tuple[float, str, int]]], most: int) -> str:
    """A form's line of the table."""
    told = [one for one in found if one is not None]
    cells = [form.name, *("more than " + f"{most} s" if one is None else f"{one[0] * 1000:,.1f} ms" for one in found)]
    grows = f"{exponent(LENGTHS, [one[0] for one in told]):.2f}" if len(told) == len(LENGTHS) else "–"
    cells += [grows, told[-1][1] if told else "–", f"{told[-1][2] // 1024} MB" if told else "–"]
    return f"| {' | '.join(cells)} |"


def main() -> int:
    words = argparse.ArgumentParser(description=__doc__, formatter_class=argparse.RawDescriptionHelpFormatter)
    words.add_argument("program", nargs="?", type=Path, default=PROGRAM)
    words.add_argument("--nodes", type=int, default=300)
    words.add_argument("--most", type=int, default=60, metavar="SECONDS")
    words.add_argument("--only", default="", metavar="WORD")
    given = words.parse_args()
    print(f"| A body of many | {' | '.join(f'{length // 1024} KiB' for length in LENGTHS)} | Exponent | Answer, of the last that is told | Memory |")
    print("|---|---|---|---|---|---|---|")
    for form in FORMS:
        if given.only in form.name:
            found = [measured(given.program.resolve(), form, length, given.nodes, given.most) for length in LENGTHS]
            print(line_of(form, found, given.most), flush=True)
    return 0


if __name__ == "__main__":
    raise SystemExit(main())
