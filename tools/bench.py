#!/usr/bin/env python3
"""How long the built program takes over workloads of three sizes, and SQLite beside it.

    bench.py [--program PATH] [--quick] [--sizes N,N,N] [--only WORDS,..] [--repeat N] [--plain]

It prints a table: for each workload and size how many seconds of a processor the program took, how many microseconds
a request (`alter`, `begin`, `mutate`, `query`, `upsert`, `commit` and `discard` are one each) and a unit, its peak memory, by how
many bytes a request that is above the peak over what is needed first, and the exponent by which the time grew since the
size before (1 is as the size, 2 as its square). A size is a number of units: changes of a load, commits that are tried,
reads, sign-ups, nodes that are marked, triples over which an alter adds an index. Behind it stands a table of questions, whose names begin with `query`: for each
number of nodes how often a question was asked in one transaction, how many bytes an answer has, how many microseconds a
query took, by how many KiB the peak is above that over the data alone, which is what one query takes, and the exponent
by which the time grew.

`--quick` takes smaller sizes and less than a minute; `--only` takes the workloads and questions whose names have one of
the words; `--repeat` takes the best of so many runs; `--plain` leaves SQLite out.

The program reads a script from a file and writes its replies to another. The time and the peak of a run over what a
workload needs first are taken off. Every reply is counted, and one that isn't `ok`, but for conflicts where they are meant, ends it
with 1. Workloads with an index are left out where the program answers 98 to directives.

SQLite is Python's own, in memory, in a process of its own whose peak has Python in it. It does the same work over a
table of triples with a key by predicate and subject, an index by predicate and object where the workload asks for it,
and a table of words by triple for terms. Python makes its answers the same texts, which have to be as long.
Transactions that overlap are judged by a table of when each place was written last; others are not judged at all. It
keeps no older moment, so reads of one aren't asked of it. Times are of the statements and answers alone.

It needs Python 3.9 or later, and nothing else.
"""

from __future__ import annotations

import argparse
import json
import math
import os
import random
import re
import resource
import sqlite3
import subprocess
import sys
import tempfile
import time
from collections import Counter
from collections.abc import Callable, Iterable, Iterator
from itertools import chain, islice
from pathlib import Path
from typing import BinaryIO, NamedTuple, Optional

from bench_questions import QUESTIONS, Question
from bench_steps import EMAIL, INDEXED, LARGE, MARK, NAME, Block, Step, Steps, Triple, Workload
from bench_steps import adding, mark_all, name_of, names, queries, sign_up, transactions, upserts

PROGRAM = Path(__file__).resolve().parent.parent / "crates" / "dgraph" / "out" / "dgraph"
SIZES = [10_000, 30_000, 100_000]
NODES = [1_000, 10_000, 100_000]
QUICK = [1_000, 3_000, 10_000]
LONGEST_INPUT = 67_108_864
# How many seconds a run may take.
SECONDS = 600
SESSIONS = range(1, 17)


class Wrong(Exception):
    """A run that can't be measured, and why."""


# ---------------------------------------------------------------------------------------------------
# Workloads
# ---------------------------------------------------------------------------------------------------


def over(nodes: int, size: int) -> Iterator[Triple]:
    """New names for a few nodes, one after the other."""
    return (Triple(1 + change % nodes, "name", f"name {change}") for change in range(size))


def reads(size: int) -> Steps:
    """Reads of names at random, in one transaction."""
    draw = random.Random(size)
    return queries(name_of(draw.randrange(1, size + 1)) for _ in range(size))


def later_reads(size: int) -> Steps:
    """Reads of a hundred nodes, each in a transaction of its own."""
    for read in range(size):
        yield Step("begin", 1)
        yield Step("query", 1, asked=name_of(1 + read % 100))
        yield Step("discard", 1)


def history_behind_a_start(size: int) -> Steps:
    """A hundred names, a transaction that stays open, and new names for them."""
    yield from transactions(names(100), LARGE)
    yield Step("begin", 16)
    yield from transactions(over(100, size), 1)


def older_reads(size: int) -> Steps:
    """Reads in the transaction that was left open."""
    yield from (Step("query", 16, asked=name_of(1 + read % 100)) for read in range(size))


def contended(size: int) -> Steps:
    """Rounds in which sixteen sessions name one of four nodes each."""
    draw = random.Random(size)
    for first in range(0, size, len(SESSIONS)):
        sessions = SESSIONS[: size - first]
        yield from (Step("begin", session) for session in sessions)
        for session in sessions:
            yield Step("mutate", session, (Triple(draw.randrange(1, 5), "name", f"name {first} {session}"),))
        yield from (Step("commit", session) for session in sessions)


def sign_ups(size: int) -> Iterator[Block]:
    """Sign-ups by e-mails drawn from as many, so that some are taken already."""
    draw = random.Random(size)
    return (sign_up(f"u{draw.randrange(size)}@example.org") for _ in range(size))


EACH = [1, 100, 10_000]


def load(name: str, schema: str, triples: Callable[[int], Iterator[Triple]], each: int, index: str = "") -> Workload:
    """A load in transactions of so many changes."""
    return Workload(
        f"{name}, {each:,} a transaction", schema, lambda size: transactions(triples(size), each), index=index
    )


WORKLOADS = [
    load("load", NAME, names, 1),
    load("load", NAME, names, LARGE),
    Workload("point reads", NAME, reads, lambda size: transactions(names(size), LARGE)),
    Workload("contended commits, 16 sessions", NAME, contended, overlaps=True),
    Workload("hot key", NAME, lambda size: transactions(over(1, size), 1)),
    Workload("reads behind a long history", NAME, later_reads, lambda size: transactions(over(100, size), 1)),
    Workload("reads before a long history", NAME, older_reads, history_behind_a_start, is_older=True),
    Workload("sign-ups, upserts of one node", EMAIL, lambda size: upserts(sign_ups(size)), index="exact"),
    Workload(
        "an upsert over all nodes",
        MARK,
        lambda _: upserts([mark_all()]),
        lambda size: transactions(names(size), LARGE),
    ),
    *(load(f"{index} index", *INDEXED[index], each, index) for index in INDEXED for each in EACH),
    *(adding(index) for index in INDEXED),
]


# ---------------------------------------------------------------------------------------------------
# The program
# ---------------------------------------------------------------------------------------------------


class Figures(NamedTuple):
    """How many seconds of a processor something took, for how many requests, its peak in MiB, how many bytes the
    answers to queries have, and the peak in MiB of what was needed first."""

    seconds: float
    requests: int
    peak: float
    answered: int = 0
    first: float = 0.0

    def above(self) -> float:
        """How many bytes the peak is above that of what was needed first."""
        return max(0.0, self.peak - self.first) * 2**20


class Ending(NamedTuple):
    """How a process ended: its status, its seconds of a processor, and its peak in MiB."""

    status: int
    seconds: float
    peak: float


class Ran(NamedTuple):
    """A run of the program: its end, its replies by their first two words, and how many bytes its answers have."""

    ending: Ending
    replies: Counter[bytes]
    answered: int


def write_script(file: BinaryIO, schema: str, steps: Iterable[Step]) -> int:
    """Writes a script into an empty file, and answers how many requests it has."""
    file.write(b"alter %d\n%s\n" % (len(schema), schema.encode()))
    requests = 1
    for step in steps:
        file.write(step.frame())
        requests += 1
    if file.tell() > LONGEST_INPUT:
        raise Wrong(f"its script has {file.tell():,} bytes, and the program takes {LONGEST_INPUT:,}")
    return requests


def replies_of(file: BinaryIO) -> tuple[Counter[bytes], int]:
    """The replies by their first two words, and how many bytes the answers have. Bodies have no line feed."""
    file.seek(0)
    replies: Counter[bytes] = Counter()
    answered = 0
    for line in file:
        if line.startswith((b"ok ", b"error ")):
            words = line.split()
            replies[b" ".join(words[:2])] += 1
            answered += int(words[-1]) if words[:2] == [b"ok", b"query"] else 0
    return replies, answered


def peak_so_far(pid: int) -> int:
    """The most KiB that a process has had in memory; 0 where the system doesn't tell it."""
    try:
        found = re.search(r"VmHWM:\s*([0-9]+) kB", Path(f"/proc/{pid}/status").read_text(encoding="utf-8"))
    except OSError:
        return 0
    return int(found[1]) if found else 0


def waited(child: subprocess.Popen[bytes]) -> Ending:
    """How a child ends; one that takes too long is ended."""
    # What is told of a child that has ended is at least what its parent had when it began, so a smaller peak is looked
    # for while it runs.
    least = resource.getrusage(resource.RUSAGE_SELF).ru_maxrss
    late = time.monotonic() + SECONDS
    peak, pause = 0, 0.0005
    while True:
        peak = max(peak, peak_so_far(child.pid))
        ended, status, used = os.wait4(child.pid, os.WNOHANG)
        if ended:
            child.returncode = os.waitstatus_to_exitcode(status)
            peak = used.ru_maxrss if used.ru_maxrss > least else peak
            return Ending(child.returncode, used.ru_utime + used.ru_stime, peak / 1024)
        if time.monotonic() > late:
            child.kill()
            late = math.inf
        time.sleep(pause)
        pause = min(2 * pause, 0.01)


def run(program: Path, schema: str, steps: Iterable[Step]) -> Ran:
    """What the program does with these requests."""
    with tempfile.TemporaryFile() as script, tempfile.TemporaryFile() as wrote, tempfile.TemporaryFile() as said:
        requests = write_script(script, schema, steps)
        script.seek(0)
        ending = waited(subprocess.Popen([program.absolute(), "run"], stdin=script, stdout=wrote, stderr=said))
        said.seek(0)
        words = said.read(200).decode("utf-8", "replace").strip()
        replies, answered = replies_of(wrote)
    count = sum(replies.values())
    if ending.status != 0 or count != requests:
        raise Wrong(f"the program ended with {ending.status} {words!r}, and answered {count} of {requests} requests")
    return Ran(ending, replies, answered)


def takes(program: Path, schema: str) -> bool:
    """Whether the program takes these definitions."""
    replies = run(program, schema, ()).replies
    if set(replies) - {b"ok alter", b"error 98"}:
        raise Wrong(f"the program answers {dict(replies)} to {schema!r}")
    return b"ok alter" in replies


def whole_run(program: Path, work: Workload, size: int) -> Ran:
    """A run over a workload and what it needs first."""
    whole = run(program, work.schema, chain(work.before(size), work.measured(size)))
    allowed = {b"error 19"} if work.overlaps else set()
    refused = [reply for reply in whole.replies if reply.startswith(b"error") and reply not in allowed]
    if refused:
        raise Wrong(f"the program answers {b', '.join(refused).decode()}")
    return whole


def of_program(program: Path, work: Workload, size: int, repeat: int = 1) -> Figures:
    """What the program takes for a workload: a run with the data that are needed first, less one over those alone; of
    each the shortest of so many."""
    pairs = ((whole_run(program, work, size), run(program, work.schema, work.before(size))) for _ in range(repeat))
    whole, first = (min(runs, key=lambda ran: ran.ending.seconds) for runs in zip(*pairs))
    seconds = max(0.0, whole.ending.seconds - first.ending.seconds)
    requests = sum(whole.replies.values()) - sum(first.replies.values())
    return Figures(seconds, requests, whole.ending.peak, whole.answered - first.answered, first.ending.peak)


# ---------------------------------------------------------------------------------------------------
# SQLite
# ---------------------------------------------------------------------------------------------------

TABLES = """
create table triple (p text, s integer, o, primary key (p, s, o)) without rowid;
create table word (p text, w text, s integer, primary key (p, w, s)) without rowid;
create table written (p text, s integer, at integer, primary key (p, s)) without rowid;
"""
INDEX = "create index by_object on triple (p, o, s)"


class Sqlite:
    """The same work in SQLite."""

    def __init__(self, work: Workload) -> None:
        self.work = work
        self.base = sqlite3.connect(":memory:", isolation_level=None)
        self.base.executescript(TABLES)
        if work.index in ("exact", "int", "reverse"):
            self.base.execute(INDEX)
        self.answered = 0
        self.next_node = 1
        self.clock = 0
        self.starts: dict[int, int] = {}
        self.changes: dict[int, list[Triple]] = {}

    def do(self, step: Step) -> None:
        getattr(self, step.verb)(step)

    def alter(self, step: Step) -> None:
        if step.adds == "term":
            rows = self.base.execute("select p, o, s from triple").fetchall()
            self.file(Triple(s, p, o) for p, o, s in rows)
        else:
            self.base.execute(INDEX)

    def begin(self, step: Step) -> None:
        self.clock += 1
        self.starts[step.session] = self.clock
        self.changes[step.session] = []

    def mutate(self, step: Step) -> None:
        self.changes[step.session] += step.triples

    def query(self, step: Step) -> str:
        assert step.asked
        answer = step.asked.answer(self.base.execute(step.asked.statement, step.asked.bound))
        self.answered += len(answer)
        return answer

    def upsert(self, step: Step) -> None:
        assert step.block
        found = [node for node, in self.base.execute(step.block.statement, step.block.bound)]
        triples = step.block.sets(found, self.next_node)
        self.next_node = max([self.next_node, *(triple.subject + 1 for triple in triples)])
        self.changes[step.session] += triples

    def discard(self, step: Step) -> None:
        del self.starts[step.session], self.changes[step.session]

    def commit(self, step: Step) -> None:
        start, triples = self.starts.pop(step.session), self.changes.pop(step.session)
        self.clock += 1
        self.base.execute("begin")
        if self.work.overlaps and not self.judged(start, triples):
            self.base.execute("rollback")
            return
        self.store(triples)
        self.base.execute("commit")

    def judged(self, start: int, triples: list[Triple]) -> bool:
        """Whether nobody has written these places since the start; they are written now, if so."""
        places = [triple.place for triple in triples]
        for place in places:
            if self.base.execute("select 1 from written where p = ? and s = ? and at > ?", (*place, start)).fetchone():
                return False
        rows = ((*place, self.clock) for place in places)
        self.base.executemany("insert or replace into written values (?, ?, ?)", rows)
        return True

    def store(self, triples: list[Triple]) -> None:
        """Puts triples into the tables; of predicates that are no lists in the place of what is there."""
        if self.work.index != "reverse":
            self.base.executemany("delete from triple where p = ? and s = ?", (triple.place for triple in triples))
        rows = ((*triple.place, triple.object) for triple in triples)
        self.base.executemany("insert or ignore into triple values (?, ?, ?)", rows)
        if self.work.index == "term":
            # No workload sets a second text for a node, whose words would have to go.
            self.file(triples)

    def file(self, triples: Iterable[Triple]) -> None:
        """Puts the words of triples into their table."""
        words = ((it.predicate, word, it.subject) for it in triples for word in str(it.object).casefold().split())
        self.base.executemany("insert or ignore into word values (?, ?, ?)", words)


def in_sqlite(work: Workload, size: int) -> Figures:
    """What SQLite takes here for what is measured of a workload."""
    base = Sqlite(work)
    for step in work.before(size):
        base.do(step)
    seconds, requests, base.answered, first = 0.0, 0, 0, peak_so_far(os.getpid()) / 1024
    steps = work.measured(size)
    # The requests are made in advance, some at a time, so that neither their making nor their memory counts.
    while some := list(islice(steps, 1_000)):
        began = time.process_time()
        for step in some:
            base.do(step)
        seconds += time.process_time() - began
        requests += len(some)
    return Figures(seconds, requests, peak_so_far(os.getpid()) / 1024, base.answered, first)


def of_sqlite(work: Workload, size: int, repeat: int = 1) -> Optional[Figures]:
    """What it takes in a process of its own, the best of so many; nothing where it can't do that work."""
    if work.is_older:
        return None
    return min((one_of_sqlite(work, size) for _ in range(repeat)), key=lambda one: one.seconds)


def one_of_sqlite(work: Workload, size: int) -> Figures:
    """What one such process takes."""
    words = [sys.executable, "-B", __file__, "--in-sqlite", work.name, "--sizes", str(size)]
    child = subprocess.Popen(words, stdout=subprocess.PIPE)
    assert child.stdout
    wrote = child.stdout.read()
    child.stdout.close()
    status = waited(child).status
    if status != 0:
        raise Wrong(f"SQLite ended with {status}")
    return Figures(*json.loads(wrote))


# ---------------------------------------------------------------------------------------------------
# The tables
# ---------------------------------------------------------------------------------------------------

HEADS = ["Seconds", "µs a request", "µs a unit", "Peak MiB", "Bytes a request", "Growth"]
QUESTION_HEADS = ["µs a query", "Peak MiB", "KiB a query", "Growth"]
Side = Callable[[Workload, int], Optional[Figures]]


def growth(now: Optional[Figures], size: int, before: Optional[Figures], size_before: int) -> str:
    """The exponent by which the time grew from one size to the next; a dash where it can't be told."""
    if now is None or before is None or min(now.seconds, before.seconds) <= 0 or size == size_before:
        return "-"
    return f"{math.log(now.seconds / before.seconds) / math.log(size / size_before):.2f}"


def cells(now: Optional[Figures], size: int, grew: str) -> list[str]:
    """The cells of a row for one side."""
    if now is None:
        return ["-"] * len(HEADS)
    requests = max(1, now.requests)
    each = [now.seconds * 1e6 / count for count in (requests, size)]
    return [f"{now.seconds:.3f}", *(f"{it:.2f}" for it in each), f"{now.peak:.0f}", f"{now.above() / requests:.0f}", grew]


def question_cells(now: Optional[Figures], _: int, grew: str) -> list[str]:
    """The cells of a question for one side, whose figures are of one query."""
    if now is None:
        return ["-"] * len(QUESTION_HEADS)
    return [f"{now.seconds * 1e6:.2f}", f"{now.peak:.0f}", f"{now.above() / 1024:.0f}", grew]


def row(words: Iterable[str]) -> None:
    print(f"| {' | '.join(words)} |", flush=True)


def head(first: list[str], heads: list[str], sides: list[Side]) -> None:
    """The head of a table: what stands before the sides, and the heads of each."""
    names = [*first, *heads, *(f"SQLite: {head}" for _ in sides[1:] for head in heads)]
    row(names)
    row(["---", *("---:" for _ in names[1:])])


class Measured(NamedTuple):
    """What the sides took at a size, and by which exponents that grew since the size before."""

    size: int
    figures: list[Optional[Figures]]
    grew: list[str]

    def shown(self, cells_of: Callable[[Optional[Figures], int, str], list[str]]) -> Iterator[str]:
        """The cells of all sides."""
        return chain.from_iterable(cells_of(one, self.size, by) for one, by in zip(self.figures, self.grew))


def measured(work: Workload, sizes: list[int], sides: list[Side]) -> Iterator[Measured]:
    """What a workload takes at each size."""
    before: list[Optional[Figures]] = [None for _ in sides]
    size_before = 0
    for size in sizes:
        now = [side(work, size) for side in sides]
        answered = {one.answered for one in now if one}
        if len(answered) > 1:
            raise Wrong(f"{work.name}: SQLite answers another length than the program: {answered} bytes")
        yield Measured(size, now, [growth(one, size, last, size_before) for one, last in zip(now, before)])
        before, size_before = now, size


def is_left_out(program: Path, work: Workload) -> bool:
    """Whether the program doesn't take what a workload declares, which is told then."""
    if takes(program, work.schema):
        return False
    row([work.name, "left out: the program answers 98 to directives"])
    return True


def table(program: Path, workloads: list[Workload], sizes: list[int], sides: list[Side]) -> None:
    """Prints the table of workloads, a row as soon as it is measured."""
    head(["Workload", "Size"], HEADS, sides)
    for work in workloads:
        if is_left_out(program, work):
            continue
        for at in measured(work, sizes, sides):
            row([work.name, f"{at.size:,}", *at.shown(cells)])


def each(question: Question, side: Side) -> Side:
    """What a side takes for one query of a question."""

    def one(work: Workload, size: int) -> Optional[Figures]:
        all_of_them = side(work, size)
        return all_of_them and all_of_them._replace(seconds=all_of_them.seconds / question.times(size))

    return one


def question_table(program: Path, questions: list[Question], sizes: list[int], sides: list[Side]) -> None:
    """Prints the table of questions, a row as soon as it is measured."""
    head(["Question", "Nodes", "Queries", "Bytes an answer"], QUESTION_HEADS, sides)
    for question in questions:
        work = question.workload()
        if is_left_out(program, work):
            continue
        for at in measured(work, sizes, [each(question, side) for side in sides]):
            times = question.times(at.size)
            answered = next(one.answered for one in at.figures if one)
            row([work.name, f"{at.size:,}", f"{times:,}", f"{answered / times:,.0f}", *at.shown(question_cells)])


def sizes_of(words: str) -> list[int]:
    """The sizes that a list says."""
    sizes = [int(word) for word in words.split(",")]
    if min(sizes) < 1:
        raise argparse.ArgumentTypeError(f"expected sizes above 0, found {words}")
    return sizes


def main() -> int:
    words = argparse.ArgumentParser(description=__doc__, formatter_class=argparse.RawDescriptionHelpFormatter)
    words.add_argument("--program", type=Path, default=PROGRAM)
    words.add_argument("--quick", action="store_true", help="smaller sizes")
    words.add_argument("--sizes", type=sizes_of, default=None, help="other sizes")
    words.add_argument("--only", default="", help="those whose names have one of these words")
    words.add_argument("--repeat", type=int, default=1, help="takes the best of so many runs")
    words.add_argument("--plain", action="store_true", help="the program alone, without SQLite")
    words.add_argument("--in-sqlite", default=None, help=argparse.SUPPRESS)
    asked = words.parse_args()
    if asked.in_sqlite is not None:
        every = [*WORKLOADS, *(question.workload() for question in QUESTIONS)]
        work = next(work for work in every if work.name == asked.in_sqlite)
        print(json.dumps(in_sqlite(work, asked.sizes[0])))
        return 0
    workloads = [work for work in WORKLOADS if any(word in work.name for word in asked.only.split(","))]
    questions = [question for question in QUESTIONS if any(word in question.name for word in asked.only.split(","))]
    if not workloads and not questions:
        words.error(f"nothing is named so; there are: {'; '.join(it.name for it in (*WORKLOADS, *QUESTIONS))}")
    if not asked.program.exists():
        words.error(f"{asked.program} isn't built")
    repeat = max(1, asked.repeat)
    sides: list[Side] = [lambda work, size: of_program(asked.program, work, size, repeat)]
    if not asked.plain:
        sides.append(lambda work, size: of_sqlite(work, size, repeat))
    try:
        if workloads:
            table(asked.program, workloads, asked.sizes or (QUICK if asked.quick else SIZES), sides)
        if workloads and questions:
            print()
        if questions:
            question_table(asked.program, questions, asked.sizes or (QUICK if asked.quick else NODES), sides)
    except Wrong as wrong:
        print(f"bench: {wrong}", file=sys.stderr)
        return 1
    return 0


if __name__ == "__main__":
    sys.exit(main())
