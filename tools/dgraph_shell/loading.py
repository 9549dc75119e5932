"""Statements of N-Quads handed to the program, in transactions.

A name of a new node (`_:ann`) is the program's for one request alone, so the numbers that replies give are kept, and
stand for the names in all that follows. A request that is refused changes nothing; so one with several statements is
cut in halves, down to the statement that is refused.
"""

from __future__ import annotations

import json
import time
from collections.abc import Callable, Iterable, Iterator, Sequence
from dataclasses import dataclass, field, replace
from itertools import islice
from pathlib import Path
from typing import NamedTuple, TextIO

from .faults import NO_FILE, Trouble
from .spots import OFFSETS, PIECE, Spot, spot_of
from .replies import Refusal, Reply
from .scripts import INDENT
from .show import View, plural
from .statements import Statement, statements_of
from .verbs import MAX_BODY, Request, request_of

# How many statements a transaction has, where nothing else is said.
EACH = 1_000
# The most bytes of a body with several statements. Numbers may be longer than the names for which they stand.
MOST = 131_072
# How many new nodes are named.
NAMED = 8
# Kept free of what the program takes, for the end of a transaction.
RESERVE = 64
# The refusals that are those of a statement.
OF_STATEMENTS = {"BadToken", "BadSyntax", "BadLiteral", "NoPredicate", "WrongObject", "UidsSpent", "TooLong"}

# What stands in the place of a reply for a statement that no body holds.
NOT_SENT = Refusal(0, "TooLong", "")


class Stop(Exception):
    """Why no more statements are loaded."""


@dataclass
class Tally:
    """What was loaded so far, and what is in the open transaction."""

    committed: int = 0
    transactions: int = 0
    refused: int = 0
    new_nodes: int = 0
    open: int = 0
    open_nodes: int = 0

    def close(self) -> None:
        """The open transaction was committed."""
        self.transactions += 1
        self.committed += self.open
        self.new_nodes += self.open_nodes
        self.open = self.open_nodes = 0

    def text(self) -> str:
        """The tally in words."""
        said = f"{plural(self.committed, 'statement')} in {plural(self.transactions, 'transaction')}"
        said += f", {plural(self.new_nodes, 'new node')}" if self.new_nodes else ""
        return said + (f", {self.refused:,} refused" if self.refused else "")


@dataclass
class Meter:
    """Says on standard error how far a load is, and how fast: on a terminal in place, and else ten times in all."""

    total: int
    out: TextIO
    began: float = field(default_factory=time.monotonic)
    told: int = 0
    last: float = 0.0

    def rate(self, statements: int) -> str:
        """How many statements a second."""
        return f"{statements / max(time.monotonic() - self.began, 1e-6):,.0f} a second"

    def tell(self, read: int, statements: int) -> None:
        """Says it, unless it was said just before."""
        tenth = 10 * read // max(self.total, 1)
        is_due = time.monotonic() - self.last > 0.1 if self.out.isatty() else tenth > self.told
        if not is_due:
            return
        self.told, self.last = tenth, time.monotonic()
        text = f"{plural(statements, 'statement')}, {100 * read // max(self.total, 1)}%, {self.rate(statements)}"
        self.out.write(f"\r\x1b[K{text}" if self.out.isatty() else f"{text}\n")
        self.out.flush()

    def clear(self) -> None:
        """Takes the line away on a terminal."""
        if self.out.isatty() and self.last:
            self.out.write("\r\x1b[K")
            self.out.flush()

    def end(self, statements: int) -> None:
        """Says how long it took in all."""
        self.clear()
        seconds = time.monotonic() - self.began
        self.out.write(f"{plural(statements, 'statement')} in {seconds:.3f} s, {self.rate(statements)}\n")
        self.out.flush()


def lines_of(path: Path, count: Callable[[int], None]) -> Iterator[bytes]:
    """The lines of a file, each of whose bytes are counted."""
    try:
        with path.open("rb") as file:
            for line in file:
                count(len(line))
                yield line
    except OSError as error:
        raise Trouble(f"{path}: {error.strerror}", NO_FILE) from None


def size_of(path: Path) -> int:
    """The bytes of a file."""
    try:
        return path.stat().st_size
    except OSError as error:
        raise Trouble(f"{path}: {error.strerror}", NO_FILE) from None


class Hands(NamedTuple):
    """What a load needs of others: the reply to a request, a request sent whose reply nobody waits for, how many more
    bytes the program takes, and whether to go on after a statement that was refused."""

    ask: Callable[[Request], Reply]
    send: Callable[[Request], None]
    room: Callable[[], int]
    goes_on: Callable[[], bool]


@dataclass
class Load:
    """The statements of one file on their way into the program."""

    path: Path
    session: int
    each: int
    hands: Hands
    view: View
    meter: Meter
    tally: Tally = field(default_factory=Tally)
    known: dict[bytes, bytes] = field(default_factory=dict)
    read: int = 0
    line: int = 1

    def run(self) -> None:
        """Loads all statements, or those up to where it stops. What is open then is discarded."""
        statements = statements_of(lines_of(self.path, self.count))
        try:
            while batch := list(islice(statements, self.each)):
                self.load(batch)
                self.meter.tell(self.read, self.tally.committed)
        except Stop as stop:
            self.stopped(str(stop))
        except KeyboardInterrupt:
            self.stopped("interrupted; the program goes on with the request that runs, and then discards")
        self.meter.end(self.tally.committed)
        self.view.say(f"{self.path}: {self.tally.text()}")
        if self.tally.new_nodes:
            self.view.say(self.new_nodes(), indent=INDENT)

    def new_nodes(self) -> str:
        """The numbers of the first new nodes that were committed."""
        # What was discarded comes last.
        first = islice(self.known.items(), min(self.tally.new_nodes, NAMED))
        named = ", ".join(f"{name.decode()} is {number.decode()}" for name, number in first)
        more = self.tally.new_nodes - NAMED
        return named + (f", and {more:,} more" if more > 0 else "")

    def stopped(self, why: str) -> None:
        """Says why no more is loaded."""
        self.meter.clear()
        self.view.say(f"{self.path}:{self.line}: stopped: {why}", style=self.view.paint.bad)

    def count(self, size: int) -> None:
        """Counts bytes that were read."""
        self.read += size

    def load(self, batch: Sequence[Statement]) -> None:
        """Loads statements in one transaction."""
        self.line = batch[0].line
        if batch[0].pieces[0] == b"{":
            raise Stop("it has groups, as the body of one `mutate` may have; statements alone can be loaded")
        self.want("begin")
        try:
            for part in parts_of(batch, self.known):
                self.add(part)
            self.want("commit")
        except (Stop, KeyboardInterrupt) as ended:
            discard = request_of("discard", str(self.session))
            end = self.hands.ask if isinstance(ended, Stop) else self.hands.send
            end(discard)
            raise
        self.tally.close()

    def want(self, verb: str) -> None:
        """Asks for what has to be answered."""
        reply = self.answer(request_of(verb, str(self.session)))
        if not reply.is_ok:
            raise Stop(f"`{verb} {self.session}` was refused: {reply.head}")

    def answer(self, request: Request) -> Reply:
        """The reply to a request, for which there has to be room."""
        if len(request.frame()) + RESERVE > self.hands.room():
            raise Stop("the program takes no more in this run; what is to come needs one that is started anew")
        return self.hands.ask(request)

    def add(self, statements: Sequence[Statement]) -> None:
        """Adds statements to the transaction, but for those that are refused."""
        self.line = statements[0].line
        request = request_of("mutate", str(self.session), body=joined(statements, self.known))
        reply = self.answer(request) if len(request.body or b"") <= MAX_BODY else None
        refusal = Refusal.of(reply) if reply else NOT_SENT
        if reply and not refusal:
            self.learn(reply, len(statements))
        elif refusal and refusal.name not in OF_STATEMENTS:
            raise Stop(f"`{request.head}` was refused: {refusal.head}")
        elif len(statements) > 1:
            middle = len(statements) // 2
            self.add(statements[:middle])
            self.add(statements[middle:])
        elif refusal:
            self.refuse(statements[0], refusal)

    def learn(self, reply: Reply, statements: int) -> None:
        """Counts what was added, and keeps the numbers of new nodes."""
        numbers = json.loads(reply.body or b"{}").get("uids", {})
        for name, number in sorted(numbers.items(), key=lambda item: int(item[1], 16)):
            self.known[b"_:" + name.encode()] = f"<{number}>".encode()
        self.tally.open += statements
        self.tally.open_nodes += len(numbers)

    def refuse(self, statement: Statement, refusal: Refusal) -> None:
        """Shows a statement that was refused, as it stands in the file, and why; stops there unless it is to go on."""
        self.tally.refused += 1
        self.meter.clear()
        if refusal.name in OFFSETS:
            refusal = replace(refusal, fields=str(statement.offset(self.known, int(refusal.fields))))
        request = request_of("mutate", str(self.session), body=statement.text({}))
        head = f"not sent: a request holds {MAX_BODY:,} bytes at most" if refusal == NOT_SENT else refusal.head
        self.view.say(f"{self.path}:{self.line}: {head}", style=self.view.paint.bad)
        if spot_of(refusal, request.body) is None:
            text = (request.body or b"").decode("utf-8", "backslashreplace")
            self.view.say(text[:PIECE] + ("..." if len(text) > PIECE else ""), indent=INDENT + "| ")
        self.view.show_cause(request, refusal, of_statement)
        if not self.hands.goes_on():
            raise Stop("a statement was refused; --skip goes on behind it")


def joined(statements: Sequence[Statement], known: dict[bytes, bytes]) -> bytes:
    """The body of a request with these statements."""
    return b"\n".join(statement.text(known) for statement in statements)


def of_statement(spot: Spot) -> str:
    """Where a spot is in a statement."""
    return f"column {spot.before + 1} of the statement"


def parts_of(statements: Iterable[Statement], known: dict[bytes, bytes]) -> Iterator[list[Statement]]:
    """The statements in parts, each of which fits in a body."""
    part: list[Statement] = []
    size = 0
    for statement in statements:
        more = len(statement.text(known)) + 1
        if part and size + more > MOST:
            yield part
            part, size = [], 0
        part.append(statement)
        size += more
    if part:
        yield part
