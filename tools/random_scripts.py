#!/usr/bin/env python3
"""Scripts drawn at random, and the program compared with the plain machine over them.

    random_scripts.py compare [--first N] [--scripts N] [--program PATH]
    random_scripts.py print N

`compare` runs the built program over so many scripts, each drawn from its number, and ends with 1
where the program does otherwise than `plain_machine.py`; it shows the request and both replies. `print`
writes one of them. Most requests are sound; some statements have a fault, and some bodies and scripts
a byte more, less or in the place of another. Predicates have directives, which change over data, and
queries (`random_queries.py`) ask by every function, filter and form, also over own changes, and build on
each other by variables, as upsert blocks do (`random_upserts.py`). In a third of the scripts many sessions write at once: a few nodes, lists whose
values share tokens, or a node each and the same values or edges. So many commits meet a conflict: of a
hundred scripts or more, one reply in fifty has to be one, and one in two thousand by each kind of key, or
`compare` ends with 1. Where no first number is given it follows from the day, so that no two days have the
same scripts; the numbers are printed. It needs Python 3.9 or later.
"""

from __future__ import annotations

import argparse
import re
import subprocess
import sys
import time
from collections import Counter
from collections.abc import Iterator
from pathlib import Path
from typing import NamedTuple

import plain_machine as plain
from random_upserts import Upserts
from random_words import EDGES, INDEXED, LISTS, NO_VALUES, NODES, PREDICATES, TEXTS, TYPED, VALUES

# How many seconds the program may take for a script.
SECONDS = 60
# One reply in so many has to be a conflict, and in so many by a key of each kind, where so many scripts are compared.
ONE_CONFLICT_IN = 50
ONE_OF_EACH_IN = 2000
ENOUGH = 100
KEYS = ["data", "index of a node", "index", "count", "rcount"]
# Scripts of a day and of the next are so many numbers apart.
A_DAY = 100_000
PROGRAM = Path(__file__).resolve().parent.parent / "crates" / "dgraph" / "out" / "dgraph"

ODD_NODES = [
    *("<0x0>", "<1>", "<0X1>", "<0x0000000000000001>", "<0x00000000000000000>", "<0x12345678901234567>"),
    *("<0xffffffffffffffff>", "<0x3fffffffffffffff>", "<0x4000000000000000>", "uid(v)", "uid", "_:"),
    *("_:" + "a" * 64, "_:" + "a" * 65, "_:a.b"),
]
ODD_PREDICATES = ["nick", "uid", "set", "val", "<a b>", "<0x1>", "x.y", "x.", "n" * 64, "n" * 65]
TYPES = ["xs:string", "xs:int", "xs:integer", "xs:boolean", "xs:dateTime", "xs:date", "xs:float", "string"]
TYPES.append("http://www.w3.org/2001/XMLSchema#int")
KINDS = "default string int bool dateTime datetime uid".split()
UNBUILT = ["line", "state", "roll name", "rollplan x.y", "movestart name 2", "moveoff friend"]
DIRECTIVES = ["@index", "@reverse", "@count", "@upsert", "@index(exact)", "@index(term, trigram)", "@index(int)"]
DIRECTIVES += ["@index(year, year)", "@index(bool,)", "@lang"]
TOKENIZERS = {kind: [name for name, of in plain.TOKENIZERS.items() if of == kind] for kind in plain.TOKENIZERS.values()}
BYTES = "{}()[],:.~*\"'<>@/^#\\ \n_a0!-é"


class Draw(Upserts):
    """Random parts of requests."""

    def node(self, deletes: bool) -> str:
        if self.one_in(30):
            return self.choice(ODD_NODES)
        if self.one_in(3) and not deletes or self.one_in(40):
            return "_:" + self.choice(["a", "b", "c", "zz", "B1", "_x"])
        return f"<{hex(self.choice(NODES))}>"

    def literal(self, predicate: str) -> str:
        texts = VALUES.get(predicate, TEXTS)
        if self.one_in(15):
            texts = self.choice([*VALUES.values(), NO_VALUES])
        text = f'"{self.choice(texts)}"'
        return f"{text}{self.choice(['^^', '^^ '])}<{self.choice(TYPES)}>" if self.one_in(8) else text

    def object(self, predicate: str, deletes: bool) -> str:
        if deletes and self.one_in(3):
            return "*"
        if self.one_in(60):
            return self.choice([self.node(deletes), self.literal(predicate), "*", "val(x)", "val", "12", "0x1"])
        return self.node(deletes) if predicate in EDGES else self.literal(predicate)

    def statement(self, predicates: list[str], deletes: bool) -> str:
        predicate = self.choice(ODD_PREDICATES if self.one_in(60) else predicates)
        said = f"<{predicate}>" if self.one_in(2) and predicate[0] != "<" else predicate
        label = self.choice([" <label>", " _:lab", ' "lab"']) if self.one_in(4) else ""
        triple = f"{self.node(deletes)} {said} {self.object(predicate, deletes)}"
        return f"{triple}{label}{self.choice([' ', '', chr(10), ' # ' + chr(10)])}."

    def triple(self, predicates: list[str], nodes: list[int], deletes: bool) -> str:
        """A statement without a fault, over these predicates and nodes."""
        predicate = self.choice(predicates)
        if deletes and self.one_in(4):
            said = "*"
        elif predicate in EDGES:
            said = f"<{hex(self.choice(NODES))}>"
        else:
            said = f'"{self.choice(VALUES[predicate])}"'
        return f"<{hex(self.choice(nodes))}> <{predicate}> {said} ."

    def changes(self, predicates: list[str], nodes: list[int]) -> str:
        """A mutation without a fault, over these predicates and nodes."""
        lines = [self.triple(predicates, nodes, False) for _ in range(self.choice([1, 1, 2, 3]))]
        if not self.one_in(4):
            return "\n".join(lines)
        gone = [self.triple(predicates, nodes, True) for _ in range(self.choice([1, 2]))]
        groups = [f"set {{ {' '.join(lines)} }}", f"delete {{ {' '.join(gone)} }}"]
        return f"{{ {' '.join(self.sample(groups, self.choice([1, 2, 2])))} }}"

    def mutation(self) -> str:
        predicates = [self.choice(PREDICATES)] if self.one_in(3) else PREDICATES
        if self.one_in(2):
            return "\n".join(self.statement(predicates, False) for _ in range(self.choice([0, 1, 1, 2, 5])))
        groups = []
        for _ in range(self.choice([0, 1, 1, 2, 3])):
            deletes = self.one_in(2)
            lines = [self.statement(predicates, deletes) for _ in range(self.choice([0, 1, 2]))]
            groups.append(f"{'delete' if deletes else 'set'} {{ {' '.join(lines)} }}")
        return f"{{ {' '.join(groups)} }}"

    def index(self, kind: str) -> str:
        """An index of a kind that has one."""
        own = TOKENIZERS[kind]
        if kind != "string" and self.one_in(3):
            return "@index"
        return f"@index({', '.join(self.sample(own, self.choice(range(1, len(own) + 1))))})"

    def directives(self, kind: str, most: float = 2, upserts: float = 2) -> list[str]:
        """Directives that fit a kind, one in so many each; one in so many of the indexes is for upserts."""
        kind = plain.KINDS[kind.strip("[]")]
        words = [self.index(kind)] if kind in TOKENIZERS and self.one_in(most) else []
        words += ["@upsert"] if words and self.one_in(upserts) else []
        words += ["@reverse"] if kind == "uid" and self.one_in(most) else []
        words += ["@count"] if self.one_in(most) else []
        self.shuffle(words)
        return words

    def declared(self, names: list[str], most: float = 2, upserts: float = 2) -> str:
        """Definitions of these predicates as they are, with other directives."""
        words = {name: self.directives(TYPED[name], most, upserts) for name in names}
        return "\n".join(" ".join([f"{name}:", TYPED[name], *words[name], "."]) for name in names)

    def definition(self) -> str:
        name = self.choice([*PREDICATES, *PREDICATES, "extra", "<x.y>", "uid", "n" * 64, "n" * 65])
        if name in TYPED and self.one_in(2):
            return self.declared([name])
        kind = self.choice(KINDS)
        words = self.directives(kind) if self.one_in(2) else []
        if self.one_in(8):
            words = [self.choice(DIRECTIVES) for _ in range(self.choice([1, 1, 2, 3]))]
        return " ".join([f"{name}:", f"[{kind}]" if self.one_in(2) else kind, *words, "."])

    def schema(self) -> str:
        return "\n".join(self.definition() for _ in range(self.choice([1, 1, 2, 3])))

    def great_numbers(self) -> str:
        """A mutation without a fault that sets numbers, many of them as great or as small as can be."""
        lines = []
        for node in self.sample(NODES, 3):
            number = self.choice(["1", "-1", "9223372036854775807", "-9223372036854775808"])
            lines.append(f'<{hex(node)}> <{self.choice(["age", "age", "nums"])}> "{number}" .')
        return "\n".join(lines)

    def marred(self, text: str) -> bytes:
        """The text, or now and then one that differs in one place; patterns stay, since few are read here."""
        if self.one_in(12) and text and "regexp(" not in text:
            at = self.randrange(len(text))
            text = text[:at] + self.choice(["", self.choice(BYTES)]) + text[at + self.choice([0, 1]) :]
        body = text.encode()
        if self.one_in(80):
            at = self.randrange(len(body) + 1)
            body = body[:at] + bytes([self.choice([0x80, 0xFF, 0xC3])]) + body[at:]
        return body

    def marred_script(self, text: bytes) -> bytes:
        """The script, or now and then one that has a fault or ends early."""
        if not self.one_in(5):
            return text
        at = self.randrange(len(text))
        if self.one_in(4):
            return text[:at]
        new = bytes([self.choice(b"0123456789 \n a-")]) if self.one_in(2) else b""
        return text[:at] + new + text[at + self.choice([0, 1]) :]


def frame(header: str, body: bytes) -> bytes:
    return b"%s %d\n%s\n" % (header.encode(), len(body), body)


class Contention(NamedTuple):
    """What sessions write at once: predicates, whether each session has a node of its own, and one directive in how
    many is there, of indexes, edges and counts, and of upserts."""

    predicates: list[str]
    is_apart: bool = False
    most: float = 2
    upserts: float = 2


def contention(draw: Draw) -> Contention:
    """The sessions meet in a few nodes, in lists of one node whose values share tokens, by values of different nodes,
    or by edges to the same node."""
    way = draw.choice(["nodes", "lists", "lists", "values", "edges", "edges"])
    if way == "lists":
        chosen = [draw.choice(["tags", "days"]), *draw.sample(LISTS, draw.choice([0, 1]))]
        return Contention(list(dict.fromkeys(chosen)), False, 1.2, 6)
    if way == "values":
        return Contention(draw.sample(INDEXED, draw.choice([1, 2])), True, 1.2, 1.2)
    if way == "edges":
        chosen = [draw.choice(EDGES), *draw.sample(PREDICATES, draw.choice([0, 1]))]
        return Contention(list(dict.fromkeys(chosen)), True, 1.1)
    return Contention(draw.sample(PREDICATES, draw.choice([1, 2, 3])))


def contended(draw: Draw) -> Iterator[bytes]:
    """Rounds in which many sessions write at once, and then end in another order."""
    sessions = list(range(1, draw.choice([4, 8, 16]) + 1))
    predicates, is_apart, *most = contention(draw)
    shared = draw.sample(NODES, draw.choice([1, 2]))
    nodes = {session: [0x20 + session] if is_apart else shared for session in sessions}
    yield frame("alter", draw.declared(PREDICATES).encode())
    yield frame("alter", draw.declared(predicates, *most).encode())
    for _ in range(draw.choice([2, 4])):
        draw.shuffle(sessions)
        yield from (b"begin %d\n" % session for session in sessions)
        for session in sessions:
            if draw.one_in(4):
                yield frame(f"upsert {session}", draw.sound_upsert(predicates, nodes[session]).encode())
            else:
                yield frame(f"mutate {session}", draw.changes(predicates, nodes[session]).encode())
        draw.shuffle(sessions)
        for session in sessions:
            if draw.one_in(3):
                yield frame(f"query {session}", draw.query().encode())
            yield f"{'discard' if draw.one_in(12) else 'commit'} {session}\n".encode()
        if draw.one_in(2):
            yield frame("alter", draw.declared(draw.sample(predicates, 1), *most).encode())


def frames(draw: Draw) -> Iterator[bytes]:
    yield frame("alter", draw.declared(PREDICATES, draw.choice([1.1, 2])).encode())
    sessions = draw.choice([[1], [1, 2], [1, 2, 16]])
    begun: set[int] = set()
    for _ in range(draw.choice([20, 60, 120])):
        session = draw.choice(sessions)
        verbs, weights = ["begin", "alter", "mutate", "query", "upsert", "commit", "discard"], [1, 2, 12, 11, 6, 4, 1]
        verb = draw.choices(verbs, weights)[0]
        if session not in begun and not draw.one_in(12) and verb != "alter":
            verb = "begin"
        if verb == "mutate":
            yield frame(f"mutate {session}", draw.marred(draw.mutation()))
        elif verb == "query" and draw.one_in(20):
            yield frame(f"mutate {session}", draw.great_numbers().encode())
            yield frame(f"query {session}", draw.sums().encode())
        elif verb == "query":
            yield frame(f"query {session}", draw.marred(draw.query()))
        elif verb == "upsert" and draw.one_in(30):
            yield frame(f"mutate {session}", draw.great_numbers().encode())
            yield frame(f"upsert {session}", draw.upsert_of_sums().encode())
        elif verb == "upsert":
            if draw.one_in(2):
                yield frame(f"mutate {session}", draw.changes(PREDICATES, NODES).encode())
            yield frame(f"upsert {session}", draw.marred(draw.upsert()))
        elif verb == "alter":
            if draw.one_in(2):
                yield from (b"commit %d\n" % one for one in sorted(begun))
                begun = set()
            yield frame("alter", draw.marred(draw.schema()))
        else:
            begun = begun | {session} if verb == "begin" else begun - {session}
            yield f"{verb} {session}\n".encode()
        if draw.one_in(100):
            yield draw.choice(UNBUILT).encode() + b"\n"


def script(number: int) -> bytes:
    """The script with a number."""
    draw = Draw(number)
    return draw.marred_script(b"".join(contended(draw) if number % 3 == 0 else frames(draw)))


def first_of_today() -> int:
    """The number of the first script of the day."""
    return int(time.time()) // 86_400 * A_DAY


def ended_with(program: Path, text: bytes) -> tuple[bytes, bytes, object]:
    """What the program writes, what it says, and its status."""
    try:
        ended = subprocess.run([program, "run"], input=text, capture_output=True, check=False, timeout=SECONDS)
    except subprocess.TimeoutExpired as late:
        return late.stdout or b"", late.stderr or b"", f"none after {SECONDS} seconds"
    return ended.stdout, ended.stderr, ended.returncode


def kind_of(reply: bytes) -> str:
    """The first two words of a reply, and for a conflict the kind of its key."""
    words = reply.decode().split()
    kind = " ".join(words[:2])
    if kind != "error 19":
        return kind
    # The text of a value ends in a quotation mark, or is a number or a truth.
    named = words[4] == "index" and re.fullmatch("0x[0-9a-f]+", words[-1])
    return f"conflict by {words[4]}{' of a node' if named else ''}"


def is_alike(program: Path, number: int, seen: Counter[str]) -> bool:
    """Whether the program does with a script what the plain machine does; what it doesn't is shown."""
    text = script(number)
    wanted = plain.run(text)
    wrote, said, status = ended_with(program, text)
    seen.update(kind_of(reply) for reply in wanted.replies)
    end, message = 0, b""
    if wanted.fault is not None:
        end, message = 4, b"dgraph: bad frame at %d\n" % wanted.fault
        seen["bad frame"] += 1
    if (wrote, said, status) == (b"".join(wanted.replies), message, end):
        return True
    print(f"script {number}: the program ended with {status} {said!r}; {end} {message!r} is wanted")
    at = 0
    for request, reply in zip(wanted.requests, wanted.replies):
        if not wrote.startswith(reply, at):
            print(request, "wants", reply, "and was answered", wrote[at : at + 200], sep="\n    ")
            break
        at += len(reply)
    return False


def has_conflicts(seen: Counter[str]) -> bool:
    """Whether as many replies are conflicts as have to be, by keys of each kind too; it says how many are."""
    replies = sum(count for reply, count in seen.items() if reply != "bad frame")
    by_kind = [seen[f"conflict by {kind}"] for kind in KEYS]
    conflicts = sum(by_kind)
    print(f"{replies} replies, of which {conflicts} are conflicts; one in {ONE_CONFLICT_IN} has to be")
    told = ", ".join(f"{count} by {kind}" for kind, count in zip(KEYS, by_kind))
    print(f"of these {told}; one reply in {ONE_OF_EACH_IN} has to be by each kind of key")
    return conflicts * ONE_CONFLICT_IN >= replies and min(by_kind) * ONE_OF_EACH_IN >= replies


def positive(word: str) -> int:
    """The number above 0 that a word says."""
    number = int(word)
    if number < 1:
        raise argparse.ArgumentTypeError(f"expected a number of scripts above 0, found {word}")
    return number


def compare_all(program: Path, numbers: range) -> int:
    """Compares the program with the plain machine over scripts, and answers the status to end with."""
    print(f"random scripts {numbers[0]} to {numbers[-1]} (--first {numbers[0]} --scripts {len(numbers)})", flush=True)
    seen: Counter[str] = Counter()
    different = sum(not is_alike(program, number, seen) for number in numbers)
    print(", ".join(f"{count} {reply}" for reply, count in sorted(seen.items())))
    is_fair = has_conflicts(seen) or len(numbers) < ENOUGH
    print(f"random scripts: {len(numbers) - different} alike, {different} different")
    return 1 if different or not is_fair else 0


def main() -> int:
    words = argparse.ArgumentParser(description=__doc__, formatter_class=argparse.RawDescriptionHelpFormatter)
    commands = words.add_subparsers(dest="command", required=True)
    compare = commands.add_parser("compare")
    compare.add_argument("--first", type=int, default=None, help="the number of the first script, else by the day")
    compare.add_argument("--scripts", type=positive, default=400)
    compare.add_argument("--program", type=Path, default=PROGRAM)
    commands.add_parser("print").add_argument("number", type=int)
    asked = words.parse_args()
    if asked.command == "print":
        sys.stdout.buffer.write(script(asked.number))
        return 0
    first = first_of_today() if asked.first is None else asked.first
    return compare_all(asked.program, range(first, first + asked.scripts))


if __name__ == "__main__":
    sys.exit(main())
