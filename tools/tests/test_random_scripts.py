"""Random scripts: what they reach, and that another reply or status is found."""

from __future__ import annotations

import io
import json
import re
import subprocess
import sys
import unittest
from collections import Counter
from contextlib import redirect_stdout
from unittest import mock

import plain_machine as plain
import random_scripts as scripts
from plain_checks import places_of, uses_at
from plain_mutations import NodesOf, Statement, ValueOf
from plain_queries import FUNCTIONS, Part, read_query
from plain_upserts import given_by, is_taken
from plain_variables import Variable
from tests.helpers import SECONDS, TOOLS, InFolder

BUILT = {f"ok {verb}" for verb in ("alter", "begin", "mutate", "query", "upsert", "commit", "discard")}
REFUSED = {f"error {number}" for number in (*range(1, 17), 19, 20, 22, 27, 98)}
COMPARE = [sys.executable, "-B", TOOLS / "random_scripts.py", "compare"]

# A program that writes what it was told, says it, and ends so, however long that takes.
PROGRAM = """#!{python} -IS
import sys, time
sys.stdin.buffer.read()
time.sleep({seconds})
sys.stdout.buffer.write({wrote!r})
sys.stderr.write({said!r})
sys.exit({status})
"""


class Reach(unittest.TestCase):
    """What the scripts reach."""

    def test_they_reach_each_reply(self) -> None:
        seen = set()
        faults = 0
        for number in range(200):
            done = plain.run(scripts.script(number))
            faults += done.fault is not None
            for reply in done.replies:
                seen.add(b" ".join(reply.split(maxsplit=2)[:2]).decode())
        self.assertEqual(seen - {"error 17"}, BUILT | REFUSED)
        self.assertGreater(faults, 5)

    def test_enough_replies_are_conflicts_by_each_kind_of_key(self) -> None:
        for first in (0, 2_000_000_000):
            seen: Counter[str] = Counter()
            for number in range(first, first + scripts.ENOUGH):
                seen.update(scripts.kind_of(reply) for reply in plain.run(scripts.script(number)).replies)
            self.assertEqual({kind[12:] for kind in seen if kind.startswith("conflict by ")}, set(scripts.KEYS))
            with redirect_stdout(io.StringIO()):
                self.assertTrue(scripts.has_conflicts(seen), first)

    def test_the_kind_of_a_reply(self) -> None:
        for reply, kind in {
            b"ok alter 1 2": "ok alter",
            b'ok query 1 2\n{"a":"error 19"}': "ok query",
            b"error 98 Unbuilt": "error 98",
            b"error 19 Conflict 7 data p 0x1 0x2": "conflict by data",
            b'error 19 Conflict 7 index p term "a" 0x1': "conflict by index of a node",
            b'error 19 Conflict 7 index p exact "a 0x1"': "conflict by index",
            b"error 19 Conflict 7 index p int 7": "conflict by index",
            b"error 19 Conflict 7 rcount p 0x1": "conflict by rcount",
        }.items():
            self.assertEqual(scripts.kind_of(reply + b"\n"), kind)

    def test_each_directive_is_declared_and_changes_over_data(self) -> None:
        declared = set()
        changed = 0
        for number in range(60):
            machine = plain.PlainMachine()
            for request in plain.run(scripts.script(number)).requests:
                before = machine.schema
                machine.answer(*request)
                if machine.schema is before:
                    continue
                held = {name for (name, _), objects in machine.graph_at(machine.timestamp).items() if objects}
                for name, definition in machine.schema.items():
                    declared.update((definition.kind, tokenizer) for tokenizer in definition.tokenizers)
                    flags = zip(("reverse", "count", "upsert"), definition[3:])
                    declared.update((definition.is_list, flag) for flag, holds in flags if holds)
                    changed += name in held and before[name] != definition
        wanted = {(kind, tokenizer) for tokenizer, kind in plain.TOKENIZERS.items()}
        wanted |= {(is_list, flag) for is_list in (False, True) for flag in ("reverse", "count", "upsert")}
        self.assertEqual(declared, wanted)
        self.assertGreater(changed, 10)

    def test_sessions_that_share_no_node_meet(self) -> None:
        met = 0
        for number in range(0, 90, 3):
            done = plain.run(scripts.script(number))
            nodes = {node for request in done.requests for node in re.findall(rb"<(0x2[0-9a-f]|0x30)>", request.body)}
            met += len(nodes) > 3 and any(scripts.kind_of(reply) == "conflict by index" for reply in done.replies)
        self.assertGreater(met, 2)

    def test_each_function_is_asked_at_a_root_and_in_a_filter(self) -> None:
        asked: Counter[str] = Counter()
        shown = 0
        for number in range(200):
            done = plain.run(scripts.script(number))
            for request, reply in zip(done.requests, done.replies):
                if request.verb != "query" or not reply.startswith(b"ok "):
                    continue
                shown += b"[{" in reply
                for block in read_query(request.body.decode()):
                    if block.function is not None:
                        asked[f"root {block.function.word}"] += 1
                    tested = [place.function for place in places_of(block) if place.function is not None and not place.root]
                    asked.update(f"tested {function.word}" for function in tested)
        wanted = {f"{place} {word}" for place in ("root", "tested") for word in FUNCTIONS} - {"root uid_in"}
        self.assertEqual(set(asked), wanted)
        self.assertGreater(shown, 100)

    def test_cascades_and_flat_objects_are_shown(self) -> None:
        shown: Counter[str] = Counter()
        for number in range(200):
            done = plain.run(scripts.script(number))
            for request, reply in zip(done.requests, done.replies):
                if request.verb != "query" or not reply.startswith(b"ok "):
                    continue
                data = json.loads(reply.split(b"\n", 1)[1])["data"]
                for block in read_query(request.body.decode()):
                    if data.get(block.name):
                        shown.update(directive.word for directive in block.directives)
                        shown["below"] += request.body.count(b"@cascade {")
        for word in ("cascade", "normalize", "below"):
            self.assertGreater(shown[word], 20, shown)

    def test_variables_are_asked_and_shown(self) -> None:
        met: Counter[str] = Counter()
        for number in range(200):
            done = plain.run(scripts.script(number))
            for request, reply in zip(done.requests, done.replies):
                if request.verb == "query" and reply.startswith(b"ok "):
                    places = [place for block in read_query(request.body.decode()) for place in places_of(block)]
                    for place in places:
                        met["defined"] += place.defined is not None
                        met["values"] += any(use.of_values for use in uses_at(place))
                        met["nodes"] += any(not use.of_values for use in uses_at(place))
                    met["shown"] += b'"val(' in reply
                    met["aggregates"] += any(f'[{{"{word}(val('.encode() in reply for word in ("min", "max", "sum"))
        for kind in ("defined", "values", "nodes", "shown", "aggregates"):
            self.assertGreater(met[kind], 20, met)

    def test_upsert_blocks_are_asked(self) -> None:
        met: Counter[str] = Counter()

        def given(statement: Statement, variables: dict[str, Variable]) -> list[Statement]:
            """What a statement stands for, counted by how many there are of each of its sides."""
            found = [*given_by(statement, variables)]
            word = "delete" if statement.deletes else "set"
            for side, said in (("subject", statement.subject), ("object", statement.object)):
                if isinstance(said, NodesOf):
                    met[f"{word} of {min(len(variables[said.name].nodes), 2)} as {side}"] += 1
                if isinstance(said, ValueOf):
                    met[f"{word} of a value" if found else f"{word} of no value"] += 1
            return found

        def taken(part: Part, variables: dict[str, Variable]) -> bool:
            met[f"{is_taken(part, variables)}"] += 1
            return is_taken(part, variables)

        with mock.patch("plain_upserts.given_by", given), mock.patch("plain_upserts.is_taken", taken):
            for number in range(200):
                done = plain.run(scripts.script(number))
                for request, reply in zip(done.requests, done.replies):
                    if request.verb == "upsert":
                        met[scripts.kind_of(reply)] += 1
                        met["named"] += b'"uid(' in reply
                        met["all"] += 1
        self.assertGreater(met["all"], 500, met)
        self.assertGreater(met["ok upsert"] * 2, met["all"], met)
        self.assertGreater(met["named"], 50, met)
        wanted = {f"{word} of {count} as {side}" for word in ("set", "delete") for count in range(3) for side in ("subject", "object")}
        wanted |= {f"{word} of {count} value" for word in ("set", "delete") for count in ("a", "no")} | {"True", "False"}
        wanted |= {f"error {number}" for number in (1, 3, 4, 5, 6, 7, 8, 9, 10, 13, 14, 15, 16)}
        self.assertEqual({kind for kind in wanted if not met[kind]}, set(), met)

    def test_recursion_is_asked(self) -> None:
        asked: Counter[str] = Counter()
        for number in range(200):
            done = plain.run(scripts.script(number))
            for request, reply in zip(done.requests, done.replies):
                if request.verb == "query" and b"@recurse" in request.body:
                    asked[scripts.kind_of(reply)] += 1
                    asked["shown"] += b"[{" in reply
        self.assertGreater(asked["shown"], 20, asked)

    def test_many_sessions_write_the_same_nodes(self) -> None:
        done = plain.run(scripts.script(0))
        writers = {request.session for request in done.requests if request.verb == "mutate"}
        self.assertGreater(len(writers), 3)

    def test_each_day_has_scripts_of_its_own(self) -> None:
        firsts = []
        for day in range(3):
            with mock.patch("time.time", lambda seconds=86_400 * (20_000 + day) + 5: float(seconds)):
                firsts.append(scripts.first_of_today())
        self.assertEqual(firsts, [2_000_000_000, 2_000_100_000, 2_000_200_000])
        self.assertNotEqual(scripts.script(firsts[0]), scripts.script(firsts[1]))


class Compared(InFolder):
    """Another reply, another status and other words are found, and a program that doesn't end."""

    def compared(self, number: int, wrote: bytes, said: str = "", status: int = 0, seconds: float = 0.0) -> bool:
        """Whether a program that does so is found to do as the plain machine."""
        text = PROGRAM.format(python=sys.executable, wrote=wrote, said=said, status=status, seconds=seconds)
        with redirect_stdout(io.StringIO()):
            return scripts.is_alike(self.executable(text), number, Counter())

    def test_what_differs_is_found(self) -> None:
        number = next(number for number in range(100) if plain.run(scripts.script(number)).fault is None)
        replies = plain.run(scripts.script(number)).replies
        right = b"".join(replies)
        for wrong in (replies[:-1], replies[:5] + [b"ok begin 1 1\n"] + replies[6:], [*replies, b"\n"]):
            self.assertFalse(self.compared(number, b"".join(wrong)))
        self.assertFalse(self.compared(number, right, status=139))
        self.assertFalse(self.compared(number, right, said="oh"))
        self.assertTrue(self.compared(number, right))

    def test_where_no_frame_begins(self) -> None:
        number = next(number for number in range(100) if plain.run(scripts.script(number)).fault is not None)
        done = plain.run(scripts.script(number))
        right = b"".join(done.replies)
        self.assertTrue(self.compared(number, right, f"dgraph: bad frame at {done.fault}\n", 4))
        self.assertFalse(self.compared(number, right, f"dgraph: bad frame at {done.fault}1\n", 4))
        self.assertFalse(self.compared(number, right))

    def test_a_program_that_doesnt_end(self) -> None:
        with mock.patch.object(scripts, "SECONDS", 0.2):
            self.assertFalse(self.compared(0, b"", seconds=100.0))

    def compare(self, *words: str) -> subprocess.CompletedProcess[str]:
        """What `compare` does with the plain machine in the place of the program."""
        return subprocess.run([*COMPARE, "--program", self.plain_program(), *words], capture_output=True,
                              encoding="utf-8", timeout=SECONDS)

    def test_no_scripts_are_none(self) -> None:
        for count in ("0", "-1"):
            done = self.compare("--scripts", count)
            self.assertEqual((done.returncode, done.stdout), (2, ""))
            self.assertIn(f"expected a number of scripts above 0, found {count}", done.stderr)

    def test_the_numbers_are_told(self) -> None:
        done = self.compare("--scripts", "3", "--first", "12")
        self.assertIn("random scripts 12 to 14 (--first 12 --scripts 3)\n", done.stdout)
        self.assertRegex(done.stdout, r"\n[0-9]+ replies, of which [0-9]+ are conflicts; one in 50 has to be\n")
        self.assertRegex(done.stdout, r"\nof these [0-9]+ by data, .*; one reply in 2000 has to be by each kind of key")
        self.assertRegex(done.stdout, r"\nrandom scripts: 3 alike, 0 different\n\Z")
        self.assertEqual(done.returncode, 0)
        self.assertRegex(self.compare("--scripts", "1").stdout, r"\Arandom scripts ([0-9]+) to \1 \(--first \1 ")

    def test_too_few_conflicts_fail(self) -> None:
        enough = {f"conflict by {kind}": 10 for kind in scripts.KEYS}
        for conflicts, replies, status in (
            (enough, 2450, 0),
            (enough, 2451, 1),
            ({**enough, "conflict by data": 460}, 19_500, 0),
            ({**enough, "conflict by data": 460}, 19_501, 1),
            ({**enough, "conflict by rcount": 0}, 1, 1),
        ):
            seen = Counter({"ok commit": replies, **conflicts, "bad frame": 100_000})
            out = io.StringIO()
            with mock.patch.object(scripts, "Counter", lambda: seen), redirect_stdout(out):
                with mock.patch.object(scripts, "is_alike", lambda *_: True):
                    self.assertEqual(scripts.compare_all(self.folder, range(scripts.ENOUGH)), status, conflicts)
                    self.assertEqual(scripts.compare_all(self.folder, range(scripts.ENOUGH - 1)), 0)
