"""What the tool says of the program is so: by the program that was built, and by its source."""

from __future__ import annotations

import re
import subprocess
import unittest

from dgraph_shell.meanings import FORMS, MEANINGS
from dgraph_shell.help import EXAMPLES, PURPOSES
from dgraph_shell.program import STATUSES, Program
from dgraph_shell.verbs import BUILT, MAX_BODY, MAX_INPUT, MAX_LINE, VERBS, Request, Verb
from tests.helpers import SECONDS, TOP, built_program

WORDS = {"SID": "1", "PRED": "name", "GROUP": "2"}
WIRE = TOP / "crates" / "dg_wire" / "src"


def source(*names: str) -> str:
    """The text of files of the program's source."""
    return "".join((WIRE / name).read_text(encoding="utf-8") for name in names)


def request_with(verb: Verb, body: bytes = b"") -> Request:
    """A request with that verb."""
    return Request(verb, tuple(WORDS[argument.name] for argument in verb.arguments), body if verb.has_body else None)


class Verbs(unittest.TestCase):
    """The shell offers the verbs that the program takes, and no others."""

    def test_they_are_those_of_the_source(self) -> None:
        names = re.findall(r'Verb::\w+ => b"([a-z]+)"', source("verb.rt"))
        self.assertEqual(sorted(names), sorted(VERBS))

    def test_the_program_takes_each(self) -> None:
        for verb in VERBS.values():
            with Program(built_program()) as program:
                self.assertIsNotNone(program.ask(request_with(verb)), verb.name)
                self.assertEqual(program.end().status, 0, verb.name)

    def test_the_program_takes_no_other(self) -> None:
        for name in ("mutatejson", "export", "help", "quit", "race", "run", "Begin", "begi", "beginn"):
            for rest in ("", " 1", " name", " 1 0\n", " 0\n", " name 1"):
                done = subprocess.run([built_program(), "run"], input=f"{name}{rest}\n".encode(), capture_output=True,
                                      timeout=SECONDS)
                self.assertEqual((done.returncode, done.stderr), (4, b"dgraph: bad frame at 0\n"), name + rest)

    def test_what_is_built_is_what_isnt_answered_98(self) -> None:
        bodies = {name: "\n".join(lines).encode() for name, lines in EXAMPLES.items()}
        for verb in VERBS.values():
            with Program(built_program()) as program:
                reply = program.ask(request_with(verb, bodies.get(verb.name, b"")))
            assert reply
            self.assertEqual(reply.line != b"error 98 Unbuilt", verb.is_built, verb.name)

    def test_the_examples_of_the_help_are_answered(self) -> None:
        with Program(built_program()) as program:
            for name in ("alter", "begin", "mutate", "query", "upsert", "commit"):
                reply = program.ask(request_with(VERBS[name], "\n".join(EXAMPLES.get(name, [])).encode()))
                assert reply
                self.assertTrue(reply.is_ok, reply)

    def test_each_verb_that_is_built_is_told_of(self) -> None:
        self.assertEqual(sorted(PURPOSES), sorted(verb.name for verb in BUILT))
        self.assertEqual(sorted(EXAMPLES), sorted(verb.name for verb in BUILT if verb.has_body))
        self.assertEqual(sorted(FORMS), sorted(EXAMPLES))


class Numbers(unittest.TestCase):
    """Limits, refusals and statuses are those of the source."""

    def number(self, name: str, *files: str) -> int:
        """The constant of that name."""
        found = re.search(rf"const {name}: \w+ = ([0-9_]+);", source(*files))
        assert found
        return int(found[1].replace("_", ""))

    def test_limits(self) -> None:
        self.assertEqual(self.number("MAX_INPUT", "frames.rt"), MAX_INPUT)
        self.assertEqual(self.number("MAX_LINE", "frame.rt"), MAX_LINE)
        self.assertEqual(self.number("MAX_BODY", "arguments.rt"), MAX_BODY)

    def test_refusals(self) -> None:
        numbers = {int(number) for number in re.findall(r'"([0-9]+) [A-Z][A-Za-z]+', source("refusal.rt"))}
        self.assertEqual(numbers, set(MEANINGS))

    def test_statuses(self) -> None:
        status = (TOP / "crates" / "dg_node" / "src" / "status.rt").read_text(encoding="utf-8")
        numbers = {int(number) for number in re.findall(r"=> ([0-9]+),", status)}
        self.assertEqual(numbers, {0, *STATUSES})
