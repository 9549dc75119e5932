"""The shell says what its end takes away, and asks."""

from __future__ import annotations

import io
import unittest
from collections.abc import Sequence
from typing import Union

from dgraph_shell.program import Program
from dgraph_shell.replies import Reply
from dgraph_shell.shell import Shell
from dgraph_shell.show import Paint, View
from dgraph_shell.verbs import request_of
from dgraph_shell.work import Work
from tests.helpers import InFolder

QUESTION = "Leave all the same? (y or n) "
WORK = ["alter", "name: string .", "", "begin 1", "mutate 1", '<0x1> <name> "Ann" .', ""]


class Leaving(InFolder):
    """`\\quit` and the end of the input ask where work would be lost."""

    def serve(self, lines: Sequence[Union[str, BaseException]], asks: bool = True) -> tuple[str, list[str]]:
        """What is shown for typed lines, and the prompts."""
        typed, prompts = iter(lines), []

        def read(prompt: str) -> str:
            prompts.append(prompt)
            line = next(typed, EOFError())
            if isinstance(line, BaseException):
                raise line
            return line

        view = View(io.StringIO(), Paint(False))
        with Program(self.plain_program()) as child:
            self.assertFalse(Shell(child, read, view, asks).serve())
            self.assertEqual(child.end().status, 0)
        return view.out.getvalue(), prompts

    def test_nothing_is_asked_where_nothing_is_lost(self) -> None:
        for lines in ([], ["begin 1", "query 1", "{ q(func: uid(0x1)) { name } }", "", "discard 1"]):
            _, prompts = self.serve([*lines, "quit"])
            self.assertNotIn(QUESTION, prompts)

    def test_changes_that_arent_committed(self) -> None:
        shown, prompts = self.serve([*WORK, "quit", "n", "begin 2", "\\q", "Y", "line"])
        self.assertEqual(shown.count("changes of session 1 aren't committed\n"), 2)
        self.assertEqual(prompts.count(QUESTION), 2)
        self.assertIn("ok begin 2 4\n", shown)
        self.assertNotIn("98", shown)

    def test_sessions_are_named(self) -> None:
        more = ["begin 12", "mutate 12", '<0x2> <name> "Bob" .', ""]
        shown, _ = self.serve([*WORK, *more, "begin 3", "quit", "y"])
        self.assertIn("changes of sessions 1, 12 aren't committed\n", shown)

    def test_requests_that_arent_saved(self) -> None:
        path = self.folder / "typed.dgs"
        lines = [*WORK, "commit 1", "quit", "no", f"\\save {path}", "quit"]
        shown, prompts = self.serve(lines)
        self.assertIn("4 requests of this session are in no file yet\n", shown)
        self.assertEqual(prompts.count(QUESTION), 1)

    def test_the_end_of_the_input_asks_once(self) -> None:
        shown, prompts = self.serve(WORK)
        self.assertEqual(prompts[-2:], ["dgraph> ", QUESTION])
        self.assertIn("changes of session 1 aren't committed\n", shown)

    def test_an_interrupt_at_the_question_stays(self) -> None:
        _, prompts = self.serve([*WORK, "quit", KeyboardInterrupt(), "discard 1", "quit", "y"])
        self.assertEqual(prompts.count(QUESTION), 2)

    def test_where_the_program_has_ended_what_was_typed_can_be_kept(self) -> None:
        there, path = self.file("there.dgs", ""), self.folder / "typed.dgs"
        typed = iter(["begin 1", "line", str(there), str(path), "discard 1"])
        view = View(io.StringIO(), Paint(False))
        with Program(self.program(b"ok begin 1 1\n", status=6)) as child:
            self.assertTrue(Shell(child, lambda _: next(typed), view, asks=True).serve())
        shown = view.out.getvalue()
        self.assertIn(f"the program has ended, and its data are gone\n{there} can't be written: File exists\n", shown)
        self.assertTrue(shown.endswith(f"2 requests are in {path}\n"), shown)
        self.assertEqual(path.read_text(encoding="utf-8"), "begin 1\nline\n")

    def test_through_a_pipe_it_only_says_so(self) -> None:
        typed = "\n".join([*WORK, "\\quit", ""])
        done = self.tool("shell", "--program", self.plain_program(), typed=typed)
        self.assertEqual((done.returncode, done.stderr), (0, "dgraph_shell: changes of session 1 aren't committed\n"))
        done = self.tool("shell", "--program", self.plain_program(), typed=typed.replace("\\quit", "commit 1"))
        self.assertEqual((done.returncode, done.stderr), (0, ""))


class Works(unittest.TestCase):
    """Open transactions are known by the replies."""

    def after(self, *exchanges: tuple[str, str, str]) -> Work:
        """What is known after requests, each a verb, a session and the line of its reply."""
        work = Work()
        for verb, session, line in exchanges:
            work.note(request_of(verb, session), Reply(line.encode()))
        return work

    def test_what_opens_and_ends_them(self) -> None:
        begun = ("begin", "1", "ok begin 1 3")
        changed = ("mutate", "1", "ok mutate 1 11")
        self.assertEqual(self.after(begun).uncommitted, [])
        self.assertEqual(self.after(begun, changed).uncommitted, [1])
        self.assertEqual(self.after(begun, changed).free, [*range(2, 17)])
        for verb, line in (
            ("commit", "ok commit 1 4"),
            ("discard", "ok discard 1"),
            ("commit", "error 19 Conflict 4 data name 0x1"),
            ("commit", "error 18 Moving name"),
            ("query", "error 1 NoSession 1"),
        ):
            self.assertEqual(self.after(begun, changed, (verb, "1", line)).open, {}, line)
        for verb, line in (("commit", "error 99 Memory"), ("mutate", "error 4 BadSyntax 3"), ("query", "ok query 1 2")):
            self.assertEqual(self.after(begun, changed, (verb, "1", line)).uncommitted, [1], line)
        self.assertEqual(self.after(("begin", "5", "error 2 SessionOpen 5")).open, {5: 0})
