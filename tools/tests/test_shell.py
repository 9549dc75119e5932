"""The shell asks as it is told and shows each reply."""

from __future__ import annotations

import io
import subprocess
from collections.abc import Sequence
from contextlib import redirect_stderr
from pathlib import Path
from typing import Union
from unittest import mock

from dgraph_shell.meanings import MEANINGS
from dgraph_shell.program import STATUSES, Program, Unsendable
from dgraph_shell.shell import Shell
from dgraph_shell.show import Paint, View
from dgraph_shell.verbs import MAX_INPUT, request_of
from tests.helpers import TOOL, InFolder


class Shells(InFolder):
    """The shell asks as it is told and shows each reply."""

    def serve(
        self, lines: Sequence[Union[str, BaseException]], program: Path, asks: bool = False
    ) -> tuple[bool, str, list[str]]:
        """Whether the program ended by itself, what was shown, and the prompts, for typed lines."""
        typed, prompts = iter(lines), []

        def read(prompt: str) -> str:
            prompts.append(prompt)
            line = next(typed, EOFError())
            if isinstance(line, BaseException):
                raise line
            return line

        view = View(io.StringIO(), Paint(False))
        with Program(program) as child, redirect_stderr(io.StringIO()):
            ended = Shell(child, read, view, asks).serve()
            child.end()
        return ended, view.out.getvalue(), prompts

    def test_requests_and_bodies(self) -> None:
        program = self.program(b"ok begin 1 1\n", b'ok query 1 11\n{"data":{}}\n')
        ended, shown, prompts = self.serve(["begin 1", "", "# a", " query  1 ", "{", "}", "", "\\quit"], program)
        self.assertFalse(ended)
        self.assertEqual(shown, 'ok begin 1 1\nok query 1\n    {\n      "data": {}\n    }\n')
        self.assertEqual(prompts, ["dgraph> "] * 4 + ["   ...> "] * 3 + ["dgraph> "])

    def test_a_mistake_in_a_body_is_marked(self) -> None:
        _, shown, _ = self.serve(["query 1", "  {", "    é ! }", ""], self.program(b"error 3 BadToken 7\n"))
        self.assertEqual(shown, "error 3 BadToken 7\n"
                                f"    line 2, column 5 of the body: {MEANINGS[3].says}\n"
                                f"    |   é ! }}\n    |     ^\n    next: {MEANINGS[3].next}\n\n")

    def test_mistakes_send_nothing(self) -> None:
        lines = ["foo", "begin 17", "query 1", "a\x00", "", "\\foo", "\\save", "\\quit now", "\udcff",
                 "\\save a\x00"]
        ended, shown, _ = self.serve(lines, self.program())
        self.assertFalse(ended)
        found = [line.rpartition("; found ")[2] for line in shown.split("\n") if line]
        self.assertEqual(found, ["'foo'", "'17'", r"'\x00' in column 2", r"'\\foo'", r"'\\save'",
                                 r"'\\quit now'", r"'\udcff'", r"'\x00' in column 8"])

    def test_help(self) -> None:
        _, shown, _ = self.serve(["\\help"], self.program())
        for part in ("\\quit", "\\time", "\\table", "\\save FILE", "\\load FILE", "\\wait", "query SID ", "moveoff"):
            self.assertIn(part, shown)
        for line in ("help", "HELP", "?", "\\?", "\\h"):
            self.assertEqual(self.serve([line], self.program())[1], shown)

    def test_help_on_a_verb(self) -> None:
        _, shown, _ = self.serve(["help query", "\\help ALTER", "help moveoff", "help foo"], self.program())
        self.assertIn("query SID, and a body below\n", shown)
        self.assertIn("        {\n            one(func: uid(0x1)) { name }\n", shown)
        self.assertIn("    a definition is `NAME: KIND .`", shown)
        self.assertIn("        friend: [uid] @reverse @count . ", shown)
        self.assertIn("behind the kind may stand @index(..)", shown)
        self.assertIn("moveoff PRED\n    it is read, and answered 98", shown)
        self.assertIn("expected a verb (alter, begin, mutate, query, upsert, commit, discard); found 'foo'", shown)

    def test_words_that_end_it(self) -> None:
        for line in ("\\quit", "\\q", "quit", "exit", "Quit", "EXIT", "\\exit"):
            ended, shown, prompts = self.serve([line, "line"], self.program())
            self.assertEqual((ended, shown, prompts), (False, "", ["dgraph> "]))

    def test_verbs_in_any_case_of_letters(self) -> None:
        program = self.program(b"ok begin 1 1\n", b'ok query 1 11\n{"data":{}}\n', b"ok discard 1\n")
        lines = ["BEGIN 1", "Query 1", "{ A }", "", "disCard 1", "\\save typed.dgs"]
        path = self.folder / "typed.dgs"
        _, shown, _ = self.serve([*lines[:-1], f"\\SAVE {path}"], program)
        self.assertTrue(shown.startswith("ok begin 1 1\nok query 1\n"), shown)
        self.assertEqual(path.read_text(encoding="utf-8"), "begin 1\nquery 1\n    { A }\ndiscard 1\n")

    def test_a_body_behind_the_verb(self) -> None:
        path = self.folder / "typed.dgs"
        program = self.program(b"ok alter 1 2\n", b'ok query 1 11\n{"data":{}}\n')
        lines = ["alter name:  string .", "query  1   { q  }", "query 1 20", "mutate 17 a", f"\\save {path}"]
        _, shown, prompts = self.serve(lines, program)
        self.assertEqual(prompts, ["dgraph> "] * 6)
        self.assertIn("expected `query SID, and a body below`, and no length; found 'query 1 20'", shown)
        self.assertIn("expected a session from 1 to 16, for SID; found '17'", shown)
        self.assertEqual(path.read_text(encoding="utf-8"), "alter\n    name:  string .\nquery 1\n    { q  }\n")

    def test_a_body_behind_the_verb_that_goes_on_below(self) -> None:
        path = self.folder / "typed.dgs"
        program = self.program(b'ok mutate 1 11\n{"uids":{}}\n')
        lines = ["mutate 1 { set {", "  <0x1> <a> <0x2> .", "} }", "", f"\\save {path}"]
        _, _, prompts = self.serve(lines, program)
        self.assertEqual(prompts, ["dgraph> "] + ["   ...> "] * 3 + ["dgraph> "] * 2)
        self.assertEqual(path.read_text(encoding="utf-8"), "mutate 1\n    { set {\n      <0x1> <a> <0x2> .\n    } }\n")

    def test_what_stands_where_no_verb_does(self) -> None:
        _, shown, _ = self.serve(["{ q(func: uid(0x1)) { name } }", "<0x1> <name> 1 .", "name: string .", "comit 1"],
                                 self.program())
        for part in ("a query stands below `query SID`", "statements stand below `mutate SID`",
                     "definitions of predicates stand below `alter`", "is `commit` meant?"):
            self.assertIn(part, shown)

    def test_only_who_types_is_told_how_a_body_ends(self) -> None:
        answers = [b"error 1 NoSession 1\n"] * 2
        lines = ["query 1", "{", "", "query 1", "{", "", "quit"]
        _, shown, _ = self.serve(lines, self.program(*answers), asks=True)
        self.assertEqual(shown.count("(a blank line ends the body)\n"), 1)
        _, shown, _ = self.serve(lines, self.program(*answers))
        self.assertNotIn("blank line", shown)

    def test_a_frame_that_would_end_the_program_is_not_sent(self) -> None:
        program = self.program(*[b"error 98 Unbuilt\n"] * 4)
        lines = ["query 1", "a" * 1_048_577, "", *["query 1", "a" * 18, ""] * 4, "line"]
        # Each query has 30 bytes.
        with mock.patch("dgraph_shell.program.MAX_INPUT", 3 * 30 + 5):
            ended, shown, _ = self.serve(lines, program)
        self.assertFalse(ended)
        self.assertIn("expected a body of at most 1,048,576 bytes; found 1,048,577 bytes\n", shown)
        self.assertIn("nothing was sent, since it would end the program, which takes 95 bytes", shown)
        self.assertEqual(shown.count("error 98 Unbuilt\n"), 4)

    def test_no_request_that_is_no_frame_is_sent(self) -> None:
        with Program(self.program()) as child:
            for request in (request_of("begin", "17"), request_of("begin", "1\nbegin 2"), request_of("query", "1"),
                            request_of("query", "1", body=b"a" * 1_048_577), request_of("begin", "1", body=b"a")):
                with self.assertRaises(Unsendable):
                    child.send(request)
            self.assertEqual((child.waiting, child.room), ([], MAX_INPUT))

    def test_times_and_tables(self) -> None:
        answer = b'ok query 1 31\n{"data":{"q":[{"name":"Ann"}]}}\n'
        lines = ["\\table", "\\time", "query 1", "", "\\table", "\\time", "query 1", ""]
        _, shown, _ = self.serve(lines, self.program(answer, answer))
        self.assertRegex(shown, r"\Atables are on\ntimes are on\nok query 1\n    q: 1 row\n        name\n"
                                r"        ----\n        Ann\n[0-9.]+ ms\ntables are off\ntimes are off\n"
                                r"ok query 1\n    \{\n")
        self.assertEqual(shown.count(" ms\n"), 1)

    def test_what_was_typed_is_saved(self) -> None:
        path = self.folder / "typed.dgs"
        lines = ["begin 1", "query 1", "  a", "   b", "", f"\\save {path}", "state", f"\\save {path}"]
        program = self.program(b"ok begin 1 1\n", b"error 98 Unbuilt\n", b"ok state 0\n\n")
        _, shown, _ = self.serve(lines, program)
        self.assertIn(f"\n2 requests are in {path}\n", shown)
        self.assertIn(f"3 requests are in {path}\n", shown)
        self.assertEqual(path.read_text(encoding="utf-8"), "begin 1\nquery 1\n    a\n     b\nstate\n")

    def test_no_other_file_is_written_over(self) -> None:
        path = self.file("other", "a")
        _, shown, _ = self.serve([f"\\save {path}", "\\save none/a"], self.program())
        self.assertIn(f"{path} can't be written: File exists\n", shown)
        self.assertIn("none/a can't be written: No such file or directory\n", shown)
        self.assertEqual(path.read_text(encoding="utf-8"), "a")

    def test_an_interrupt_forgets_what_was_typed(self) -> None:
        lines = ["query 1", "a", KeyboardInterrupt(), KeyboardInterrupt(), "state"]
        _, shown, _ = self.serve(lines, self.program(b"ok state 0\n\n"))
        self.assertEqual(shown, "\n\nok state\n\n")

    def test_the_end_of_the_input_sends_no_body_that_isnt_ended(self) -> None:
        ended, shown, _ = self.serve(["query 1", "a"], self.program())
        self.assertEqual((ended, shown), (False, "\n"))

    def test_a_program_that_ends(self) -> None:
        program = self.program(b"ok begin 1 1\n", status=6, message="dgraph: out of memory\n")
        done = self.tool("shell", "--program", program, typed="begin 1\nstate\nstate\n")
        self.assertEqual((done.returncode, done.stdout), (6, "ok begin 1 1\n"))
        self.assertEqual(done.stderr, "dgraph_shell: the program ended with status 6: dgraph: out of memory\n"
                                      f"    {STATUSES[6]}\n")

    def test_the_status_is_the_programs(self) -> None:
        for words, status, message in (((), 0, ""), (("--groups", "3"), 3, "run --groups 3")):
            program = self.program(b"ok line 1\n", status=status)
            done = self.tool("shell", "--program", program, *words, typed="line\n\\quit\nline\n")
            self.assertEqual((done.returncode, done.stdout), (status, "ok line 1\n"))
            self.assertIn(message, done.stderr)

    def test_words_that_arent_utf8_are_refused(self) -> None:
        words = [*TOOL, "shell", "--program", self.program()]
        done = subprocess.run(words, input=b"query 1\na\xff\n\n", capture_output=True, timeout=20)
        self.assertEqual(done.returncode, 0)
        self.assertIn(rb"found '\udcff' in column 2", done.stdout)
