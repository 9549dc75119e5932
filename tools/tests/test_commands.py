"""The commands of the tool, over small programs that answer what they were told to."""

from __future__ import annotations

import os
import signal
import subprocess
import sys
import time
from pathlib import Path
from unittest import mock

from dgraph_shell.faults import BAD_DATA, BAD_WORDS, DIFFERENT, INTERRUPTED, NO_FILE, NO_PROGRAM, NO_REPLY, UNREAD
from dgraph_shell.commands import iter_replies
from dgraph_shell.program import STATUSES, Program, Unsendable
from tests.helpers import TOOL, TOOLS, InFolder, built_program, script


class Runs(InFolder):
    """`run` asks a program and shows what it answers."""

    def run_over(self, text: str, program: Path, *words: str) -> subprocess.CompletedProcess[str]:
        """What `run` does with a script and a program."""
        return self.tool("run", self.file("a.dgs", text), "--program", program, *words)

    def test_all_is_answered(self) -> None:
        done = self.run_over("begin 1\nline", self.program(b"ok begin 1 3\n", b"error 98 Unbuilt\n"))
        self.assertEqual((done.returncode, done.stderr), (0, ""))
        self.assertRegex(done.stdout, r"\A> begin 1\nok begin 1 3\n> line\nerror 98 Unbuilt\n"
                                      r"    .*\n    next: .*\n1 answered, 1 refused, [0-9.]+ s\n\Z")

    def test_tables(self) -> None:
        program = self.program(b'ok query 1 21\n{"data":{"q":[{}]}}  \n')
        self.assertIn("q: 1 row\n", self.run_over("query 1", program, "--table").stdout)

    def test_the_status_is_the_programs(self) -> None:
        done = self.run_over("line", self.program(b"ok line 1\n", status=2, message="dgraph: write fault\n"))
        self.assertEqual(done.returncode, 2)
        self.assertEqual(done.stderr, "dgraph_shell: the program ended with status 2: dgraph: write fault\n"
                                      f"    {STATUSES[2]}\n")

    def test_a_program_that_ends_early(self) -> None:
        done = self.run_over("line\n\nstate\nline", self.program(b"ok line 1\n", status=6, message="dgraph: gone"))
        self.assertEqual(done.returncode, 6)
        self.assertIn("a.dgs:3: `state` got no reply: the program ended with status 6: dgraph: gone\n", done.stderr)
        self.assertIn("ok line 1\n> state\n1 answered, 0 refused", done.stdout)

    def test_a_program_that_ends_early_and_well(self) -> None:
        path = self.executable(f"#!{sys.executable} -IS\n")
        self.assertEqual(self.run_over("line\nline", path).returncode, NO_REPLY)

    def test_a_program_that_a_signal_ends(self) -> None:
        done = self.run_over("line\nline", self.program(b"ok line 1\n", status=-9))
        self.assertEqual(done.returncode, 137)
        self.assertIn("the program was ended by signal 9\n", done.stderr)

    def test_groups_are_handed_on(self) -> None:
        program = self.program(status=3)
        self.assertIn("status 3: run\n", self.run_over("", program).stderr)
        said = "status 3: run --groups 16\n    it takes `run` alone, `gen --seed S --size N` or `load --seed S --size N`\n"
        self.assertIn(said, self.run_over("", program, "--groups", "16").stderr)
        done = self.run_over("", program, "--groups", "17")
        self.assertEqual(done.returncode, BAD_WORDS)
        self.assertIn("expected a number from 1 to 16, found '17'", done.stderr)

    def test_what_is_no_reply(self) -> None:
        done = self.run_over("line", self.program(b"hello\n"))
        self.assertEqual((done.returncode, done.stderr),
                         (NO_REPLY, "dgraph_shell: no reply begins with b'hello'\n"))
        done = self.run_over("line", self.program(b"ok line 1\nok line 2\n"))
        self.assertEqual(done.returncode, NO_REPLY)
        self.assertIn("a reply to no request", done.stderr)

    def test_a_program_that_isnt_there(self) -> None:
        done = self.run_over("line", self.folder / "none")
        self.assertEqual(done.returncode, NO_PROGRAM)
        self.assertIn("none can't be run: No such file or directory; README.md says how", done.stderr)
        self.assertEqual(self.run_over("line", self.file("b", "")).returncode, NO_PROGRAM)

    def test_a_program_is_named_by_its_path(self) -> None:
        self.program(b"ok line 1\n")
        self.assertEqual(self.run_over("line", Path("program")).returncode, 0)

    def test_a_script_that_is_wrong_runs_nothing(self) -> None:
        done = self.run_over("line\nfoo", self.folder / "none")
        self.assertEqual((done.returncode, done.stdout), (BAD_DATA, ""))
        self.assertIn("a.dgs:2: expected a verb", done.stderr)

    def test_a_script_that_isnt_there(self) -> None:
        done = self.tool("run", "none.dgs")
        self.assertEqual((done.returncode, done.stderr),
                         (NO_FILE, "dgraph_shell: none.dgs: No such file or directory\n"))

    def test_a_long_script_says_how_far_it_is(self) -> None:
        done = self.run_over("line\n" * 210, self.program(*[b"ok line 1\n"] * 210))
        self.assertEqual(done.stderr, "".join(f"request {n} of 210\n" for n in range(21, 211, 21)))

    def test_an_interrupt_ends_the_program_too(self) -> None:
        words = ["run", self.file("a.dgs", "line"), "--program", self.waiting_program()]
        tool_process = self.started(*words, stdout=subprocess.DEVNULL)
        name = self.folder / "ready"
        while not name.exists() and tool_process.poll() is None:
            time.sleep(0.01)
        tool_process.send_signal(signal.SIGINT)
        self.assertEqual(tool_process.wait(timeout=20), INTERRUPTED)
        with self.assertRaises(ProcessLookupError):
            os.kill(int(name.read_text(encoding="utf-8")), 0)

    def test_nobody_reads(self) -> None:
        program = self.program(*[b"ok line 1\n"] * 3)
        words = [*TOOL, "run", self.file("a.dgs", "line\n" * 3)]
        reader, writer = os.pipe()
        os.close(reader)
        with os.fdopen(writer, "wb") as unread:
            words += ["--program", program]
            done = subprocess.run(words, stdout=unread, stderr=subprocess.PIPE, timeout=20)
        self.assertEqual((done.returncode, done.stderr), (UNREAD, b""))


    def test_frames_are_run_too(self) -> None:
        path = self.file("a.script", b"begin 1\nmutate 1 4\n\xff\n\na\n")
        program = self.program(b"ok begin 1 1\n", b"error 3 BadToken 0\n")
        done = self.tool("run", path, "--program", program)
        self.assertEqual((done.returncode, done.stderr), (0, ""))
        self.assertIn("> mutate 1\n    \\xff\n    \n    a\nerror 3 BadToken 0\n", done.stdout)
        self.assertIn("a.script:3): the body isn't UTF-8 here\n", done.stdout)

    def test_a_frame_that_is_bad_runs_nothing(self) -> None:
        done = self.tool("run", self.file("a.script", b"begin 1\nbegin 17\n"), "--program", "none")
        self.assertEqual((done.returncode, done.stdout), (BAD_DATA, ""))
        self.assertIn("a.script:2: request 2, at byte 8: expected a session from 1 to 16", done.stderr)

    def test_a_refusal_says_what_to_do_next(self) -> None:
        program = self.program(b"error 98 Unbuilt\n", b"error 19 Conflict 5 data name 0x1\n")
        done = self.run_over("line\ncommit 2", program)
        self.assertIn("    next: built are alter, begin SID", done.stdout)
        self.assertIn("    next: try again from `begin 2` on", done.stdout)

    def test_an_input_that_would_end_the_program_is_not_sent(self) -> None:
        requests = script("begin 1\n" * 6)
        program = self.program(*[b"ok begin 1 1\n"] * 5)
        with mock.patch("dgraph_shell.program.MAX_INPUT", 40), Program(program) as child:
            self.assertEqual(len(list(iter_replies(child, requests[:5]))), 5)
            with self.assertRaisesRegex(Unsendable, "would end the program, which takes 40 bytes in one run"):
                list(iter_replies(child, requests[5:]))
            self.assertEqual(child.end().status, 0)


class FramesOfFiles(InFolder):
    """`frame` and `unframe` write to standard output."""

    def test_both_ways(self) -> None:
        path = self.file("a.dgs", "alter\n    é: string .\nstate\n")
        framed = self.tool("frame", path)
        self.assertEqual((framed.returncode, framed.stdout), (0, "alter 12\né: string .\nstate\n"))
        shown = self.tool("unframe", self.file("a.script", framed.stdout))
        self.assertEqual((shown.returncode, shown.stdout), (0, "alter\n    é: string .\nstate\n"))

    def test_refusals_write_nothing(self) -> None:
        for command in ("frame", "unframe"):
            done = self.tool(command, self.file("a", "state\nfoo\n"))
            self.assertEqual((done.returncode, done.stdout), (BAD_DATA, ""))
            self.assertIn("expected a verb", done.stderr)

    def test_words(self) -> None:
        for words in ((), ("foo",), ("frame",), ("frame", "a", "b"), ("run", "a", "--colour")):
            self.assertEqual(self.tool(*words).returncode, BAD_WORDS)
        self.assertEqual(self.tool("--help").returncode, 0)
        self.assertIn("With the one word `run` the program itself, ", self.tool("--help").stdout)
        for command in ("run", "shell", "check", "frame", "unframe", "why"):
            self.assertIn(f"    {command} ", self.tool().stderr)

    def test_the_package_is_started_by_its_name_and_its_folder(self) -> None:
        path = self.file("a.dgs", "state\n")
        for words in (["-m", "dgraph_shell"], [str(TOOLS / "dgraph_shell")]):
            words = [sys.executable, "-B", *words, "frame", str(path)]
            done = subprocess.run(words, cwd=TOOLS, capture_output=True, encoding="utf-8", timeout=20)
            self.assertEqual((done.returncode, done.stdout, done.stderr), (0, "state\n", ""))


class Why(InFolder):
    """`why` says why frames are bad."""

    def test_all_are_frames(self) -> None:
        done = self.tool("why", self.file("a.script", b"begin 1\nquery 1 1\n\n\n"))
        self.assertEqual((done.returncode, done.stderr), (0, ""))
        self.assertTrue(done.stdout.endswith("a.script: 2 frames, and nothing else\n"))

    def test_one_is_bad(self) -> None:
        done = self.tool("why", self.file("a.script", b"begin 1\nquery 1 5\n{ }\n"))
        self.assertEqual((done.returncode, done.stdout), (BAD_DATA, ""))
        self.assertIn("a.script:2: request 2, at byte 8: expected a line feed behind a body of 5 bytes", done.stderr)

    def test_a_readable_script_is_no_frames(self) -> None:
        done = self.tool("why", self.file("a.dgs", "# a\nalter\n  a: string .\n"))
        self.assertEqual((done.returncode, done.stdout), (BAD_DATA, ""))
        self.assertIn("\n    it is a readable script, of which `frame` makes frames\n", done.stderr)

    def test_the_place_is_the_programs(self) -> None:
        for data in (b"", b"walk", b"begin 1\nbegin  2\n", b"alter 3\nab\n", b"begin 1\nquery 1 1\n{}\n", b"\n",
                     b"line\r\n"):
            ended = subprocess.run([built_program(), "run"], input=data, capture_output=True, timeout=20)
            done = self.tool("why", self.file("a.script", data))
            self.assertEqual(ended.returncode == 0, done.returncode == 0, data)
            if ended.returncode:
                place = ended.stderr.decode().rpartition(" ")[2].strip()
                self.assertIn(f", at byte {place}: ", done.stderr)


class Checks(InFolder):
    """`check` compares replies."""

    def check(self, expected: bytes, program: Path, text: str = "line\n\nstate\n") -> subprocess.CompletedProcess[str]:
        """What `check` does with a script, expected replies and a program."""
        paths = self.file("a.dgs", text), self.file("a.replies", expected)
        return self.tool("check", *paths, "--program", program)

    def test_the_same(self) -> None:
        done = self.check(b"ok line 1\nok state 1\na\n", self.program(b"ok line 1\n", b"ok state 1\na\n"))
        self.assertEqual((done.returncode, done.stderr), (0, ""))
        self.assertRegex(done.stdout, r"\A.*a\.dgs: 2 replies as in .*a\.replies\n\Z")

    def test_another_reply(self) -> None:
        done = self.check(b"ok line 1\nok state 1\na\n", self.program(b"ok line 1\n", b"ok state 1\nb\n"))
        self.assertEqual((done.returncode, done.stdout), (DIFFERENT, ""))
        self.assertTrue(done.stderr.endswith(
            "a.dgs:3: the reply to `state` isn't as expected\n"
            "  expected:\n    ok state 1\n    a\n  answered:\n    ok state 1\n    b\n"), done.stderr)

    def test_a_missing_reply(self) -> None:
        done = self.check(b"ok line 1\nok state 0\n\n", self.program(b"ok line 1\n", status=6))
        self.assertEqual(done.returncode, DIFFERENT)
        self.assertIn("  answered:\n    nothing\ndgraph_shell: the program ended with status 6", done.stderr)

    def test_a_bad_end(self) -> None:
        done = self.check(b"ok line 1\n", self.program(b"ok line 1\n", status=2, message="a"), "line")
        self.assertEqual(done.returncode, DIFFERENT)
        self.assertEqual(done.stderr, f"dgraph_shell: the program ended with status 2: a\n    {STATUSES[2]}\n")

    def test_counts(self) -> None:
        for expected in (b"ok line 1\n", b"ok line 1\nok line 2\nok line 3\n"):
            done = self.check(expected, self.program(b"ok line 1\n", b"ok line 2\n"))
            self.assertEqual(done.returncode, DIFFERENT)
            self.assertIn("a.dgs:3: 2 requests, but ", done.stderr)

    def test_expected_replies_that_are_none(self) -> None:
        done = self.check(b"ok line 1\nok state 5\na\n", self.program())
        self.assertEqual(done.returncode, BAD_DATA)
        self.assertIn("a.replies: reply 2: the reply ", done.stderr)
        done = self.tool("check", self.file("a.dgs", ""), "none")
        self.assertEqual((done.returncode, done.stderr),
                         (NO_FILE, "dgraph_shell: none: No such file or directory\n"))
