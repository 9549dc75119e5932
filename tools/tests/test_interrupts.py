"""Ctrl-C in the shell, by real signals: to a shell that reads a pipe, and typed on a terminal."""

from __future__ import annotations

import os
import signal
import subprocess

from dgraph_shell.faults import INTERRUPTED
from tests.helpers import SECONDS, Conversation, InFolder


class Interrupts(InFolder):
    """An interrupt gives the prompt back, and the program goes on."""

    def runs(self, process: int) -> bool:
        """Whether a process runs."""
        try:
            os.kill(process, 0)
        except ProcessLookupError:
            return False
        return True

    def test_through_a_pipe(self) -> None:
        words = ["shell", "--program", self.waiting_program()]
        shell = self.started(*words, stdin=subprocess.PIPE, stdout=subprocess.PIPE, stderr=subprocess.STDOUT)
        assert shell.stdin and shell.stdout
        shown = Conversation(shell.stdout.fileno())
        shell.stdin.write("line\n")
        shell.stdin.flush()
        program = int(self.wait_for("ready").read_text(encoding="utf-8"))
        shell.send_signal(signal.SIGINT)
        shown.until("the program goes on with `line`; its reply comes at a later prompt, and \\\\wait waits for it\n")
        self.assertTrue(self.runs(program))
        # What is asked next is answered in its turn.
        shell.stdin.write("\\time\nline\n")
        shell.stdin.flush()
        shown.until("times are on\n")
        self.file("go", "")
        said = shown.until("the reply to `line`:\nok line 1\n[0-9.]+ ms\nok line 1\n[0-9.]+ ms\n")
        self.assertTrue(said.startswith("the reply to"), said)
        shell.stdin.close()
        self.assertEqual(shell.wait(SECONDS), 0)
        shell.stdout.close()

    def test_at_the_end_of_a_pipe_the_replies_are_awaited(self) -> None:
        words = ["shell", "--program", self.waiting_program()]
        shell = self.started(*words, stdin=subprocess.PIPE, stdout=subprocess.PIPE, stderr=subprocess.STDOUT)
        assert shell.stdin and shell.stdout
        shown = Conversation(shell.stdout.fileno())
        shell.stdin.write("line\n")
        shell.stdin.flush()
        self.wait_for("ready")
        shell.send_signal(signal.SIGINT)
        shown.until("the program goes on")
        shell.stdin.close()
        self.file("go", "")
        shown.until("the reply to `line`:\nok line 1\n")
        self.assertEqual(shell.wait(SECONDS), 0)
        shell.stdout.close()

    def test_on_a_terminal(self) -> None:
        shell, shown = self.on_terminal("shell", "--program", self.waiting_program())
        welcome = shown.until("dgraph> ")
        self.assertIn("The data live in the memory of `dgraph run` alone", welcome.split("\n")[0])
        os.write(shown.stream, b"line\n")
        program = int(self.wait_for("ready").read_text(encoding="utf-8"))
        os.write(shown.stream, b"\x03")
        shown.until("the program goes on with `line`; .*\ndgraph> ")
        self.assertTrue(self.runs(program))
        self.file("go", "")
        os.write(shown.stream, b"\\wait\n")
        shown.until("ok line 1\n")
        shown.until("dgraph> ")
        os.write(shown.stream, b"line\n")
        shown.until("ok line 1\ndgraph> ")
        os.write(shown.stream, b"quit\n")
        self.assertEqual(shell.wait(SECONDS), 0)

    def test_an_interrupt_forgets_what_was_typed(self) -> None:
        shell, shown = self.on_terminal("shell", "--program", self.waiting_program())
        shown.until("dgraph> ")
        os.write(shown.stream, b"mutate 1\n")
        shown.until("   ...> ")
        os.write(shown.stream, b"<0x1> <na\x03")
        shown.until("\ndgraph> ")
        os.write(shown.stream, b"quit\n")
        self.assertEqual(shell.wait(SECONDS), 0)
        self.assertFalse((self.folder / "ready").exists())

    def test_leaving_while_a_request_runs(self) -> None:
        shell, shown = self.on_terminal("shell", "--program", self.waiting_program())
        shown.until("dgraph> ")
        os.write(shown.stream, b"line\n")
        program = int(self.wait_for("ready").read_text(encoding="utf-8"))
        os.write(shown.stream, b"\x03")
        shown.until("the program goes on with `line`; .*\ndgraph> ")
        os.write(shown.stream, b"quit\n")
        shown.until("`line` still runs\nLeave all the same\\? \\(y or n\\) ")
        os.write(shown.stream, b"y\n")
        shown.until("the program was ended while it answered `line`\n")
        self.assertEqual(shell.wait(SECONDS), INTERRUPTED)
        self.assertFalse(self.runs(program))
