"""Transcripts are compared with what their commands do."""

from __future__ import annotations

import io
import sys
from contextlib import redirect_stdout
from pathlib import Path
from unittest import mock

import check_transcript
from tests.helpers import InFolder

# A program that asks twice, and says what was typed.
ASKS = """import sys
print('dgraph> ', end='', flush=True)
line = sys.stdin.readline().strip()
print('Leave? (y or n) ', end='', flush=True)
print(line, repr(sys.stdin.readline()))
print('\\x1b[1mbold\\x1b[0m 0.123 s, 45,678 a second')
"""


class Transcripts(InFolder):
    """A transcript holds where its commands show what it says."""

    def check(self, text: str) -> tuple[bool, str]:
        """Whether a transcript holds, and what is said of it."""
        out = io.StringIO()
        with redirect_stdout(out):
            holds = check_transcript.is_as_written(self.file("a.transcript", text))
        return holds, out.getvalue()

    def test_commands_and_what_they_show(self) -> None:
        text = "free words\n$ echo a; echo b >&2\na\nb\n$ ls tools/plain_machine.py\ntools/plain_machine.py\n$ false\n"
        holds, said = self.check(text)
        self.assertTrue(holds, said)
        self.assertTrue(said.endswith("a.transcript: 3 commands show what stands there\n"), said)

    def test_another_line_is_shown(self) -> None:
        holds, said = self.check("$ echo a\nb\n$ echo c\nc\n")
        self.assertFalse(holds)
        self.assertIn("\n-b\n+a\n $ echo c\n", said)

    def test_no_command_is_no_transcript(self) -> None:
        self.assertFalse(self.check("a\n")[0])

    def test_lines_are_typed_where_they_are_asked_for(self) -> None:
        program = self.file("asks.py", ASKS)
        text = (f"$ {sys.executable} {program}\ndgraph> begin 1\nLeave? (y or n) y\nbegin 1 'y\\n'\n"
                "bold 9.9 s, 1 a second\n")
        holds, said = self.check(text)
        self.assertTrue(holds, said)

    def test_where_nothing_more_is_typed_the_input_ends(self) -> None:
        program = self.file("asks.py", ASKS)
        text = f"$ {sys.executable} {program}\ndgraph> begin 1\n"
        holds, said = self.check(text)
        self.assertFalse(holds)
        self.assertIn("begin 1 ''\n", said)

    def test_a_command_that_doesnt_end(self) -> None:
        with mock.patch.object(check_transcript, "SECONDS", 4):
            holds, said = self.check("$ echo so far; sleep 100\n")
        self.assertFalse(holds)
        self.assertIn("a command hadn't ended after 4 seconds; the last that it showed: so far", said)

    def test_files_that_commands_make_are_in_a_folder_of_their_own(self) -> None:
        holds, said = self.check("$ echo a >made.txt; cat made.txt\na\n$ cat made.txt\na\n")
        self.assertTrue(holds, said)
        self.assertFalse(Path("made.txt").exists() or (check_transcript.TOP / "made.txt").exists())
