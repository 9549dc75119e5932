"""Tests of gate_times.py: which edit a text was made with, whose check a process is, and the table."""

from __future__ import annotations

import io
import subprocess
import tempfile
import unittest
from contextlib import redirect_stdout
from pathlib import Path

import gate_times as gate


class Edits(unittest.TestCase):
    def test_an_edit_is_known_by_the_texts_it_made(self) -> None:
        with tempfile.TemporaryDirectory() as name:
            crate, room = Path(name, "low"), Path(name, "rt-edit-1")
            for folder in (crate / "src", crate / "must-fail", room / "src"):
                folder.mkdir(parents=True)
            (crate / "src/lib.rt").write_text("a < b; c\n")
            (crate / "must-fail/or_equal.edit").write_text("file: src/lib.rt\nold: a < b\nnew: a <= b\n")
            (crate / "must-fail/without.edit").write_text("file: src/lib.rt\nold: a < b\nnew: d\nold: ; c\nnew:\n")
            for text, wanted in (("a <= b; c\n", "or_equal"), ("d\n", "without"), ("a < b; c\n", None)):
                (room / "src/lib.rt").write_text(text)
                self.assertEqual(gate.edit_in(room, crate), wanted)


class Checks(unittest.TestCase):
    def test_a_check_is_known_by_its_words(self) -> None:
        self.assertTrue(gate.is_check(["/kit/bin/rattle", "build", "--crate-name", "low", "src/lib.rt"]))
        self.assertFalse(gate.is_check(["/kit/bin/rattle-link", "build", "--crate-name", "low"]))
        self.assertFalse(gate.is_check(["python3", "/usr/local/bin/rt", "ci"]))


class Beside(unittest.TestCase):
    def test_a_check_below_another_process_is_seen_until_that_ends(self) -> None:
        with tempfile.TemporaryDirectory() as name:
            top = Path(name)
            (top / "crates/low").mkdir(parents=True)
            (top / "crates/low/build").write_text("while [ $SECONDS -lt 4 ]; do :; done\n")
            words = "exec -a /kit/bin/rattle bash build --crate-name low & wait"
            with subprocess.Popen(["bash", "-c", words], cwd=top / "crates/low") as parent:
                run = gate.beside(parent.pid, top)
            self.assertEqual(list(run["crates"]), ["low"])
            self.assertGreater(run["crates"]["low"]["parts"]["first"], 0)


class Table(unittest.TestCase):
    def test_parts_are_added_up(self) -> None:
        parts = {"first": 1.0, "tests": 2.0, "edit or_equal": 0.5, "edit without": 0.25, "edits, the crate itself": 0.25}
        run = {"last": "1 passed, 0 failed", "whole": 5.0, "minutes": 2.0, "crates": {"low": {"lines": 500, "parts": parts}}}
        out = io.StringIO()
        with redirect_stdout(out):
            gate.show(run)
        self.assertIn("| `low` | 500 | 1.0 | 2.0 | 1.0 | 4.0 | 8.0 | 2 | or_equal 30, without 15 |", out.getvalue())
        self.assertIn("The whole run: 5.0 processor minutes, 2.0 minutes; 1 passed, 0 failed.", out.getvalue())


if __name__ == "__main__":
    unittest.main()
