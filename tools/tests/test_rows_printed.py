"""Rows of table programs: what is printed of them, and in which sections they stand."""

from __future__ import annotations

import contextlib
import io
import unittest
from unittest import mock

import rows_printed
from rows_printed import in_section

ROWS = [("# First.", ""), ("add\t1 2", "3"), ("add\tx", None), ("section others", ""), ("sub\t2 1", "1")]


def printed(word: str) -> list[str]:
    with mock.patch("sys.argv", ["", word]), contextlib.redirect_stdout(io.StringIO()) as out:
        rows_printed.print_rows(ROWS)
    return out.getvalue().splitlines()


class Rows(unittest.TestCase):
    def test_rows_are_printed_whole(self) -> None:
        self.assertEqual(printed("stdin"), [row for row, _ in ROWS])

    def test_comments_and_beginnings_of_sections_have_no_answer(self) -> None:
        self.assertEqual(printed("stdout"), ["add\t1 2 => 3", "? add\tx", "sub\t2 1 => 1"])

    def test_rows_stand_in_sections(self) -> None:
        rows = ["a", "section others", "b", "", "section first", "c", "section none"]
        for asked, wanted in (("first", ["a", "c"]), ("others", ["b", ""]), ("none", [])):
            self.assertEqual(list(in_section(rows, asked, "first")), wanted)


if __name__ == "__main__":
    unittest.main()
