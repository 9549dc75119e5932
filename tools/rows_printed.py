"""Rows of a table program, printed with their answers or without, and the rows of a section."""

from __future__ import annotations

import sys
from collections.abc import Iterable, Iterator
from typing import Optional


def in_section(rows: Iterable[str], asked: str, now: str) -> Iterator[str]:
    """The rows of the section that is asked for, of rows that are in one from the beginning. `section NAME` begins another."""
    for row in rows:
        if row.startswith("section "):
            now = row.partition(" ")[2]
        elif now == asked:
            yield row


def print_rows(rows: Iterable[tuple[str, Optional[str]]]) -> int:
    """Prints the rows where the word is `stdin`, and with `stdout` those that are no comment and begin no section, each with its
    answer or as one that can't be read."""
    answers = sys.argv[1:] == ["stdout"]
    for row, answer in rows:
        if not answers:
            print(row)
        elif not row.startswith(("#", "section ")):
            print(f"{row} => {answer}" if answer is not None else f"? {row}")
    return 0
