#!/usr/bin/env python3
"""Runs `bench.py --quick` over the built program, and looks whether every workload and question was measured.

    check_bench.py [PROGRAM]

It ends with 1 where the bench doesn't end well, and where a workload or a question has no row with figures of its own at
each size, of the program or of SQLite where that is asked for the same, or is left out; and tells each. How large the
figures are it doesn't ask, but it tells how long the bench took. It needs Python 3.9 or later.
"""

from __future__ import annotations

import re
import subprocess
import sys
import time
from collections.abc import Iterator
from pathlib import Path
from typing import NamedTuple

from bench import HEADS, PROGRAM, QUESTION_HEADS, QUICK, WORKLOADS
from bench_questions import QUESTIONS

BENCH = Path(__file__).resolve().parent / "bench.py"
# The bench takes some twenty seconds; beside other work it may take longer.
SECONDS = 300
FIGURE = re.compile(r"[0-9]+(?:\.[0-9]+)?")


class Row(NamedTuple):
    """A row of the tables: its name and its size, how many cells stand before its figures, how many cells each side has, and
    how many sides have figures. The last cell of a side tells a growth, which may be below 0, or can't be told."""

    name: str
    size: int
    front: int
    count: int
    sides: int

    def figures(self, cells: list[str]) -> list[str]:
        """What stands where figures are wanted."""
        starts = (self.front + side * self.count for side in range(self.sides))
        return [cell for start in starts for cell in cells[start : start + self.count - 1]]


def wanted() -> Iterator[Row]:
    """Each row of a bench that measured all."""
    for work in WORKLOADS:
        sides = 1 if work.is_older else 2
        yield from (Row(work.name, size, 2, len(HEADS), sides) for size in QUICK)
    for question in QUESTIONS:
        yield from (Row(question.name, size, 4, len(QUESTION_HEADS), 2) for size in QUICK)


def missing(text: str) -> Iterator[str]:
    """Each row that the tables of a bench lack, or whose figures aren't such."""
    rows = [[cell.strip() for cell in line.strip("|").split("|")] for line in text.splitlines() if line.startswith("|")]
    for row in wanted():
        found = [row.figures(cells) for cells in rows if cells[:2] == [row.name, f"{row.size:,}"]]
        if len(found) != 1:
            yield f"{row.name}, {row.size:,}: {len(found)} rows, and not one"
        elif len(found[0]) != row.sides * (row.count - 1) or not all(FIGURE.fullmatch(cell) for cell in found[0]):
            yield f"{row.name}, {row.size:,}: no figures: {' | '.join(found[0])}"


def main() -> int:
    program = Path(sys.argv[1]) if sys.argv[1:] else PROGRAM
    words = [sys.executable, "-B", BENCH, "--quick", "--program", program]
    began = time.monotonic()
    try:
        done = subprocess.run(words, capture_output=True, encoding="utf-8", timeout=SECONDS)
    except subprocess.TimeoutExpired:
        print(f"bench: it hadn't ended after {SECONDS} seconds")
        return 1
    found = list(missing(done.stdout))
    if done.returncode or found:
        print(*found, f"bench: status {done.returncode}: {done.stderr.strip()}", sep="\n")
        return 1
    seconds = time.monotonic() - began
    print(f"bench: {len(WORKLOADS)} workloads and {len(QUESTIONS)} questions are measured in {seconds:.0f} seconds")
    return 0


if __name__ == "__main__":
    sys.exit(main())
