"""A bench has to end well, and to measure every workload and question."""

from __future__ import annotations

import subprocess
import sys
from unittest import mock

import bench
import check_bench
from tests.helpers import SECONDS, TOOLS, InFolder

FIGURES = ["0.000", "12.34", "5.00", "6", "789", "-"]
ASKED = ["12.34", "6", "7", "-0.08"]


def row(*cells: str) -> str:
    return f"| {' | '.join(cells)} |\n"


def tables() -> str:
    """The tables of a bench in which all was measured, of the program and of SQLite."""
    none = ["-"] * len(FIGURES)
    works = [
        row(work.name, f"{size:,}", *FIGURES, *(none if work.is_older else FIGURES))
        for work in bench.WORKLOADS
        for size in bench.QUICK
    ]
    asked = [row(it.name, f"{size:,}", "8", "36", *ASKED, *ASKED) for it in bench.QUESTIONS for size in bench.QUICK]
    return "".join([row("Workload", "Size"), row("---", "---:"), *works, "\n", row("Question", "Nodes"), *asked])


class Rows(InFolder):
    """Each row is looked for."""

    def test_all_are_there(self) -> None:
        self.assertEqual(list(check_bench.missing(tables())), [])

    def test_names_and_sizes_are_those_of_the_bench(self) -> None:
        rows = [row.name for row in check_bench.wanted()]
        self.assertEqual(len(rows), 3 * (len(bench.WORKLOADS) + len(bench.QUESTIONS)))
        asked = [question.workload().name for question in bench.QUESTIONS]
        self.assertEqual(list(dict.fromkeys(rows)), [*(work.name for work in bench.WORKLOADS), *asked])

    def test_a_row_that_is_missing_or_stands_twice(self) -> None:
        one = row("hot key", "3,000", *FIGURES, *FIGURES)
        self.assertIn(one, tables())
        self.assertEqual(list(check_bench.missing(tables().replace(one, ""))), ["hot key, 3,000: 0 rows, and not one"])
        self.assertEqual(list(check_bench.missing(tables() + one)), ["hot key, 3,000: 2 rows, and not one"])

    def test_what_is_no_figure(self) -> None:
        one = row("hot key", "3,000", *FIGURES, *FIGURES)
        good = FIGURES[:-1]
        for cells in ([*good[:1], "-", *good[2:]], [*good[:1], "nan", *good[2:]], good[:1]):
            for sides in ([*cells, "-", *FIGURES], [*FIGURES, *cells, "-"]):
                found = list(check_bench.missing(tables().replace(one, row("hot key", "3,000", *sides))))
                self.assertEqual([it.partition(": no figures: ")[0] for it in found], ["hot key, 3,000"], sides)
        name = bench.QUESTIONS[0].name
        one = row(name, "1,000", "8", "36", *ASKED, *ASKED)
        found = list(check_bench.missing(tables().replace(one, row(name, "1,000", "8", "36", "-", *ASKED[1:], *ASKED))))
        self.assertEqual(found, [f"{name}, 1,000: no figures: - | {' | '.join([*ASKED[1:3], *ASKED[:3]])}"])

    def test_what_is_left_out(self) -> None:
        one = "".join(row("hot key", f"{size:,}", *FIGURES, *FIGURES) for size in bench.QUICK)
        self.assertIn(one, tables())
        found = list(check_bench.missing(tables().replace(one, row("hot key", "left out: the program answers 98"))))
        self.assertEqual(found, [f"hot key, {size:,}: 0 rows, and not one" for size in bench.QUICK])


class Runs(InFolder):
    """The bench is run."""

    def check(self, said: str, status: int) -> subprocess.CompletedProcess[str]:
        """What the check does where the bench writes this and ends so."""
        text = f"import sys\nsys.stdout.write(open({str(self.file('said', said))!r}).read())\nsys.exit({status})\n"
        fake = self.file("bench_of_test.py", text)
        code = f"import sys, check_bench, pathlib; check_bench.BENCH = pathlib.Path({str(fake)!r}); sys.exit(check_bench.main())"
        return subprocess.run([sys.executable, "-B", "-c", code], cwd=TOOLS, capture_output=True, encoding="utf-8",
                              timeout=SECONDS)  # fmt: skip

    def test_all_is_measured(self) -> None:
        done = self.check(tables(), 0)
        self.assertEqual((done.returncode, done.stderr), (0, ""))
        self.assertRegex(done.stdout, r"\Abench: [0-9]+ workloads and [0-9]+ questions are measured in [0-9]+ seconds\n\Z")

    def test_the_bench_doesnt_end_well(self) -> None:
        done = self.check(tables(), 1)
        self.assertEqual((done.returncode, done.stdout), (1, "bench: status 1: \n"))

    def test_something_isnt_measured(self) -> None:
        done = self.check("", 0)
        self.assertEqual(done.returncode, 1)
        self.assertIn("hot key, 1,000: 0 rows, and not one\n", done.stdout)
        self.assertTrue(done.stdout.endswith("bench: status 0: \n"), done.stdout)

    def test_a_bench_that_takes_too_long(self) -> None:
        late = subprocess.TimeoutExpired("bench", 1)
        with mock.patch("subprocess.run", side_effect=late), mock.patch("builtins.print") as said:
            self.assertEqual(check_bench.main(), 1)
        said.assert_called_once_with("bench: it hadn't ended after 300 seconds")

    def test_no_program(self) -> None:
        words = [sys.executable, "-B", TOOLS / "check_bench.py", self.folder / "none"]
        done = subprocess.run(words, capture_output=True, encoding="utf-8", timeout=SECONDS)
        self.assertEqual(done.returncode, 1)
        self.assertIn("none isn't built", done.stdout)
