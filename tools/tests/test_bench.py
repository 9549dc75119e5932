"""The bench: what its workloads and questions are, that SQLite does the same, and the tables."""

from __future__ import annotations

import io
import random
import subprocess
import sys
import unittest
from contextlib import redirect_stdout
from itertools import chain, islice

import bench
import bench_steps
import plain_machine as plain
from tests.helpers import SECONDS, TOOLS, InFolder

SIZE = 40
ASKED = 6
QUESTION_WORK = [question.workload() for question in bench.QUESTIONS]


def script_of(work: bench.Workload, size: int) -> bytes:
    """The script of a workload, with the data that it needs first."""
    file = io.BytesIO()
    bench.write_script(file, work.schema, chain(work.before(size), work.measured(size)))
    return file.getvalue()


def stored(graph: plain.Graph) -> set[tuple[str, int, object]]:
    """The triples of a graph."""
    postings = ((place, posting) for place, objects in graph.items() for posting in objects)
    return {(*place, posting.key if posting.rank == plain.NODE else posting.value()) for place, posting in postings}


class Workloads(unittest.TestCase):
    """Workloads over the plain machine and over SQLite."""

    def test_they_are_of_a_size_and_are_answered(self) -> None:
        for work in bench.WORKLOADS:
            with self.subTest(work.name):
                done = plain.run(script_of(work, SIZE))
                self.assertIsNone(done.fault)
                refused = [reply for reply in done.replies if reply.startswith(b"error")]
                self.assertTrue(all(reply.startswith(b"error 19 ") for reply in refused), refused)
                self.assertEqual(bool(refused), work.overlaps)
                steps = list(work.measured(SIZE))
                changes = sum(len(step.triples) for step in steps)
                others = sum(step.verb in ("query", "upsert", "alter") for step in steps)
                is_one = work.name == "an upsert over all nodes" or work.name.startswith("an alter that adds ")
                self.assertEqual(changes + others, 1 if is_one else SIZE)

    def test_an_older_moment_is_read(self) -> None:
        work = next(work for work in bench.WORKLOADS if work.is_older)
        replies = plain.run(script_of(work, SIZE)).replies
        self.assertEqual([reply for reply in replies if b"query" in reply][1].split(b"\n")[1],
                         b'{"data":{"q":[{"name":"name 2"}]}}')

    def test_sqlite_does_the_same(self) -> None:
        for work in (work for work in bench.WORKLOADS if not work.is_older):
            with self.subTest(work.name):
                machine = plain.PlainMachine()
                for request in plain.run(script_of(work, SIZE)).requests:
                    machine.answer(*request)
                base = bench.Sqlite(work)
                for step in chain(work.before(SIZE), work.measured(SIZE)):
                    base.do(step)
                there = set(base.base.execute("select p, s, o from triple"))
                self.assertEqual(there, stored(machine.graph_at(machine.timestamp)))
                has_terms = work.index == "term" or work.name == "an alter that adds term"
                texts = {(p, word, s) for p, s, text in there for word in str(text).split() if has_terms}
                self.assertEqual(set(base.base.execute("select p, w, s from word")), texts)

    def test_an_alter_adds_to_what_is_there(self) -> None:
        for work in (work for work in bench.WORKLOADS if work.name.startswith("an alter that adds ")):
            (step,) = work.measured(SIZE)
            self.assertEqual(work.name.split()[-1], step.adds)
            self.assertEqual((work.schema, step.schema), (bench_steps.adding(step.adds).schema, bench_steps.INDEXED[step.adds][0]))
            self.assertNotIn("@", work.schema)
            self.assertEqual(step.frame(), f"alter {len(step.schema)}\n{step.schema}\n".encode())

    def test_words_are_terms(self) -> None:
        words = bench_steps.WORDS
        self.assertEqual(len(set(words)), len(words))
        self.assertTrue(all(word.isalpha() and word == word.casefold() for word in words))

    def test_the_largest_bodies_and_scripts_fit(self) -> None:
        for work in (*bench.WORKLOADS, *QUESTION_WORK):
            lengths = [len(step.frame()) for step in chain(work.before(10_000), work.measured(10_000))]
            self.assertLess(max(lengths), plain.LONGEST_BODY, work.name)
            most = max(*bench.SIZES, *bench.NODES)
            self.assertLess(sum(lengths) * (most // 10_000), bench.LONGEST_INPUT * 0.9, work.name)


class Questions(unittest.TestCase):
    """Questions over the plain machine and over SQLite."""

    def test_names(self) -> None:
        names = [work.name for work in (*bench.WORKLOADS, *QUESTION_WORK)]
        self.assertEqual(len(set(names)), len(names))
        self.assertTrue(all(work.name.startswith("query: ") for work in QUESTION_WORK))

    def test_sqlite_answers_the_same(self) -> None:
        for question, work in zip(bench.QUESTIONS, QUESTION_WORK):
            with self.subTest(question.name):
                steps = list(bench.queries(islice(question.questions(SIZE), ASKED)))
                asked = bench.Workload(question.name, question.schema, lambda _: iter(steps), work.before)
                done = plain.run(script_of(asked, SIZE))
                there = [reply.split(b"\n")[1].decode() for reply in done.replies if reply.startswith(b"ok query ")]
                base = bench.Sqlite(work)
                for step in work.before(SIZE):
                    base.do(step)
                self.assertEqual([base.query(step) for step in steps if step.verb == "query"], there)
                self.assertEqual(len(there), ASKED)
                self.assertEqual(base.answered, sum(map(len, there)))
                self.assertIn(question.drawn(SIZE, random.Random(1)).field, max(there))

    def test_how_often_they_are_asked(self) -> None:
        for question, work in zip(bench.QUESTIONS, QUESTION_WORK):
            verbs = [step.verb for step in work.measured(1_000)]
            self.assertEqual(verbs, ["begin", *["query"] * question.times(1_000), "discard"])
            self.assertLessEqual(4, min(question.times(size) for size in bench.NODES))

    def test_how_many_nodes_are_answered(self) -> None:
        wanted = {"eq, one": 1, "eq, a tenth": 200, "between": 100, "ge": 100, "has": 2_000, "filter": 500}
        for part, count in wanted.items():
            question = next(it for it in bench.QUESTIONS if it.name.startswith(f"query: {part}"))
            base = bench.Sqlite(question.workload())
            for triples in bench.transactions(question.stored(2_000), bench.LARGE):
                base.do(triples)
            answer = base.query(bench.Step("query", 1, asked=next(question.questions(2_000))))
            self.assertAlmostEqual(answer.count('"uid":'), count, None, question.name, 50 if part == "filter" else 0)


class Tables(InFolder):
    """What is printed."""

    def bench(self, *words: str) -> subprocess.CompletedProcess[str]:
        """The bench, with these words."""
        command = [sys.executable, "-B", TOOLS / "bench.py", *words]
        return subprocess.run(command, capture_output=True, encoding="utf-8", timeout=2 * SECONDS)

    def test_a_row_for_each_workload_and_size(self) -> None:
        done = self.bench("--program", str(self.plain_program()), "--sizes", "2,4", "--only", "hot key,contended")
        self.assertEqual((done.returncode, done.stderr), (0, ""))
        lines = done.stdout.splitlines()
        self.assertRegex(lines[0], r"^\| Workload \| Size \| Seconds \| .* \| SQLite: Growth \|$")
        rows = [[cell.strip() for cell in line.strip("|").split("|")] for line in lines]
        self.assertEqual({len(cells) for cells in rows}, {14})
        self.assertEqual([cells[0][:9] for cells in rows[2:]], ["contended"] * 2 + ["hot key"] * 2)
        self.assertEqual([cells[1] for cells in rows[2:]], ["2", "4"] * 2)

    def test_a_row_for_each_question_and_size(self) -> None:
        shown = "import bench; bench.Question.times = lambda self, size: 3; raise SystemExit(bench.main())"
        words = ["--program", str(self.plain_program()), "--sizes", "2,4", "--only", "hot key,query: has", "--plain"]
        done = subprocess.run([sys.executable, "-B", "-c", shown, *words], cwd=TOOLS, capture_output=True,
                              encoding="utf-8", timeout=2 * SECONDS)  # fmt: skip
        self.assertEqual((done.returncode, done.stderr), (0, ""))
        lines = done.stdout.splitlines()
        head = "| Question | Nodes | Queries | Bytes an answer | µs a query | Peak MiB | KiB a query | Growth |"
        self.assertEqual([line == "" for line in lines].index(True), lines.index(head) - 1)
        rows = [[cell.strip() for cell in line.strip("|").split("|")] for line in lines[lines.index(head) + 2 :]]
        name = "query: has, all nodes"
        self.assertEqual([cells[:4] for cells in rows], [[name, "2", "3", "44"], [name, "4", "3", "72"]])

    def test_growth(self) -> None:
        one, two = bench.Figures(1.0, 3, 1.0), bench.Figures(100.0, 32, 4.0, 0, 3.0)
        self.assertEqual(bench.growth(two, 1000, one, 100), "2.00")
        self.assertEqual(bench.growth(two, 1000, None, 0), "-")
        self.assertEqual(bench.growth(two, 1000, one._replace(seconds=0.0), 100), "-")
        self.assertEqual(bench.growth(None, 1000, one, 100), "-")
        self.assertEqual(bench.cells(two, 1000, "2.00"), ["100.000", "3125000.00", "100000.00", "4", "32768", "2.00"])
        self.assertEqual(bench.cells(None, 1000, "-"), ["-"] * 6)
        self.assertEqual(bench.question_cells(two, 1000, "2.00"), ["100000000.00", "4", "1024", "2.00"])
        self.assertEqual(bench.question_cells(None, 1000, "-"), ["-"] * 4)

    def test_memory_above_what_is_needed_first(self) -> None:
        self.assertEqual(bench.Figures(1.0, 3, 1.5, 0, 1.0).above(), 2**19)
        self.assertEqual(bench.Figures(1.0, 3, 1.0, 0, 1.5).above(), 0)

    def test_figures_of_one_query(self) -> None:
        question = next(it for it in bench.QUESTIONS if it.name.startswith("query: has"))
        times = question.times(100_000)
        side = bench.each(question, lambda work, size: bench.Figures(2.0 * times, times + 2, 1.0, 40))
        self.assertEqual(side(question.workload(), 100_000), bench.Figures(2.0, times + 2, 1.0, 40))

    def test_answers_of_another_length(self) -> None:
        sides = [lambda work, size, long=long: bench.Figures(1.0, 1, 1.0, long) for long in (40, 41)]
        with self.assertRaisesRegex(bench.Wrong, "SQLite answers another length"):
            list(bench.measured(QUESTION_WORK[0], [1], sides))

    def test_without_directives(self) -> None:
        work = next(work for work in bench.WORKLOADS if work.index)
        question = next(question for question in bench.QUESTIONS if question.index)
        program = self.program(b"error 98 Unbuilt\n")
        out = io.StringIO()
        with redirect_stdout(out):
            bench.table(program, [work], [5], [])
            bench.question_table(program, [question], [5], [])
        for name in (work.name, question.name):
            self.assertIn(f"| {name} | left out: the program answers 98 to directives |\n", out.getvalue())

    def test_what_is_answered_wrong_ends_it(self) -> None:
        work = bench.Workload("one", bench.NAME, lambda size: bench.transactions(bench.names(size), 1))
        alter, begin, mutate = b"ok alter 1 2\n", b"ok begin 1 3\n", b'ok mutate 1 11\n{"uids":{}}\n'
        for replies, status, words in (
            ([alter, begin, mutate, b"error 99 Memory\n"], 0, "answers error 99"),
            ([alter, begin, mutate, b"error 19 Conflict 3 data name 0x1\n"], 0, "answers error 19"),
            ([alter, begin, mutate], 0, "answered 3 of 4 requests"),
            ([alter], 6, "ended with 6 'oh', and answered 1 of 4"),
        ):
            with self.assertRaisesRegex(bench.Wrong, words):
                bench.of_program(self.program(*replies, status=status, message="oh" if status else ""), work, 1)

    def test_words_that_arent_understood(self) -> None:
        for words, said in (
            (["--program", str(self.folder / "none")], "isn't built"),
            (["--only", "walks"], "nothing is named so"),
            (["--sizes", "0"], "expected sizes above 0"),
        ):
            done = self.bench(*words)
            self.assertEqual((done.returncode, done.stdout), (2, ""))
            self.assertIn(said, done.stderr)
