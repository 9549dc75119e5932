"""The bench of nested queries: what it asks is answered, and how its table is made."""

from __future__ import annotations

import unittest
from unittest import mock

import bench_levels as bench
import plain_machine as plain
from tests.helpers import InFolder


class Asked(unittest.TestCase):
    """What is asked over a few nodes."""

    def test_each_query_is_answered(self) -> None:
        for query in bench.ASKED:
            size = 8 if query.sizes else 20
            requests = [*bench.load(query, size), bench.frame("query 1", query.query(size))]
            done = plain.run(b"".join(requests))
            self.assertIsNone(done.fault, query.name)
            self.assertTrue(all(reply.startswith(b"ok ") for reply in done.replies[:-1]), query.name)
            self.assertRegex(done.replies[-1], b"\\A(ok query 1 [0-9]+\n|error 17 AnswerTooLarge\n\\Z)", query.name)

    def test_each_recursion_is_answered(self) -> None:
        for query in bench.RECURSIONS:
            size = 6 if query.sizes else 20
            requests = [*bench.load(query, size), bench.frame("query 1", query.query(size))]
            reply = plain.run(b"".join(requests)).replies[-1]
            self.assertRegex(reply, b"\\A(ok query 1 [0-9]+\n|error 17 AnswerTooLarge\n\\Z)", query.name)

    def test_longest_queries_fit_into_a_body(self) -> None:
        for query in bench.ASKED:
            self.assertLessEqual(len(query.query(max(query.sizes, default=1))), 1_048_576, query.name)

    def test_names_are_told_apart(self) -> None:
        names = [query.name for query in (*bench.QUERIES, *bench.RECURSIONS)]
        self.assertEqual(len(set(names)), len(names))

    def test_statements_stand_in_bodies_of_so_many(self) -> None:
        with mock.patch.object(bench, "STATEMENTS", 2):
            self.assertEqual(list(bench.batches(iter("abcde"))), ["a\nb", "c\nd", "e"])


class Table(InFolder):
    """The lines of the table."""

    def test_a_line(self) -> None:
        query = bench.Nested("some", "", bench.ranked, "")
        found = [bench.Measured(seconds, 2048, "17 bytes") for seconds in (0.001, 0.004, 0.1)]
        line = bench.line_of(query, [10, 100, 1000], found)
        self.assertEqual(line, "| some | 10, 100, 1,000 | 1.00 ms | 4.00 ms | 100.00 ms | 1.00 | 17 bytes | 2 MB |")

    def test_what_an_answer_says(self) -> None:
        self.assertEqual(bench.answer_in("ok query 1 12345"), "12,345 bytes")
        self.assertEqual(bench.answer_in("error 17 AnswerTooLarge"), "17 AnswerTooLarge")

    def test_a_program_is_asked(self) -> None:
        replies = [b"ok begin 1 1\n", b"ok query 1 2\n{}\n", b"ok query 1 3\n[1]\n", b"error 17 AnswerTooLarge\n"]
        with bench.Running(self.program(*replies)) as running:
            self.assertEqual(running.ask(b"begin 1\n"), "ok begin 1 1\n")
            with mock.patch.object(bench, "LONG", 0.0):
                took, line = running.timed(bench.frame("query 1", "{}"))
            self.assertEqual(line, "error 17 AnswerTooLarge\n")
            self.assertGreater(took, 0.0)
            self.assertGreater(running.end(), 0)

    def test_a_program_that_ends(self) -> None:
        with bench.Running(self.program(b"ok begin 1 1\n", status=6, message=" ")) as running:
            self.assertEqual(running.ask(b"begin 1\n"), "ok begin 1 1\n")
            with self.assertRaises(SystemExit):
                running.end()

    def test_a_load_that_is_refused(self) -> None:
        query = bench.Nested("some", "x: int .", bench.ranked, "")
        with self.assertRaises(SystemExit):
            bench.measured(self.program(b"error 27 SchemaSyntax 1\n"), query, 3)
