"""The bench of long bodies: each form is answered, fits into a body, and has its line."""

from __future__ import annotations

import unittest

import bench_bodies as bench
import plain_machine as plain


class Forms(unittest.TestCase):
    def test_each_form_is_answered(self) -> None:
        for form in bench.FORMS:
            request = bench.frame(form.head, form.body(400))
            done = plain.run(b"".join([*bench.load(6), request]))
            self.assertIsNone(done.fault, form.name)
            self.assertRegex(done.replies[-1], b"\\A(ok (query|mutate|upsert) 1 [0-9]+\n|error 17 AnswerTooLarge\n\\Z)", form.name)

    def test_bodies_are_as_long_as_they_may_be(self) -> None:
        for form in bench.FORMS:
            body = form.body(2_000)
            self.assertLessEqual(len(body), 2_000, form.name)
            self.assertGreater(len(body), 1_900, form.name)

    def test_names_are_told_apart(self) -> None:
        self.assertEqual(len({form.name for form in bench.FORMS}), len(bench.FORMS))

    def test_a_request_that_is_not_answered_has_its_line(self) -> None:
        form = bench.FORMS[0]
        self.assertEqual(
            bench.line_of(form, [(0.5, "3 bytes", 2048), (2.0, "3 bytes", 4096), None], 60),
            f"| {form.name} | 500.0 ms | 2,000.0 ms | more than 60 s | – | 3 bytes | 4 MB |",
        )


if __name__ == "__main__":
    unittest.main()
