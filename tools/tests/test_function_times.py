"""Tests of function_times.py: what a checked file is of, and how seconds are given to it."""

from __future__ import annotations

import unittest

import function_times as times


class Names(unittest.TestCase):
    def test_a_file_is_of_a_function_or_of_lemmas(self) -> None:
        for name, wanted in (
            ("Rattle-dg_wire-proofs.verb.Verb.of.Proof.oantt", "verb.Verb.of"),
            ("Rattle-dg_wire-proofs.verb.Verb.of.Lts.Given.oantt", "verb.Verb.of"),
            ("Rattle-dg_wire-proofs.cut.+begins.Lts-begins.oantt", "cut.+begins"),
            ("Rattle-dg_wire-proofs.LineLemmas.oantt", "LineLemmas"),
            ("Rattle-dg_wire-specs.Verbs.oantt", "specs: Verbs"),
            ("Rattle-dg_wire-proofs.verb.Verb.of.Proof.decls.oantt", None),
            ("records", None),
        ):
            self.assertEqual(times.proved(name), wanted)


class Seconds(unittest.TestCase):
    def test_each_file_takes_what_lies_between_it_and_the_one_before(self) -> None:
        told = times.seconds(
            [
                (7.5, "Rattle-low-proofs.a.f.Proof.oantt"),
                (1.0, "Rattle-low-specs.Low.oantt"),
                (3.0, "Rattle-low-proofs.a.f.Lts.oantt"),
                (3.5, "Rattle-low-proofs.a.f.Lts.decls.oantt"),
                (8.0, "Rattle-low-proofs.Laws.oantt"),
            ]
        )
        self.assertEqual(dict(told), {"a.f": 6.5, "Laws": 0.5})


if __name__ == "__main__":
    unittest.main()
