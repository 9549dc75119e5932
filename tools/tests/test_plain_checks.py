"""The checks of queries and upsert blocks, over the rows `checks` of table_checks, whose answers were written by hand."""

from __future__ import annotations

import unittest
from collections import Counter

from plain_checks import Schema, check, run_order
from plain_machine import SchemaReader
from plain_queries import Fault, read_query
from plain_tokens import Refusal
from plain_upserts import read_upsert, uses_of
from rows_printed import in_section
from tests.helpers import TOP

CRATE = TOP / "crates" / "table_checks"


def answered() -> list[str]:
    """The lines that are printed for the rows of checks, which stand in front."""
    rows = in_section((CRATE / "stdin").read_text(encoding="utf-8").split("\n"), "checks", "checks")
    count = sum(row != "" and not row.startswith("#") for row in rows)
    return (CRATE / "stdout").read_text(encoding="utf-8").split("\n")[:count]


def found(table: str, schema: Schema, text: str) -> str:
    """What is wrong with a query or an upsert block, or the order in which its blocks are run."""
    try:
        blocks, mutations = (read_query(text), []) if table == "query" else read_upsert(text)
        check(schema, blocks, uses_of(mutations))
    except Fault as fault:
        return f"no query by byte {fault.offset}"
    except Refusal as refusal:
        return refusal.line.split(maxsplit=2)[2]
    return " ".join(["ok", *map(str, run_order(blocks))])


class Rows(unittest.TestCase):
    def faults(self, asked: str) -> Counter[str]:
        """How often rows of a table have which fault, after each was found to have its own."""
        schema: Schema = {}
        met: Counter[str] = Counter()
        for row in answered():
            table, _, rest = row.partition("\t")
            text, _, wanted = rest.rpartition(" => ")
            if table == "schema":
                schema = SchemaReader(text).read()
            if table == asked:
                self.assertEqual(found(table, schema, text), wanted, text)
                met[wanted.split()[0]] += 1
        return met

    def test_queries_have_these_faults(self) -> None:
        met = self.faults("query")
        names = ("UnknownVariable", "VariableTwice", "VariableCycle", "NotIndexed", "BadLiteral", "BadPage", "BadDepth", "ok")
        self.assertTrue(all(met[name] > 3 for name in names), met)

    def test_upsert_blocks_have_these_faults(self) -> None:
        met = self.faults("upsert")
        names = ("UnknownVariable", "VariableTwice", "VariableCycle", "NotIndexed", "BadLiteral", "BadPage", "BadDepth", "ok")
        self.assertTrue(all(met[name] for name in names), met)
        self.assertGreater(met["UnknownVariable"], 8)


if __name__ == "__main__":
    unittest.main()
