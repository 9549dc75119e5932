"""Tests of rows_text.py over answers written by hand, and of what is stored beside the rows of table_text."""

from __future__ import annotations

import unittest
from pathlib import Path

import rows_text as rows

TABLE = Path(__file__).resolve().parents[2] / "crates" / "table_text"

# Rows and what they want, by hand from the grammars.
BY_HAND = {
    'tokens\tname.x -12 0x1F "a\\"b" <a:b>': "Name 0..6, Int 7..10, Uid 11..15, Quoted 16..22, Iri 23..28",
    "tokens\t_:b1 @lang /a\\/b/i ^^ * # end": "Blank 0..4, At 5..10, Regex 11..18, Caret 19..21, * 22..23",
    "tokens\ta.b. 0x0": "Name 0..3, . 3..4, Int 5..6, Name 6..8",
    "tokens\t# $␊\"open": "no token starts at byte 4",
    "front\ta $b": "Name 0..1 | end 2",
    "pieces\t<p>: @x": "Iri at 0 p, : at 3 :, At at 5 @x",
    'says\t"ü\\t\\u00e9\\U0001F600"': '"ü␉é😀"',
    "name\t3\tab cd": "2 bytes",
    "next\t2\t:\ta": "the end; next name false at false sign false; left 0; fault with 0 left",
    "schema\ta: int @index .␊b: [uid] @count .": "a Int [Int];b Uid list [] count;",
    "schema\t<a.b>␊: int @upsert @count .": "no schema by line 1",
    "schema\ta: string @index(exact,␊) .": "no schema by line 2",
    "printed\tb: int .␊a: datetime @index .": "a: dateTime @index(year) .␊b: int .␊",
    'mutation\t_:a <p> "x"^^<xs:date> _:l .': 'set _:a p "x"^^Time.',
    "mutation\t{ delete { <0x1F> p * . } }": "delete 0x1f p *.",
    'mutation\t<0x1> p "a"^^<xs:float> .': "no mutation by byte 13",
    'mutation\t<0x0> <1a> * ?': "no token starts at byte 13",
    'cut\t<0x1> "é" .': "T0 T0 T0 T0 S5 S6 T6 - T6 S6 S6 end",
    "tree\tint -1\ttext \"\tarray 2\tfield q": '{"data":{"q":[-1,"\\""]}}',
    "size\tlong 16777200\tfield": "16777216 bytes",
    "size\tlong 16777201\tfield": "the answer is too large",
    "fault\tSchemaFault::SchemaSyntax": "no schema by line 7",
}


class Rows(unittest.TestCase):
    def test_rows_have_the_answers_written_by_hand(self) -> None:
        for row, want in BY_HAND.items():
            with self.subTest(row):
                self.assertEqual(list(rows.answers(iter([row]))), [f"{row} => {want}"])

    def test_calls_go_on_from_row_to_row(self) -> None:
        calls = ["with\ta: int . b: int .", "lay aside", "with\tc: uid . a: bool .", "put on aside", "lookup aside\ta"]
        want = ["a Int [];b Int [];", "none", "c Uid [];a Bool [];", "a Bool [];b Int [];c Uid [];", "a Int []"]
        answers = rows.answers(iter(f"held\t{call}" for call in calls))
        self.assertEqual([answer.split(" => ")[1] for answer in answers], want)

    def test_what_is_unreadable(self) -> None:
        for row in ("", "# schema"):
            self.assertEqual(list(rows.answers(iter([row]))), [])
        for row in ("shema\ta", "says\ta", "tree\tint 1", "tree\tfield q", "held\tcall", "fault\tOther"):
            self.assertEqual(list(rows.answers(iter([row]))), [f"? {row}"])

    def test_behind_the_benchmark_no_row_is_read(self) -> None:
        given = ["section bench", "name\t3\tab cd", "section bench"]
        wanted = ["? name\t3\tab cd", "? section bench"]
        self.assertEqual(list(rows.answers(iter(given)))[6:], wanted)

    def test_the_stored_answers_are_these(self) -> None:
        given = (TABLE / "stdin").read_text("utf-8").split("\n")
        self.assertEqual("".join(f"{line}\n" for line in rows.answers(iter(given))), (TABLE / "stdout").read_text("utf-8"))


if __name__ == "__main__":
    unittest.main()
