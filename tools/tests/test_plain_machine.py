"""The plain machine over the example scripts."""

from __future__ import annotations

import unittest

import plain_graph as graph
import plain_machine as plain
import plain_values as values
from tests.helpers import TOP, frames, some

EXAMPLES = sorted(TOP.glob("examples/*.script"))


class Machine(unittest.TestCase):
    def test_the_examples_have_their_replies(self) -> None:
        self.assertTrue(EXAMPLES)
        for example in EXAMPLES:
            with self.subTest(example.name):
                done = plain.run(example.read_bytes())
                said = example.with_suffix(".stderr")
                self.assertEqual(said.exists(), done.fault is not None)
                if said.exists():
                    self.assertEqual(said.read_text(encoding="utf-8"), f"dgraph: bad frame at {done.fault}\n")
                self.assertEqual(b"".join(done.replies), example.with_suffix(".expected").read_bytes())

    def test_the_readable_examples_have_their_replies(self) -> None:
        for example in some(TOP.glob("examples/*.dgs")):
            with self.subTest(example.name):
                done = plain.run(frames(example.read_text(encoding="utf-8")))
                self.assertEqual(b"".join(done.replies), example.with_suffix(".replies").read_bytes())

    def test_where_no_frame_stands_whole(self) -> None:
        begun = b"begin 1\n"
        for rest in (b"begin 2", b"begin  2\n", b"begin 17\n", b"begin 01\n", b"Begin 2\n", b"query 1 3\nabcd", b"\n"):
            self.assertEqual(plain.run(begun + rest).fault, len(begun))
            self.assertEqual(plain.run(begun + rest).replies, [b"ok begin 1 1\n"])
        self.assertIsNone(plain.run(begun + b"alter 0\n\nline\nmovestart x.y 16\n").fault)

    def test_timestamps_end(self) -> None:
        last, end = plain.LAST_TIMESTAMP, plain.LAST_TIMESTAMP + 1
        spent = b"error 28 TimestampsSpent %d\n" % end
        self.assertEqual(plain.run(b"begin 1\nbegin 2\n", last).replies, [b"ok begin 1 %d\n" % last, spent])
        self.assertEqual(plain.run(b"begin 1\nalter 0\n\n", end).replies, [spent, spent])

    def test_moments_have_their_texts(self) -> None:
        for text, shown in {
            "0000-03-01": "0000-03-01T00:00:00Z",
            "1993-05-19t10:20:30.50+01:30": "1993-05-19T08:50:30.5Z",
            "9999-12-31T23:59:59.000000001z": "9999-12-31T23:59:59.000000001Z",
            "2000-02-29T23:30:00-01:00": "2000-03-01T00:30:00Z",
        }.items():
            moment = values.read_moment(text)
            assert moment is not None
            self.assertEqual(values.moment_text(moment), shown)

    def test_what_is_no_moment(self) -> None:
        for text in ("1900-02-29", "0000-01-01T00:00:00+00:01", "2020-01-01T00:00:60Z", "2020-1-01", "٢٠٢٠-01-01"):
            self.assertIsNone(values.read_moment(text))

    def test_tokens_are_the_longest(self) -> None:
        tokens, stop = plain.lex('_:a.b 0x0 "\\u0041" /\\// x.')
        self.assertEqual([token.kind for token in tokens][:6], ["blank", ".", "name", "int", "name", "quoted"])
        self.assertEqual(tokens[5].says, "A")
        self.assertIsNone(stop)
        for text in ("_:" + "a" * 65, "a" * 65, '"\\q"', "!"):
            self.assertEqual(plain.lex("x " + text)[1], 2)


class Tokens(unittest.TestCase):
    """What the tokens of a value say."""

    def said(self, tokenizer: str, text: str) -> list[object]:
        posting = values.read_posting(graph.TOKENIZERS[tokenizer], text)
        assert posting is not None
        return [graph.posting_text(token.value) for token in sorted(graph.tokens_of([tokenizer], posting))]

    def test_whole_texts(self) -> None:
        for tokenizer in ("exact", "hash"):
            for text in ("", "Red Car", "é"):
                self.assertEqual(self.said(tokenizer, text), [f'"{text}"'])

    def test_terms_are_folded_runs(self) -> None:
        for text, terms in {
            "": [],
            "  -_!": [],
            "red Car, RED bus": ["bus", "car", "red"],
            "a_b'c": ["a", "b", "c"],
            "Straße ΣΊΣΥΦΟΣ ΐ İ": ["straße", "İ", "ΐ", "σίσυφοσ"],
            "ẞ ᾈ K": ["k", "ß", "ᾀ"],
            "cafe\u0301 x\u20ddy \u0915\u093e": ["cafe\u0301", "x", "y", "\u0915\u093e"],
            "5½ Ⅷ Ⓐ٣": ["5½", "ⅷ", "ⓐ٣"],
        }.items():
            self.assertEqual(self.said("term", text), [f'"{term}"' for term in terms], text)

    def test_trigrams_are_not_folded(self) -> None:
        self.assertEqual(self.said("trigram", "ab"), [])
        self.assertEqual(self.said("trigram", "aAaAé"), ['"AaA"', '"aAa"', '"aAé"'])

    def test_numbers_and_truths(self) -> None:
        self.assertEqual(self.said("int", "-007"), ["-7"])
        self.assertEqual(self.said("bool", "true"), ["true"])

    def test_moments_are_cut(self) -> None:
        for text, firsts in {
            "1993-05-19T10:20:30.5Z": ("1993-01-01T00", "1993-05-01T00", "1993-05-19T00", "1993-05-19T10"),
            "1969-12-31T23:59:59.9Z": ("1969-01-01T00", "1969-12-01T00", "1969-12-31T00", "1969-12-31T23"),
            "0000-02-29": ("0000-01-01T00", "0000-02-01T00", "0000-02-29T00", "0000-02-29T00"),
            "2000-03-01T00:10:00+01:00": ("2000-01-01T00", "2000-02-01T00", "2000-02-29T00", "2000-02-29T23"),
        }.items():
            for tokenizer, first in zip(("year", "month", "day", "hour"), firsts):
                self.assertEqual(self.said(tokenizer, text), [f'"{first}:00:00Z"'])


class Conflicts(unittest.TestCase):
    """The keys of changes, by the last reply to two sessions that write at once."""

    def last(self, schema: str, first: str, second: str, before: str = "") -> str:
        """The reply to the second commit, behind a commit of what stands before."""
        done = plain.run(frames(f"""alter
    {schema}
begin 1
mutate 1
    {before or '# nothing'}
commit 1
begin 1
begin 2
mutate 1
    {first}
mutate 2
    {second}
commit 1
commit 2
"""))
        self.assertIsNone(done.fault)
        return done.replies[-1].decode().strip()

    def conflict(self, *words: str) -> str:
        """The key in the reply."""
        reply = self.last(*words)
        self.assertRegex(reply, "^error 19 Conflict [0-9]+ ")
        return reply.split(" ", 4)[4]

    def test_data(self) -> None:
        self.assertEqual(self.conflict("p: string .", '<0x1> <p> "a" .', '<0x1> <p> "b" .'), "data p 0x1")
        self.assertEqual(self.conflict("p: [uid] .", "<0x1> <p> <0xAB> .", "<0x1> <p> <0xab> ."), "data p 0x1 0xab")
        self.assertRegex(self.last("p: [string] .", '<0x1> <p> "a" .', '<0x1> <p> "b" .'), "^ok commit 2 ")

    def test_tokens_of_one_subject(self) -> None:
        schema = "p: [string] @index(trigram, term) ."
        key = self.conflict(schema, '<0x1> <p> "Red car" .', '<0x1> <p> "red bus" .')
        self.assertEqual(key, 'index p term "red" 0x1')
        self.assertEqual(self.conflict(schema, '<0x1> <p> "abc" .', '<0x1> <p> "zabc" .'), 'index p trigram "abc" 0x1')
        self.assertRegex(self.last(schema, '<0x1> <p> "abc" .', '<0x2> <p> "abc" .'), "^ok commit 2 ")
        days = "p: [dateTime] @index(hour, year) ."
        self.assertEqual(
            self.conflict(days, '<0x1> <p> "1993-05-19" .', '<0x1> <p> "1993-12-31" .'),
            'index p year "1993-01-01T00:00:00Z" 0x1',
        )

    def test_a_token_counts_also_where_no_list_changes(self) -> None:
        schema, before = "p: [string] @index(term) .", '<0x1> <p> "a b" . <0x1> <p> "a c" .'
        first, second = '{ delete { <0x1> <p> "a b" . } }', '{ delete { <0x1> <p> "a c" . } }'
        self.assertEqual(self.conflict(schema, first, second, before), 'index p term "a" 0x1')
        gone = '{ delete { <0x1> <p> "a d" . } }'
        self.assertEqual(self.conflict(schema, first, gone, before), 'index p term "a" 0x1')

    def test_upserts_meet_over_subjects(self) -> None:
        schema = "p: int @index @upsert ."
        self.assertEqual(self.conflict(schema, '<0x1> <p> "7" .', '<0x2> <p> "+07" .'), "index p int 7")
        # A key of data comes before those of an index, and of these one without a subject before those with one.
        self.assertEqual(self.conflict(schema, '<0x1> <p> "7" .', '<0x1> <p> "7" .'), "data p 0x1")
        lists = "p: [string] @index(term) @upsert ."
        self.assertEqual(self.conflict(lists, '<0x1> <p> "a b" .', '<0x1> <p> "a b" .'), 'data p 0x1 "a b"')
        self.assertEqual(self.conflict(lists, '<0x1> <p> "a b" .', '<0x1> <p> "b c" .'), 'index p term "b"')
        # What a set takes away is touched.
        self.assertEqual(
            self.conflict(schema, '<0x1> <p> "8" .', '<0x2> <p> "7" .', '<0x1> <p> "7" .'), "index p int 7"
        )
        # Also where the request before it has set it.
        self.assertEqual(
            self.conflict(schema, '<0x1> <p> "7" . <0x1> <p> "8" .', '<0x2> <p> "8" .', '<0x1> <p> "9" .'),
            "index p int 8",
        )

    def test_the_order_of_tokens(self) -> None:
        schema = "p: [string] @index(trigram, hash, term, exact) @upsert ."
        self.assertEqual(self.conflict(schema, '<0x1> <p> "abc" .', '<0x2> <p> "abc" .'), 'index p exact "abc"')
        self.assertEqual(self.conflict(schema, '<0x1> <p> "abc" .', '<0x2> <p> "ABC abc" .'), 'index p term "abc"')

    def test_counts(self) -> None:
        self.assertEqual(self.conflict("p: [uid] @count .", "<0x1> <p> <0x2> .", "<0x1> <p> <0x3> ."), "count p 0x1")
        self.assertRegex(self.last("p: [uid] @count .", "<0x1> <p> <0x3> .", "<0x2> <p> <0x3> ."), "^ok commit 2 ")
        both = "p: [uid] @reverse @count ."
        self.assertEqual(self.conflict(both, "<0x1> <p> <0x3> .", "<0x2> <p> <0x3> ."), "rcount p 0x3")
        self.assertRegex(self.last("p: [uid] @reverse .", "<0x1> <p> <0x3> .", "<0x2> <p> <0x3> ."), "^ok commit 2 ")
        # The node that a set takes away is touched.
        single = "p: uid @reverse @count ."
        self.assertEqual(
            self.conflict(single, "<0x1> <p> <0x4> .", "<0x2> <p> <0x3> .", "<0x1> <p> <0x3> ."), "rcount p 0x3"
        )

    def test_kinds_come_before_predicates(self) -> None:
        schema = "a: uid @reverse @count . b: [int] @index ."
        first = "<0x1> <a> <0x3> . <0x1> <b> \"5\" ."
        self.assertEqual(self.conflict(schema, first, '<0x2> <a> <0x3> . <0x1> <b> "5" .'), "data b 0x1 5")

    def test_directives_change_over_data(self) -> None:
        done = plain.run(frames("""alter
    p: int @index @upsert .
begin 1
mutate 1
    <0x1> <p> "7" .
commit 1
alter
    p: int .
begin 1
begin 2
mutate 1
    <0x2> <p> "7" .
mutate 2
    <0x3> <p> "7" .
commit 1
commit 2
alter
    p: int @upsert @index .
begin 1
begin 2
mutate 1
    <0x4> <p> "7" .
mutate 2
    <0x5> <p> "7" .
commit 1
commit 2
alter
    p: [int] @upsert @index .
"""))
        lines = [reply.split(b"\n")[0].decode() for reply in done.replies]
        self.assertEqual(lines[10], "ok commit 2 10")
        self.assertEqual(lines[-2:], ["error 19 Conflict 15 index p int 7", "error 22 HasData p"])
