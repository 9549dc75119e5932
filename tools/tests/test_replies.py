"""Replies are read, and refusals told in words."""

from __future__ import annotations

import io
import re
import unittest
from typing import Optional, Union

import plain_machine as plain
from dgraph_shell.faults import NO_REPLY, Trouble
from dgraph_shell.meanings import MEANINGS, says, what_next
from dgraph_shell.spots import Spot, spot_of
from dgraph_shell.replies import Refusal, Reply, read_reply
from dgraph_shell.verbs import VERBS, Request, request_of
from tests.helpers import reply


class Replies(unittest.TestCase):
    """Replies are read."""

    def test_lines_and_bodies(self) -> None:
        stream = io.BytesIO(b"ok alter 1 2\nok query 1 3\na\nb\nok state 0\n\nerror 2 SessionOpen 1\n")
        replies = list(iter(lambda: read_reply(stream), None))
        self.assertEqual([r.body for r in replies], [None, b"a\nb", b"", None])
        self.assertEqual([r.is_ok for r in replies], [True, True, True, False])
        heads = ["ok alter 1 2", "ok query 1", "ok state", "error 2 SessionOpen 1"]
        self.assertEqual([r.head for r in replies], heads)
        self.assertEqual(b"".join(r.written() for r in replies), stream.getvalue())

    def test_which_replies_have_bodies(self) -> None:
        with_bodies = [verb.name for verb in VERBS.values() if verb.answers_body]
        self.assertEqual(with_bodies, ["mutate", "query", "upsert", "state"])

    def test_what_is_no_reply(self) -> None:
        for data, part in (
            (b"hello\n", "no reply begins with b'hello'"),
            (b"ok\n", "no reply"),
            (b"ok foo 1\n", "no reply"),
            (b"ok alter 1 2", "is cut short"),
            (b"ok query 1 x\n", "doesn't end with the length"),
            (b"ok query 1 3\nab", "isn't followed by its body"),
            (b"ok query 1 1\nabc\n", "isn't followed by its body"),
        ):
            with self.assertRaises(Trouble) as caught:
                reply(data)
            self.assertEqual(caught.exception.status, NO_REPLY)
            self.assertIn(part, str(caught.exception))


class Refusals(unittest.TestCase):
    """Refusals are told in words."""

    def meaning(self, line: str) -> str:
        """The meaning of a refusal's line."""
        refusal = Refusal.of(Reply(line.encode()))
        assert refusal
        return says(refusal)

    def test_each_number_has_a_meaning(self) -> None:
        numbers = [*range(1, 21), *range(22, 33), 98, 99]
        self.assertEqual(list(MEANINGS), numbers)

    def test_fields_stand_in_the_meaning(self) -> None:
        self.assertIn("session 3 has no", self.meaning("error 1 NoSession 3"))
        self.assertIn("age isn't declared with what `ge` needs", self.meaning("error 9 NotIndexed age ge"))
        self.assertIn("not -33", self.meaning("error 12 BadDepth -33"))
        self.assertIn("the phase `none`", self.meaning("error 26 NotMoving name none"))
        self.assertIn("group 1 keeps an old copy of name until the line stands at timestamp 6",
                      self.meaning("error 32 OldCopy name 1 6"))
        self.assertEqual(MEANINGS[98].says, self.meaning("error 98 Unbuilt"))

    def test_a_key_may_have_blanks_and_braces(self) -> None:
        meaning = self.meaning('error 19 Conflict 7 index tag term "a {0} b" 0x1')
        self.assertIn('`index tag term "a {0} b" 0x1`', meaning)
        self.assertIn("the commit at timestamp 7 ", meaning)

    def test_what_a_key_is(self) -> None:
        for key, note in {
            'index slug exact "a"': "` too (a token of values of both), so",
            "count friend 0x1": "` too (how many objects a node has), so",
            "rcount friend 0x1": "` too (how many nodes point to a node), so",
            "data index 0x1": "` too, so",
        }.items():
            self.assertIn(f"`{key}{note}", self.meaning(f"error 19 Conflict 7 {key}"))

    def next(self, line: str, request: Request) -> str:
        """What to do next after a refusal of that request."""
        refusal = Refusal.of(Reply(line.encode()))
        assert refusal
        return what_next(refusal, request)

    def test_each_number_says_what_to_do_next(self) -> None:
        for number, meaning in MEANINGS.items():
            self.assertTrue(meaning.says and meaning.next, number)
            fields = " ".join("abc"[: len(set(re.findall(r"\{[0-9]\}", meaning.says)))])
            then = self.next(f"error {number} Name {fields}".strip(), request_of("commit", "7"))
            self.assertTrue(then, number)
            self.assertNotRegex(then, r"\{(?:[0-9]|SID|FORM)\}")

    def test_what_to_do_next_names_what_was_asked(self) -> None:
        self.assertEqual(self.next("error 1 NoSession 2", request_of("commit", "2")), "`begin 2` opens one")
        conflict = self.next("error 19 Conflict 5 data name 0x1", request_of("commit", "2"))
        self.assertIn("from `begin 2` on", conflict)
        self.assertIn("`name: string .`", self.next("error 13 NoPredicate name", request_of("mutate", "1", body=b"")))
        self.assertIn("as in `<0x1> <name>", self.next("error 4 BadSyntax 3", request_of("mutate", "1", body=b"a")))

    def test_directives_are_told_of_where_one_stands(self) -> None:
        body = b"a: int .\nb: string @index .\n"
        request = request_of("alter", body=body)
        self.assertIn("exact, hash, term or trigram", self.next("error 27 SchemaSyntax 2", request))
        self.assertIn("`NAME: KIND .`", self.next("error 27 SchemaSyntax 1", request))

    def test_tips_by_what_stands_at_the_spot(self) -> None:
        for body, at, part in (
            (b'<0x1> <a> "x .', 10, 'close the text with `"`'),
            (b"<0x1> <a> 'x' .", 10, 'write texts between `"`'),
            (b"<0x1> <a b> .", 6, "between `<` and `>` stand no blanks"),
            (b"<0x1> " + b"a" * 65, 6, "64 letters"),
            (b"<0x1> <a> ! .", 10, "leave it out"),
            (b"<0x1> <a> * .", 10, "in a delete alone"),
            (b'<0x1> <a> "1"^^<xs:float> .', 15, "a text's type is xs:string"),
            (b"<0x0> <a> <0x2> .", 0, "a node is `<0x1>` to `<0x3fffffffffffffff>`"),
            (b"{ delete { _:b <a> * . } }", 11, "not in a delete"),
            (b"<http://x/y> <a> <0x1> .", 0, "no other IRI"),
            (b'<0x1> <a> "x"@en .', 13, "leave it out: texts have no languages yet"),
            (b"<0x1> <a> 3 .", 10, "write a number between quotes"),
            (b"<0x1> <a> ~ .", 10, "write it as in `<0x1>"),
            (b"<0x1> <a>", 9, "write it as in `<0x1>"),
        ):
            # What the plain machine says of it.
            with self.assertRaises(plain.Refusal) as caught:
                plain.MutationReader(body.decode()).read()
            refusal = Refusal.of(Reply(caught.exception.line.encode()))
            assert refusal
            self.assertEqual(refusal.fields, str(at), body)
            self.assertIn(part, what_next(refusal, request_of("mutate", "1", body=body)), body)

    def test_where_nothing_stands_before(self) -> None:
        refusal = Refusal.of(Reply(b"error 4 BadSyntax 1"))
        assert refusal
        self.assertEqual(says(refusal, request_of("mutate", "1", body=b" * .")), "nothing can begin with this")
        self.assertEqual(says(refusal, request_of("mutate", "1", body=b"a* .")), MEANINGS[4].says)

    def test_a_literal_of_a_query_may_be_a_pattern(self) -> None:
        refusal = Refusal.of(Reply(b"error 10 BadLiteral age"))
        assert refusal
        self.assertEqual(says(refusal, request_of("mutate", "1", body=b"")), "a value doesn't read as what age takes")
        asked = request_of("query", "1", body=b"{ q(func: regexp(age, /(/)) { uid } }")
        self.assertIn("or a pattern is none", says(refusal, asked))
        self.assertIn("`/\\(/`", what_next(refusal, asked))

    def test_forms_that_are_built_are_shown_where_one_isnt(self) -> None:
        built = "built are alter, begin SID, mutate SID, query SID, upsert SID, commit SID, discard SID"
        for request in (request_of("line"), request_of("movecopy", "a"), request_of("roll", "a")):
            self.assertEqual(self.next("error 98 Unbuilt", request), built)

    def test_a_byte_that_is_no_text(self) -> None:
        refusal = Refusal.of(Reply(b"error 3 BadToken 1"))
        assert refusal
        self.assertEqual(says(refusal, request_of("mutate", "1", body=b"a\xff")), "the body isn't UTF-8 here")
        self.assertEqual(says(refusal, request_of("mutate", "1", body=b"a!")), MEANINGS[3].says)

    def test_what_isnt_known_has_no_meaning(self) -> None:
        self.assertEqual(self.meaning("error 77 Other 1"), "")
        self.assertEqual(self.meaning("error 1 NoSession"), "")
        self.assertIsNone(Refusal.of(Reply(b"error")))
        self.assertIsNone(Refusal.of(Reply(b"ok line 1")))


class Spots(unittest.TestCase):
    """Spots in bodies are marked."""

    def spot(self, line: str, body: Union[str, bytes, None]) -> Optional[Spot]:
        """The spot that a refusal of a request with that body names."""
        refusal = Refusal.of(Reply(line.encode()))
        assert refusal
        return spot_of(refusal, body.encode() if isinstance(body, str) else body)

    def marks(self, line: str, body: str) -> list[str]:
        """The line and the mark below it."""
        spot = self.spot(line, body)
        assert spot
        return spot.lines()

    def test_offsets(self) -> None:
        body = "{ q(func: uid(0x1)) }"
        self.assertEqual(self.marks("error 4 BadSyntax 20", body), [body, " " * 20 + "^"])
        self.assertEqual(self.marks("error 3 BadToken 0", body), [body, "^"])
        self.assertEqual(self.marks("error 5 TooDeep 2", "a\nb\nc"), ["b", "^"])
        self.assertEqual(self.marks("error 5 TooDeep 1", "a\nb\nc"), ["a", " ^"])

    def test_the_end_of_a_body(self) -> None:
        for body, line, before in (("{", 1, 1), ("a\nbc", 2, 2), ("", 1, 0)):
            spot = self.spot(f"error 4 BadSyntax {len(body)}", body)
            assert spot
            self.assertEqual((spot.line, spot.before, spot.is_end), (line, before, True))

    def test_characters_of_several_bytes(self) -> None:
        spot = self.spot("error 3 BadToken 8", 'a\n"éé" !')
        assert spot
        self.assertEqual((spot.line, spot.before), (2, 4))
        self.assertEqual(self.marks("error 3 BadToken 9", 'a\n"éé" !'), ['"éé" !', "     ^"])

    def test_wide_and_narrow_characters(self) -> None:
        self.assertEqual(self.marks("error 3 BadToken 7", "日本 !"), ["日本 !", "     ^"])
        self.assertEqual(self.marks("error 3 BadToken 0", "日"), ["日", "^^"])
        self.assertEqual(self.marks("error 3 BadToken 3", "e\u0301!"), ["e\u0301!", " ^"])

    def test_long_lines_are_cut(self) -> None:
        body = "".join(chr(ord("a") + n % 26) for n in range(200))
        for offset, wanted in (
            (0, [body[:72] + "...", "^"]),
            (100, ["..." + body[64:136] + "...", " " * 39 + "^"]),
            (200, ["..." + body[164:], " " * 39 + "^"]),
        ):
            self.assertEqual(self.marks(f"error 3 BadToken {offset}", body), wanted)
        self.assertEqual(self.marks("error 27 SchemaSyntax 1", body), [body[:72] + "...", "^" * 72])

    def test_tabs_are_kept(self) -> None:
        self.assertEqual(self.marks("error 3 BadToken 3", "\ta\t!"), ["\ta\t!", "\t \t^"])

    def test_lines_of_schemas(self) -> None:
        body = "name: string .\n  age int .\n"
        self.assertEqual(self.marks("error 27 SchemaSyntax 2", body), ["  age int .", "  ^^^^^^^^^"])
        self.assertEqual(self.marks("error 27 SchemaSyntax 3", body), ["", "^"])

    def test_what_has_no_spot(self) -> None:
        self.assertIsNone(self.spot("error 4 BadSyntax 2", "a"))
        self.assertIsNone(self.spot("error 4 BadSyntax 0", None))
        self.assertIsNone(self.spot("error 4 BadSyntax x", "a"))
        self.assertIsNone(self.spot("error 27 SchemaSyntax 0", "a"))
        self.assertIsNone(self.spot("error 27 SchemaSyntax 2", "a"))
        self.assertIsNone(self.spot("error 20 Pending 0", "a"))
