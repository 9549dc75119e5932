"""Readable scripts are read."""

from __future__ import annotations

import unittest
from typing import Optional, Union

from dgraph_shell.faults import BAD_DATA, Trouble
from dgraph_shell.scripts import parse_script
from tests.helpers import script


class Scripts(unittest.TestCase):
    """Readable scripts are read."""

    def refuses(self, text: Union[str, bytes], line: int, *parts: str) -> None:
        """The script is refused at that line, with these parts in the message."""
        data = text.encode() if isinstance(text, str) else text
        with self.assertRaises(Trouble) as caught:
            parse_script(data, "a.dgs")
        message = str(caught.exception)
        self.assertEqual(caught.exception.status, BAD_DATA)
        self.assertTrue(message.startswith(f"a.dgs:{line}: expected "), message)
        for part in parts:
            self.assertIn(part, message)

    def bodies(self, text: str) -> list[Optional[bytes]]:
        """The bodies of a script's requests."""
        return [request.body for request in script(text)]

    def test_requests_have_verbs_arguments_bodies_and_lines(self) -> None:
        requests = script("# one\n\nbegin 1\nmutate 16\n    a\n     b\n\n#\nmovestart a.b 2\nstate")
        self.assertEqual([r.head for r in requests], ["begin 1", "mutate 16", "movestart a.b 2", "state"])
        self.assertEqual([r.body for r in requests], [None, b"a\n b", None, None])
        self.assertEqual([r.line for r in requests], [3, 4, 9, 10])

    def test_nothing_is_no_request(self) -> None:
        for text in ("", "\n", " \t\n\n", "# a", "#\n#"):
            self.assertEqual(script(text), [])

    def test_blanks_that_begin_all_lines_are_taken_away(self) -> None:
        self.assertEqual(self.bodies("query 1\n  a\n    b\n  c\n"), [b"a\n  b\nc"])
        self.assertEqual(self.bodies("query 1\n    a\n  b\n"), [b"  a\nb"])
        self.assertEqual(self.bodies("query 1\n\ta\n\t b\n"), [b"a\n b"])
        self.assertEqual(self.bodies("query 1\n \ta\n  b\n"), [b"\ta\n b"])

    def test_blank_lines_in_a_body_are_empty_lines(self) -> None:
        self.assertEqual(self.bodies("query 1\n\n  a\n \t \n\n  b\n\n\n"), [b"\na\n\n\nb"])

    def test_no_indented_line_is_an_empty_body(self) -> None:
        self.assertEqual(self.bodies("alter\n\n# a\nquery 1"), [b"", b""])

    def test_a_body_keeps_the_ends_of_lines_and_its_own_comments(self) -> None:
        self.assertEqual(self.bodies("alter\n  a: string . \n  # b"), [b"a: string . \n# b"])

    def test_a_line_separator_of_unicode_ends_no_line(self) -> None:
        self.assertEqual(self.bodies("query 1\n  a\u2028b"), ["a\u2028b".encode()])

    def test_verbs(self) -> None:
        self.refuses("begin 1\nfoo 1", 2, "a verb (alter, begin, ", "'foo'")
        self.refuses("Begin 1", 1, "'Begin'; verbs have small letters: `begin`")
        self.refuses("\ufeffbegin 1", 1, r"'\ufeffbegin'")

    def test_counts_of_arguments(self) -> None:
        self.refuses("begin", 1, "`begin SID`", "'begin'")
        self.refuses("begin 1 2", 1, "`begin SID`")
        self.refuses("state 1", 1, "`state`")
        self.refuses("mutate 1 20\n  a", 1, "`mutate SID, and a body below`", "'mutate 1 20', a frame's first line")
        self.refuses("alter 14\nname: string .", 1, "`alter, and a body below`", "no length is written here")

    def test_blanks_in_a_request(self) -> None:
        for line in ("begin  1", "begin 1 ", "state "):
            self.refuses(line, 1, "single spaces", repr(line))

    def test_arguments(self) -> None:
        for sid in ("0", "17", "01", "+1", "a"):
            self.refuses(f"begin {sid}", 1, "a session from 1 to 16, for SID", repr(sid))
        self.refuses("movestart a 17", 1, "a group from 1 to 16, for GROUP", "'17'")
        for name in ("1a", "a.", ".a", "a..b", "a-b", "é", "a" * 65):
            self.refuses(f"roll {name}", 1, "the name of a predicate", repr(name))
        for name in ("a", "_", "a.b.c", "A1_.2", "a" * 64):
            self.assertEqual(script(f"roll {name}")[0].arguments, (name,))

    def test_indented_lines_without_a_verb_that_takes_a_body(self) -> None:
        self.refuses("  a", 1, "a verb or a comment", "'  a'")
        self.refuses("begin 1\n  a", 2, "a verb or a comment")
        self.refuses("query 1\n  a\n# b\n  c", 4, "a verb or a comment")

    def test_mixed_blanks(self) -> None:
        self.refuses("begin 1\nquery 1\n  a\n\n\tb", 5, "' ' at the start of the line", r"'\t'")
        self.refuses("query 1\n\ta\n  b", 3, r"'\t' at the start")

    def test_characters(self) -> None:
        self.refuses("begin 1\r\n", 1, "no control characters", r"'\r' in column 8")
        self.refuses("query 1\n  a\x00", 2, r"'\x00' in column 4")
        self.refuses("# a\n# \x9b", 2, r"'\x9b'")
        self.refuses(b"# a\n# \xff", 2, "UTF-8", "the byte 0xff")

    def test_long_bodies(self) -> None:
        self.assertEqual(len(self.bodies("query 1\n " + "a" * 1048576)[0] or b""), 1048576)
        self.refuses("query 1\n " + "a" * 1048577, 2, "at most 1,048,576 bytes", "1,048,577 bytes")
