"""Frames are made and read, and what is none is told."""

from __future__ import annotations

import re
import textwrap
import unicodedata
import unittest
from pathlib import Path
from typing import Optional

import plain_machine as plain
import random_scripts
from dgraph_shell.faults import BAD_DATA, Trouble
from dgraph_shell.frames import parse_frames, parse_showable
from dgraph_shell.verbs import MAX_INPUT, VERBS
from tests.helpers import EXAMPLES, TOP, frames, some, unframed

# Scripts of others, if they lie beside the repository.
ROWS = TOP.parent / "shared" / "rows"


class Frames(unittest.TestCase):
    """Frames are made and read."""

    def refuses(self, data: bytes, *parts: str) -> None:
        """The frames are refused with these parts in the message."""
        with self.assertRaises(Trouble) as caught:
            parse_showable(data, "a.script")
        self.assertEqual(caught.exception.status, BAD_DATA)
        for part in parts:
            self.assertIn(part, str(caught.exception))

    def test_lengths_are_in_bytes(self) -> None:
        self.assertEqual(frames("alter\n  né\nbegin 1"), b"alter 3\nn\xc3\xa9\nbegin 1\n")
        self.assertEqual(frames("query 1"), b"query 1 0\n\n")

    def test_frames_are_shown(self) -> None:
        data = b"alter 0\n\nbegin 1\nquery 1 7\n\n a\n\nb \nroll a\nstate\n"
        self.assertEqual(unframed(data), "alter\nbegin 1\nquery 1\n\n     a\n\n    b \nroll a\nstate\n")

    def test_each_verb_goes_both_ways(self) -> None:
        words = {"SID": "16", "PRED": "a.b", "GROUP": "2"}
        for verb in VERBS.values():
            head = " ".join([verb.name, *(words[argument.name] for argument in verb.arguments)])
            text = f"{head}\n" + ("    a\n" if verb.has_body else "")
            self.assertEqual(unframed(frames(text)), text)

    def test_bodies_that_can_be_shown_go_both_ways(self) -> None:
        for body in ("", "a", "a ", " a\nb", "\ta\nb", " a\n\tb", "\n\na\n\nb", "#", "é\u2028\u3000", "state"):
            data = b"query 1 %d\n%s\nstate\n" % (len(body.encode()), body.encode())
            self.assertEqual(frames(unframed(data)), data, body)

    def test_a_body_of_blanks_behind_a_word_goes_both_ways(self) -> None:
        data = b"query 1 1048576\n{}" + b" " * 1048574 + b"\n"
        self.assertEqual(frames(unframed(data)), data)

    def test_bodies_that_cant_be_shown(self) -> None:
        for body, reason in (
            (b"a\n", "it ends with a line feed"),
            (b"\n", "it ends with a line feed"),
            (b" ", "it has a line of blanks alone"),
            (b"a\n \t\nb", "it has a line of blanks alone"),
            (b" a", "each of its lines begins with the same blanks"),
            (b"\ta\n\n\tb", "each of its lines begins with the same blanks"),
            (b"a\r\nb", r"it has the control character '\r'"),
            (b"a\x7f", r"it has the control character '\x7f'"),
            (b"a\xff", "it isn't UTF-8 at its byte 1"),
        ):
            data = b"begin 1\nquery 1 %d\n%s\n" % (len(body), body)
            self.refuses(data, "a.script:2: request 2, at byte 8: the body of `query 1` can't be shown", reason)

    def test_headers(self) -> None:
        self.refuses(b"foo\n", "request 1, at byte 0", "a verb", "'foo'")
        self.refuses(b"begin 17\n", "a session from 1 to 16", "'17'")
        self.refuses(b"begin 1", "a line of at most 128 bytes with its line feed")
        self.refuses(b"begin 1" + b" " * 128 + b"\n", "a line of at most 128 bytes")
        self.refuses(b"begin \xff\n", r"'\\xff'")
        for length in (b"", b" 01", b" 1048577", b" -1", b" 1 "):
            self.refuses(b"query 1%s\n" % length, "expected")
        self.refuses(b"query 1 01\na\n", "the length of the body, 0 to 1048576")

    def test_ends_of_bodies(self) -> None:
        self.refuses(b"state\nquery 1 2\n{}x\n", "request 2, at byte 6", "a body of 2 bytes", "b'x'")
        for data in (b"query 1 2\n{}", b"query 1 2\n{", b"query 1 2\n"):
            self.refuses(data, "a line feed behind a body of 2 bytes", "the end of the file")


class Reasons(unittest.TestCase):
    """It is told why bytes are no frame."""

    def reason(self, data: bytes) -> str:
        """What is said of frames."""
        with self.assertRaises(Trouble) as caught:
            parse_frames(data, "a.script")
        return str(caught.exception)

    def test_each_rule_of_a_header(self) -> None:
        for line, expected, found in (
            (b"walk 1\n", "a verb (alter, begin, mutate, query, upsert, commit, discard)", "'walk'"),
            (b"Begin 1\n", "a verb", "'Begin'; verbs have small letters: `begin`"),
            (b"comit 1\n", "a verb", "'comit'; is `commit` meant?"),
            (b" begin 1\n", "a verb", "''"),
            (b"{ q }\n", "a verb", "'{'; a query stands below `query SID`"),
            (b"\n", "a frame's first line", "an empty one: behind a body stands one line feed"),
            (b"begin 1\r\n", "a line that ends in a line feed alone", "a carriage return before it"),
            (b"begin  1\n", "single spaces between words", "'begin  1'"),
            (b"begin 1 \n", "single spaces between words, and none at the end of the line", "'begin 1 '"),
            (b"begin\t1\n", "a verb", r"'begin\t1'; is `begin` meant?"),
            (b"begin\n", "`begin SID`", "'begin'"),
            (b"begin 1 2\n", "`begin SID`", "'begin 1 2'"),
            (b"begin 17\n", "a session from 1 to 16, for SID", "'17'"),
            (b"begin 01\n", "a session from 1 to 16, for SID", "'01'"),
            (b"movestart a 0\n", "a group from 1 to 16, for GROUP", "'0'"),
            (b"roll a-b\n", "the name of a predicate, at most 64 bytes, for PRED", "'a-b'"),
            (b"query 1\n", "`query SID LENGTH`, with the length of the body in bytes", "'query 1'"),
            (b"alter\n", "`alter LENGTH`", "'alter'"),
            (b"query 1 01\na\n", "without a sign or a leading zero", "'query 1 01'"),
            (b"query 1 +1\na\n", "the length of the body, 0 to 1048576", "'query 1 +1'"),
            (b"query 1 1048577\n", "the length of the body, 0 to 1048576", "'query 1 1048577'"),
            (b"begin 2", "a line of at most 128 bytes with its line feed", "the end of the file behind 'begin 2'"),
            (b"roll " + b"a" * 200, "a line of at most 128 bytes", "none in 128 bytes behind 'roll aaa"),
            (b"walk " + b"a" * 200, "a verb", "'walk'"),
        ):
            place = "a.script:2: request 2, at byte 8: expected "
            message = self.reason(b"begin 1\n" + line)
            self.assertTrue(message.startswith(place), message)
            said, _, there = message[len(place) :].partition("; found ")
            self.assertIn(expected, said)
            self.assertTrue(there.startswith(found), message)

    def test_a_length_that_leads_to_no_line_feed(self) -> None:
        short = self.reason(b"query 1 29\n{ q(func: uid(0x1)) { name } }\nbegin 1\n")
        self.assertIn("a line feed behind a body of 29 bytes; found b'}'; a length of 30 leads to a line feed", short)
        long = self.reason(b"mutate 1 9\na .\nb .\nbegin 1\n")
        self.assertIn("of 9 bytes; found b'e'; a length of 7 or 15 leads to a line feed", long)
        cut = self.reason(b"query 1 5\nab\n")
        self.assertIn("found the end of the file behind 3 bytes of it; a length of 2 leads to a line feed", cut)

    def test_too_many_bytes(self) -> None:
        body = b"query 1 1048576\n" + b" " * 1048576 + b"\n"
        message = self.reason(body * (MAX_INPUT // len(body) + 1))
        self.assertIn("a.script:127: request 64, at byte 66061359: expected at most 67,108,864 bytes of input", message)

    def test_the_place_is_the_plain_machines(self) -> None:
        faults = 0
        for number in range(200):
            data = random_scripts.script(number)
            wanted = plain_fault(data)
            faults += wanted is not None
            if wanted is None:
                self.assertTrue(parse_frames(data, "a.script"))
            else:
                self.assertIn(f", at byte {wanted}: expected ", self.reason(data))
        self.assertGreater(faults, 10)


def plain_fault(data: bytes) -> Optional[int]:
    """The byte at which no frame stands whole, by the plain machine."""
    at = 0
    while at < len(data):
        frame = plain.frame_at(data, at)
        if frame is None:
            return at
        at = frame[1]
    return None


class RoundTrips(unittest.TestCase):
    """Frames whose bodies can be shown are the same when they are made again, and others are refused."""

    def check(self, path: Path) -> None:
        """Frames in a file come back, unless a body can't be shown or they are no frames."""
        data = path.read_bytes()
        if not are_showable(data):
            with self.assertRaises(Trouble, msg=path):
                unframed(data)
            return
        text = unframed(data)
        self.assertEqual(frames(text), data, path)
        self.assertEqual(unframed(frames(text)), text, path)

    def test_scripts_of_the_examples(self) -> None:
        for path in some(EXAMPLES.glob("*.script")):
            # A script with a status of its own ends at a bad frame.
            self.assertEqual(are_showable(path.read_bytes()), not path.with_suffix(".status").exists(), path)
            self.check(path)

    def test_readable_scripts_of_the_examples(self) -> None:
        for path in some(EXAMPLES.glob("*.dgs")):
            data = frames(path.read_text(encoding="utf-8"))
            self.assertEqual(frames(unframed(data)), data, path)

    @unittest.skipUnless(ROWS.is_dir(), f"there is no folder {ROWS}")
    def test_rows(self) -> None:
        for path in some(ROWS.glob("*.script")):
            self.check(path)


def are_showable(data: bytes) -> bool:
    """Whether some bytes are frames whose bodies can be shown, read without the tool."""
    plain = r"(?:(?:begin|commit|discard) SID|line|state|movestart PRED SID|(?:roll|move)[a-z]* PRED)"
    header = rf"(?:{plain}|alter(?P<a> \d+)|(?:mutate|upsert|query) SID(?P<b> \d+))\n"
    header = header.replace("SID", r"(?:[1-9]|1[0-6])").replace("PRED", r"[A-Za-z_][\w.]*")
    while data:
        found = re.match(header.encode(), data)
        if not found:
            return False
        data = data[found.end() :]
        length = found["a"] or found["b"]
        if length:
            body, data = data[: int(length)], data[int(length) :]
            if data[:1] != b"\n" or not is_showable(body.decode()):
                return False
            data = data[1:]
    return True


def is_showable(body: str) -> bool:
    """Whether a body can be shown in a readable script."""
    printable = all(c in "\n\t" or unicodedata.category(c) != "Cc" for c in body)
    return printable and textwrap.dedent(body) == body and not body.endswith("\n")
