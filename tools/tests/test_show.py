"""Requests and replies are shown."""

from __future__ import annotations

import io
import os
import unittest
from unittest import mock

from dgraph_shell.meanings import ENDS_EARLY
from dgraph_shell.show import Paint, Progress, View, cell_of, has_rows, tables_of, wants_colour
from tests.helpers import Terminal, reply, script


class Showing(unittest.TestCase):
    """Requests and replies are shown."""

    def shown(self, text: str, answer: bytes, table: bool = False, colour: bool = False) -> str:
        """What is shown for the first request of a script and its reply."""
        view = View(io.StringIO(), Paint(colour), table)
        request, answered = script(text)[0], reply(answer)
        assert answered
        view.show_request(request)
        view.show_reply(request, answered, "a.dgs")
        return view.out.getvalue()

    def test_a_request_and_its_reply(self) -> None:
        self.assertEqual(self.shown("begin 1", b"ok begin 1 3\n"), "> begin 1\nok begin 1 3\n")
        self.assertEqual(
            self.shown("mutate 1\n  a\n  b", b'ok mutate 1 11\n{"uids":{}}\n'),
            '> mutate 1\n    a\n    b\nok mutate 1\n    {\n      "uids": {}\n    }\n',
        )

    def test_a_refusal_and_its_place(self) -> None:
        self.assertEqual(
            self.shown("# a\nquery 1\n  {\n    é }", b"error 4 BadSyntax 7\n"),
            "> query 1\n    {\n      é }\nerror 4 BadSyntax 7\n"
            "    line 2, column 5 of the body (a.dgs:4): this doesn't go on with what stands before it\n"
            "    |   é }\n    |     ^\n"
            "    next: write it as in `{ q(func: uid(0x1)) { name } }`\n",
        )

    def test_a_refusal_at_the_end(self) -> None:
        shown = self.shown("query 1\n  {", b"error 4 BadSyntax 1\n")
        self.assertIn(f"line 1, column 2 of the body (a.dgs:2): {ENDS_EARLY}\n    | {{\n    |  ^\n", shown)

    def test_a_refusal_of_a_line(self) -> None:
        shown = self.shown("alter\n  a: b", b"error 27 SchemaSyntax 1\n")
        self.assertIn("    line 1 of the body (a.dgs:2): no definition can be read here\n    | a: b\n", shown)

    def test_a_refusal_without_a_place_or_a_meaning(self) -> None:
        shown = self.shown("begin 1", b"error 2 SessionOpen 1\n")
        self.assertIn("error 2 SessionOpen 1\n    session 1 has an open transaction already", shown)
        self.assertEqual(self.shown("begin 1", b"error 77 Other\n"), "> begin 1\nerror 77 Other\n")

    def test_bodies_that_arent_json(self) -> None:
        self.assertEqual(self.shown("state", b"ok state 14\nnext 7\nline 0\n\n"),
                         "> state\nok state\n    next 7\n    line 0\n")
        self.assertEqual(self.shown("state", b"ok state 0\n\n"), "> state\nok state\n")

    def test_control_characters_are_escaped(self) -> None:
        shown = self.shown("state", b"ok state 6\n\x1b[31m\xff\n")
        self.assertIn("    \\u001b[31m\\xff\n", shown)

    def test_tables(self) -> None:
        body = '{"data":{"q":[{"name":"Ann","age":30},{"age":5,"tags":["a","b"],"name":"日本"},{"name":""}],"t":[]}}'
        answer = b"ok query 1 %d\n%s\n" % (len(body.encode()), body.encode())
        self.assertEqual(
            self.shown("query 1", answer, table=True).split("\n")[2:],
            [
                "    q: 3 rows",
                "        name  age  tags",
                "        ----  ---  ---------",
                "        Ann   30",
                '        日本  5    ["a","b"]',
                '        ""',
                "    t: 0 rows",
                "",
            ],
        )

    def test_tables_of_nested_objects(self) -> None:
        rows = [
            {"name": "Ann", "friend": [{"name": "Bob", "boss": {"uid": "0x9"}}, {"name": "Cid"}], "tags": ["a"], "~friend": [{"count": 1}]},
            {"name": "Dan", "friend": [{"count": 0}]},
        ]
        self.assertEqual(
            tables_of({"q": rows}),
            [
                "q: 2 rows",
                "    name  friend.count  friend.name  friend.boss.uid  tags   ~friend.count",
                "    ----  ------------  -----------  ---------------  -----  -------------",
                '    Ann                 Bob          0x9              ["a"]  1',
                "                        Cid",
                "    Dan   0",
            ],
        )

    def test_a_table_has_a_column_a_key_in_the_order_of_the_query(self) -> None:
        rows = [{"uid": "0x1", "age": 30}, {"uid": "0x2", "name": "Bob", "age": -4, "tags": ["a", "b"]}]
        self.assertEqual(tables_of({"q": rows, "r": [{"age": 1}, {"name": "", "age": 2}]}), [
            "q: 2 rows",
            "    uid  name  age  tags",
            "    ---  ----  ---  ---------",
            "    0x1        30",
            '    0x2  Bob   -4   ["a","b"]',
            "r: 2 rows",
            "    name  age",
            "    ----  ---",
            "          1",
            '    ""    2',
        ])

    def test_cells(self) -> None:
        self.assertEqual([cell_of(v) for v in ("a\nb\tc\x7f", True, 2**70, {"a": "é"})],
                         ["a\\nb\\tc\\u007f", "true", str(2**70), '{"a":"é"}'])
        self.assertEqual(tables_of({"q": [{}]}), ["q: 1 row", "    ", "    ", "    "])

    def test_what_has_no_rows_is_shown_as_json(self) -> None:
        shown = self.shown("mutate 1", b'ok mutate 1 11\n{"uids":{}}\n', table=True)
        self.assertIn('    {\n      "uids": {}\n    }\n', shown)
        for value in ([], {"data": []}, {"data": {"q": 1}}, {"data": {"q": [1]}}):
            self.assertFalse(has_rows(value))

    def test_colours(self) -> None:
        self.assertEqual(self.shown("begin 1", b"ok begin 1 3\n", colour=True),
                         "\x1b[1m> begin 1\x1b[0m\n\x1b[32mok begin 1 3\x1b[0m\n")
        self.assertIn("\x1b[31merror 98 Unbuilt\x1b[0m\n", self.shown("state", b"error 98 Unbuilt\n", colour=True))

    def test_where_colours_are_wanted(self) -> None:
        for environment, stream, plain, wanted in (
            ({}, Terminal(), False, True),
            ({"NO_COLOR": ""}, Terminal(), False, True),
            ({"NO_COLOR": "1"}, Terminal(), False, False),
            ({"TERM": "dumb"}, Terminal(), False, False),
            ({}, Terminal(), True, False),
            ({}, io.StringIO(), False, False),
        ):
            with mock.patch.dict(os.environ, environment, clear=True):
                self.assertIs(wants_colour(stream, plain), wanted)

    def test_progress(self) -> None:
        for total, out, wanted in (
            (200, io.StringIO(), ""),
            (200, Terminal(), ""),
            (400, io.StringIO(), "".join(f"request {n} of 400\n" for n in range(40, 401, 40))),
            (201, Terminal(), "".join(f"request {n} of 201\r\x1b[K" for n in range(1, 202))),
        ):
            progress = Progress(total, out)
            for number in range(1, total + 1):
                progress.tell(number)
                progress.clear()
            self.assertEqual(out.getvalue(), wanted)
