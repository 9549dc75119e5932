"""Upsert blocks in the plain machine, by hand."""

from __future__ import annotations

import unittest

import plain_machine as plain
import rows_upserts
from plain_queries import Fault
from plain_upserts import read_upsert, uses_of
from tests.helpers import TOP, frames

DATA = """
alter
    name: string @index(exact) . age: int . ok: bool . born: dateTime . tags: [string] . friend: [uid] . boss: uid .
begin 1
mutate 1
    <0x1> <name> "Ann" . <0x2> <name> "Bob" . <0x1> <age> "7" . <0x2> <age> "-3" . <0x1> <ok> "true" . <0x1> <born> "1993-05-19" .
"""
NONE = "v as var(func: uid(0x1), first: 0) { } w as var(func: uid(0x1), first: 0) { }"


def framed(request: str, body: str) -> bytes:
    return b"%s %d\n%s\n" % (request.encode(), len(body.encode()), body.encode())


class Upserts(unittest.TestCase):
    def replies(self, query: str, mutations: str, asked: str = "") -> list[str]:
        """What is said behind the first line of the replies to an upsert block and a query, or their refusals."""
        script = frames(DATA) + framed("upsert 1", f"upsert {{ query {{ {query} }} {mutations} }}")
        script += framed("query 1", f"{{ {asked} }}") if asked else b""
        said = [reply.decode().rstrip("\n").partition("\n") for reply in plain.run(script).replies[3:]]
        return [behind or line for line, _, behind in said]

    def says(self, query: str, mutations: str, uids: str, asked: str = "", data: str = "") -> None:
        """The block makes these nodes, and the query then shows these data."""
        wanted = [f'{{"uids":{{{uids}}}}}'] + ([f'{{"data":{{{data}}}}}'] if asked else [])
        self.assertEqual(self.replies(query, mutations, asked), wanted, (query, mutations))

    def refused(self, query: str, mutations: str, refusal: str) -> None:
        self.assertEqual(self.replies(query, mutations), [f"error {refusal}"], (query, mutations))

    def test_comparisons_of_the_number_of_nodes(self) -> None:
        for word, numbers in {"eq": [2], "le": [2, 3], "lt": [3], "ge": [1, 2], "gt": [1]}.items():
            for number in (1, 2, 3):
                for nots, holds in (("", number in numbers), ("nOt ", number not in numbers), ("not NOT ", number in numbers)):
                    condition = f"{nots}{word}(len(v), {number})"
                    self.says("v as var(func: has(name)) { }", f'mutation @if({condition}) {{ set {{ _:a <name> "x" . }} }}',
                              '"a":"0x3"' if holds else "")

    def test_joints_and_brackets(self) -> None:
        yes, no = "eq(len(v), 2)", "eq(len(v), 0)"
        for condition, holds in {
            f"{yes} and {no}": False,
            f"{yes} OR {no} aNd {no}": True,
            f"({yes} or {no}) AND {no}": False,
            f"not ({yes} And {no})": True,
            f"not {yes} or not {no}": True,
            f"(((not ({yes}))))": False,
        }.items():
            self.says("v as var(func: has(name)) { }", f'mutation @if({condition}) {{ set {{ _:a <name> "x" . }} }}',
                      '"a":"0x3"' if holds else "")

    def test_values_count_as_nodes(self) -> None:
        for field, number in {"age": 2, "ok": 1, "nope": 0, "count(friend)": 2}.items():
            self.says(f"var(func: has(name)) {{ x as {field} }}", f'mutation @if(eq(len(x), {number})) {{ set {{ _:a <name> "x" . }} }}', '"a":"0x3"')

    def test_a_new_node_is_one_in_the_whole_request(self) -> None:
        self.says(NONE, 'mutation { set { uid(v) <friend> uid(v) . } } mutation { set { uid(v) <name> "x" . } }', '"uid(v)":"0x3"',
                  "q(func: has(friend)) { uid name friend { uid } }", '"q":[{"uid":"0x3","name":"x","friend":[{"uid":"0x3"}]}]')
        self.says(NONE, "mutation { set { uid(w) <friend> uid(v) . _:v <friend> uid(w) . } }", '"uid(v)":"0x4","uid(w)":"0x3","v":"0x5"')

    def test_a_delete_makes_no_node(self) -> None:
        self.says(NONE, 'mutation { delete { uid(v) <name> * . <0x9> <friend> uid(v) . uid(v) <nope> "x" . } set { _:a <name> "a" . } }', '"a":"0x3"')

    def test_each_node_in_turn(self) -> None:
        self.says("v as var(func: has(name), orderdesc: name) { }", "mutation { set { <0x9> <boss> uid(v) . uid(v) <friend> uid(v) . } }", "",
                  "q(func: uid(0x9, 0x1)) { uid boss { uid } friend { uid } }",
                  '"q":[{"uid":"0x1","friend":[{"uid":"0x1"},{"uid":"0x2"}]},{"uid":"0x9","boss":{"uid":"0x2"}}]')

    def test_values_of_the_subject(self) -> None:
        self.says("var(func: has(name)) { x as age y as ok z as born }",
                  "mutation { set { uid(x) <tags> val(x) . uid(x) <tags> val(y) . <0x1> <tags> val(z) . <0x9> <tags> val(x) . _:a <tags> val(x) . } }", "",
                  "q(func: has(tags)) { uid tags }",
                  '"q":[{"uid":"0x1","tags":["1993-05-19T00:00:00Z","7","true"]},{"uid":"0x2","tags":["-3"]}]')
        self.says(f"{NONE} var(func: has(name)) {{ x as age }}", "mutation { set { uid(v) <age> val(x) . } }", "")

    def test_a_variable_stands_for_what_it_was_before(self) -> None:
        self.says('v as var(func: eq(name, "Cid")) { }',
                  'mutation @if(eq(len(v), 0)) { set { <0x1> <name> "Cid" . } } mutation @if(eq(len(v), 0)) { set { uid(v) <name> "Dee" . } }',
                  '"uid(v)":"0x3"', "q(func: has(name)) { name }", '"q":[{"name":"Cid"},{"name":"Bob"},{"name":"Dee"}]')

    def test_mutations_go_in_the_order_of_the_text(self) -> None:
        for first, second in (("eq", "le"), ("le", "eq")):
            one, other = (f'mutation @if({word}(len(v), 2)) {{ set {{ <0x1> <name> "{word}" . }} }}' for word in (first, second))
            self.says("v as var(func: has(name)) { }", f"{one} {other}", "", "q(func: uid(0x1)) { name }", f'"q":[{{"name":"{second}"}}]')

    def test_refusals(self) -> None:
        great = "v as var(func: uid(0x4000000000000000)) { }"
        for query, mutation, refusal in (
            ("", "set { uid(v) <nope> <0x2> . }", "6 UnknownVariable v"),
            ("v as var(func: has(name)) { }", "set { uid(v) <name> val(v) . }", "6 UnknownVariable v"),
            ("v as q(func: ge(age, 1)) { }", "set { uid(v) <nope> <0x2> . }", "9 NotIndexed age ge"),
            ("v as var(func: has(name)) { }", "set { uid(v) <nope> <0x2> . uid(v) <name> <0x1> . }", "13 NoPredicate nope"),
            (great, "set { uid(v) <name> uid(v) . uid(v) <nope> <0x2> . }", "14 WrongObject name"),
            (great, 'set { uid(v) <age> "x" . uid(v) <name> uid(v) . }', "10 BadLiteral age"),
            ("var(func: has(name)) { x as name }", "set { uid(x) <age> val(x) . }", "10 BadLiteral age"),
            ("var(func: has(name)) { x as name }", "set { uid(x) <friend> val(x) . }", "14 WrongObject friend"),
            (great, 'set { uid(v) <name> "x" . }', "15 UidsSpent 0x3"),
            (great, "delete { uid(v) <name> * . }", "15 UidsSpent 0x3"),
        ):
            self.refused(query, f"mutation {{ {mutation} }}", refusal)
        self.says("var(func: uid(0x9)) { x as name }", "mutation { set { <0x9> <nope> val(x) . } }", "")

    def test_a_refusal_of_the_text(self) -> None:
        for text, fault in {
            "upsert { query { } mutation { set { uid(v) <name> * . } } }": ("S", 50),
            "upsert { query { } mutation @if(eq(len(v), 99999999999999999999)) { } }": ("S", 43),
            "upsert { query { } }": ("S", 19),
            "upsert { query { } mutation { } } !": ("T", 34),
            "upsert " + "{" * 33: ("D", 39),
        }.items():
            with self.assertRaises(Fault) as caught:
                read_upsert(text)
            self.assertEqual((caught.exception.letter, caught.exception.offset), fault, text)

    def test_uses_in_the_order_of_the_text(self) -> None:
        text = "upsert { query { } mutation @if(eq(len(a), 1) or lt(len(b), 1)) { set { uid(c) <p> val(d) . } } mutation { delete { uid(e) <p> uid(f) . } } }"
        uses = [*uses_of(read_upsert(text).mutations)]
        self.assertEqual([use.name for use in uses], [*"abcdef"])
        self.assertEqual([use.name for use in uses if use.of_values], ["d"])


class Rows(unittest.TestCase):
    def test_they_stand_in_the_table(self) -> None:
        stored = (TOP / "crates" / "table_runs" / "stdin").read_text(encoding="utf-8")
        self.assertIn("\n" + "".join(f"{row}\n" for row in rows_upserts.rows()), stored)


if __name__ == "__main__":
    unittest.main()
