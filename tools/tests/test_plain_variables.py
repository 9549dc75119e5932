"""Variables, what is made of their values, and the order in which blocks are run, as they are answered plainly."""

from __future__ import annotations

import unittest

from plain_checks import run_order
from plain_queries import read_query
from tests.helpers import plain_reply
from tests.test_plain_answers import DATA

ENDS = """alter
    score: int . points: [int] . name: string .
begin 1
mutate 1
    <0x1> <score> "9223372036854775807" . <0x2> <score> "1" . <0x4> <score> "-9223372036854775808" . <0x5> <score> "-1" .
    <0x1> <points> "7" . <0x1> <points> "-3" . <0x2> <points> "5" . <0x1> <name> "b" . <0x2> <name> "B" . <0x4> <name> "a" .
"""


def nodes_text(nodes: list[int]) -> str:
    return ",".join(f'{{"uid":"{hex(node)}"}}' for node in nodes)


class Variables(unittest.TestCase):
    """Over three nodes: 1 leads to 2 and 3, 2 leads to 3, and 1 and 2 have an age."""

    def reply(self, query: str) -> str:
        return plain_reply(DATA, query)

    def test_what_each_source_stands_for(self) -> None:
        for block, nodes in {
            "x as var(func: has(name)) { }": [1, 2, 3],
            "x as var(func: has(name), orderdesc: age, first: 2) { }": [1, 2],
            "x as var(func: has(name), offset: 1) @filter(not has(age)) { }": [],
            "x as var(func: uid(0x9, 0x7)) { }": [7, 9],
            "var(func: has(name), first: -1) { x as uid }": [3],
            "var(func: has(name)) { x as friend }": [2, 3],
            "var(func: has(name)) { x as friend { } }": [2, 3],
            "var(func: has(name)) { x as friend (first: 1) }": [2, 3],
            "var(func: has(name)) { x as friend (offset: 1) }": [3],
            "var(func: has(name)) { x as friend @filter(has(age)) { name } }": [2],
            "var(func: has(name)) { x as ~friend }": [1, 2],
            "var(func: has(name)) { friend { x as uid } }": [2, 3],
            "var(func: has(name)) { friend { friend { x as uid } } }": [3],
            "var(func: has(name)) { friend { x as friend } }": [3],
            "var(func: has(name)) { x as boss }": [1],
            "var(func: has(name)) { boss { x as friend } }": [2, 3],
            "var(func: has(name)) { x as age }": [1, 2],
            "var(func: has(name), first: 1) { x as age }": [1],
            "var(func: has(name)) { x as tag }": [1],
            "var(func: has(name)) { x as count(friend) }": [1, 2, 3],
            "var(func: uid(0x9)) { x as count(friend) }": [9],
            "var(func: has(name)) { friend { x as bare } }": [3],
            "var(func: has(name)) { x as nope }": [],
            "var(func: has(name)) { x as ~nope }": [],
            "var(func: has(name)) { x as nope { y as uid } }": [],
            "var(func: has(name)) { nope { x as uid } }": [],
            "var(func: has(name)) { name { x as uid } }": [],
            "var(func: has(name)) { age { x as age } }": [],
            "var(func: has(name)) { x as age { y as uid } }": [1, 2],
            # Before cascade: a node counts, and its lists count, whether or not it is shown.
            "var(func: has(name)) @cascade { nope x as friend }": [2, 3],
            "var(func: has(name)) @cascade { friend { nope x as uid } }": [2, 3],
            "x as var(func: has(name)) @cascade { nope }": [1, 2, 3],
            "var(func: has(name)) { x as friend @cascade { age } }": [2, 3],
            "p(func: has(name)) @normalize { x as friend { n: name } }": [2, 3],
        }.items():
            answer = f'"q":[{nodes_text(nodes)}]'
            for query in (f"{{ {block} q(func: uid(x)) {{ uid }} }}", f"{{ q(func: uid(x)) {{ uid }} {block} }}"):
                self.assertIn(answer, self.reply(query), query)

    def test_values_that_are_shown(self) -> None:
        for fields, shown in {
            "x as age": '{"uid":"0x1","val(x)":30},{"uid":"0x2","val(x)":-4},{"uid":"0x3"}',
            "x as tag": '{"uid":"0x1","val(x)":"a"},{"uid":"0x2"},{"uid":"0x3"}',
            "x as born": '{"uid":"0x1"},{"uid":"0x2","val(x)":"1990-05-01T10:00:00Z"},{"uid":"0x3"}',
            "x as count(friend)": '{"uid":"0x1","val(x)":2},{"uid":"0x2","val(x)":1},{"uid":"0x3","val(x)":0}',
            "x as count(~friend)": '{"uid":"0x1","val(x)":0},{"uid":"0x2","val(x)":1},{"uid":"0x3","val(x)":2}',
            "x as count(nope)": '{"uid":"0x1","val(x)":0},{"uid":"0x2","val(x)":0},{"uid":"0x3","val(x)":0}',
            "x as nope": '{"uid":"0x1"},{"uid":"0x2"},{"uid":"0x3"}',
            "friend { x as count(friend) }": '{"uid":"0x1"},{"uid":"0x2","val(x)":1},{"uid":"0x3","val(x)":0}',
        }.items():
            said = self.reply(f"{{ var(func: has(name)) {{ {fields} }} q(func: has(name)) {{ uid val(x) }} }}")
            self.assertEqual(said, f'{{"data":{{"q":[{shown}]}}}}', fields)

    def test_values_that_are_asked(self) -> None:
        ages = "var(func: has(name)) { x as age y as count(friend) t as tag n as nope }"
        for block, nodes in {
            "(func: ge(val(x), -4))": [1, 2],
            "(func: lt(val(x), 30))": [2],
            "(func: eq(val(x), [30, 7]))": [1],
            "(func: between(val(y), 0, 1))": [2, 3],
            "(func: eq(val(y), 0))": [3],
            '(func: eq(val(t), "a"))': [1],
            '(func: eq(val(t), "b"))': [],
            "(func: ge(val(n), 1))": [],
            '(func: eq(val(n), "x", true))': [],
            "(func: has(name)) @filter(not ge(val(x), 0))": [2, 3],
            "(func: has(name)) @filter(not eq(val(n), 0))": [1, 2, 3],
            "(func: has(name)) @filter(gt(val(y), 0) and uid(x))": [1, 2],
            "(func: has(name)) @filter(uid(n) or uid(t, 0x3))": [1, 3],
            "(func: has(name)) @filter(uid_in(friend, x))": [1],
            "(func: has(name)) @filter(uid_in(~friend, t, 0x9))": [2, 3],
            "(func: uid(x, 0x9, t))": [1, 2, 9],
            "(func: has(name), orderasc: val(x))": [2, 1, 3],
            "(func: has(name), orderdesc: val(x))": [1, 2, 3],
            "(func: has(name), orderasc: val(y))": [3, 2, 1],
            "(func: has(name), orderdesc: val(n), orderdesc: val(y))": [1, 2, 3],
            "(func: has(name), orderasc: bare, orderasc: val(x), first: 2)": [3, 2],
            "(func: uid(x), offset: 1)": [2],
            "(func: uid(x)) @cascade": [1, 2],
        }.items():
            said = self.reply(f"{{ {ages} q{block} {{ uid }} }}")
            self.assertEqual(said, f'{{"data":{{"q":[{nodes_text(nodes)}]}}}}', block)

    def test_values_in_cascades_and_flat_objects(self) -> None:
        ages = "var(func: has(name)) { x as age }"
        for block, shown in {
            "(func: has(name)) @cascade { uid val(x) }": '{"uid":"0x1","val(x)":30},{"uid":"0x2","val(x)":-4}',
            "(func: has(name)) @cascade { friend { a: val(x) } }": '{"friend":[{"a":-4}]}',
            "(func: has(name)) @normalize { a: val(x) val(x) friend { b: val(x) } }": '{"a":30,"b":-4},{"a":-4}',
            "(func: has(name)) { friend (orderasc: val(x), first: 1) { uid val(x) } }":
                '{"friend":[{"uid":"0x2","val(x)":-4}]},{"friend":[{"uid":"0x3"}]}',
            "(func: has(name)) { name @filter(uid(x)) }": '{"name":"Ann Lee"},{"name":"Bob"},{"name":"ann"}',
        }.items():
            self.assertEqual(self.reply(f"{{ q{block} {ages} }}"), f'{{"data":{{"q":[{shown}]}}}}', block)

    def test_the_first_fault_by_the_order_of_the_checks(self) -> None:
        for query, refusal in {
            "{ q(func: uid(x, y)) { uid } r(func: has(~boss)) { uid } }": "6 UnknownVariable x",
            "{ var(func: has(name)) { x as friend } q(func: uid(x)) { val(x) } }": "6 UnknownVariable x",
            "{ var(func: has(name)) { x as ~age } q(func: uid(x)) { val(x) } }": "6 UnknownVariable x",
            "{ var(func: has(name)) { x as uid } q(func: uid(x), orderasc: val(x)) { } }": "6 UnknownVariable x",
            "{ q() { min(val(x)) } }": "6 UnknownVariable x",
            "{ var(func: has(name)) { a: x as age } }": "4 BadSyntax 30",
            "{ var(func: has(name)) { x as age b: x as tag } }": "4 BadSyntax 39",
            "{ var(func: has(name)) { x as age } r(func: has(name)) { x as tag y as t: tag } s(func: uid(0x1)) { y as uid } }": "7 VariableTwice x",
            "{ x as var(func: has(name)) { x as age } }": "7 VariableTwice x",
            "{ var(func: has(name)) { x as friend { x as uid } } q(func: uid(y)) { } }": "6 UnknownVariable y",
            "{ x as q(func: uid(x)) { uid } }": "8 VariableCycle x",
            "{ b as q(func: has(name)) { a as friend @filter(uid(b)) } }": "8 VariableCycle b",
            "{ c as q(func: uid(b)) { } b as r(func: uid(a)) { } a as s(func: uid(c)) { } }": "8 VariableCycle a",
            "{ a as q(func: uid(b)) { } b as r(func: uid(c)) { } c as s(func: uid(b)) { } }": "8 VariableCycle b",
            "{ var(func: has(name)) { x as age } q(func: eq(val(x), \"y\")) @filter(has(~boss)) { uid } }": "9 NotIndexed boss ~",
            "{ var(func: has(name)) { x as age } q(func: eq(val(x), \"y\"), first: 1, first: 2) { uid } }": "10 BadLiteral x",
            "{ var(func: has(name)) { x as count(friend) } q(func: has(name)) @filter(eq(val(x), true)) { } }": "10 BadLiteral x",
            "{ var(func: has(name)) { x as tag } q() { max(val(x)) sum(val(x)) } }": "10 BadLiteral x",
            "{ var(func: has(name)) { x as nope } q() { min(val(x)) s: sum(val(x)) } }": "10 BadLiteral x",
            "{ var(func: has(name)) { x as friend (offset: -1) } q(func: uid(x)) { } }": "11 BadPage offset",
        }.items():
            self.assertEqual(self.reply(query), f"error {refusal}", query)


class Orders(unittest.TestCase):
    """The order of blocks."""

    def test_the_first_of_the_text_whose_variables_are_known(self) -> None:
        for blocks, order in {
            "a(func: uid(0x1)) { } b(func: uid(0x1)) { }": [0, 1],
            "a(func: uid(y)) { } y as b(func: uid(0x1)) { } c(func: uid(0x1)) { }": [1, 0, 2],
            "a(func: uid(z)) { } y as b(func: uid(z)) { } z as c(func: uid(0x1)) { } d() { min(val(v)) } e(func: uid(y)) { v as p }":
                [2, 0, 1, 4, 3],
        }.items():
            self.assertEqual(run_order(read_query(f"{{ {blocks} }}")), order)

    def test_a_long_chain_backwards(self) -> None:
        last = 20
        blocks = [f"x{at} as var(func: uid(x{at + 1})) {{ }}" for at in range(last)]
        for text in (blocks, [*reversed(blocks)]):
            query = f"{{ q(func: uid(x0)) {{ name }} {' '.join(text)} x{last} as var(func: uid(0x2)) {{ }} }}"
            self.assertEqual(plain_reply(DATA, query), '{"data":{"q":[{"name":"Bob"}]}}')


class Aggregates(unittest.TestCase):
    """Blocks without a function."""

    def shown(self, root: str, field: str, aggregates: str, name: str = "t") -> str:
        """What aggregates show of a field's values at the nodes of a root."""
        return plain_reply(ENDS, f"{{ var(func: {root}) {{ x as {field} }} {name}() {{ {aggregates} }} }}")

    def test_one_object_for_each_of_what_has_values(self) -> None:
        for (root, field, aggregates), shown in {
            ("has(points)", "points", "min(val(x)) max(val(x)) sum(val(x))"): '{"min(val(x))":-3},{"max(val(x))":5},{"sum(val(x))":2}',
            ("has(points)", "points", "s: sum(val(x)), max(val(x))"): '{"s":2},{"max(val(x))":5}',
            ("has(name)", "name", "min(val(x)) max(val(x))"): '{"min(val(x))":"B"},{"max(val(x))":"b"}',
            ("has(name)", "count(points)", "sum(val(x)) min(val(x))"): '{"sum(val(x))":3},{"min(val(x))":0}',
            ("uid(0x3)", "score", "min(val(x)) max(val(x)) sum(val(x))"): "",
            ("has(name)", "nope", "min(val(x)) max(val(x))"): "",
            ("has(score)", "score", ""): "",
            ("has(score)", "score", "min(val(x)) max(val(x))"):
                '{"min(val(x))":-9223372036854775808},{"max(val(x))":9223372036854775807}',
        }.items():
            self.assertEqual(self.shown(root, field, aggregates), f'{{"data":{{"t":[{shown}]}}}}', (root, field, aggregates))

    def test_sums_at_both_ends(self) -> None:
        for root, shown in {
            "uid(0x1)": '{"data":{"t":[{"sum(val(x))":9223372036854775807}]}}',
            "uid(0x1, 0x2)": "error 16 SumOverflow x",
            "uid(0x1, 0x2, 0x5)": '{"data":{"t":[{"sum(val(x))":9223372036854775807}]}}',
            "uid(0x4)": '{"data":{"t":[{"sum(val(x))":-9223372036854775808}]}}',
            "uid(0x4, 0x5)": "error 16 SumOverflow x",
            "uid(0x4, 0x5, 0x2)": '{"data":{"t":[{"sum(val(x))":-9223372036854775808}]}}',
            "has(score)": '{"data":{"t":[{"sum(val(x))":-1}]}}',
        }.items():
            self.assertEqual(self.shown(root, "score", "sum(val(x))"), shown, root)
            hidden = self.shown(root, "score", "sum(val(x))", "var")
            self.assertEqual(hidden, shown if shown[0] == "e" else '{"data":{}}', root)

    def test_the_first_sum_of_the_text_is_told(self) -> None:
        beyond = "var(func: uid(0x1, 0x2)) { x as score } var(func: uid(0x4, 0x5)) { y as score }"
        for blocks in (f"a() {{ sum(val(y)) sum(val(x)) }} {beyond}", f"{beyond} var() {{ sum(val(y)) }} a() {{ sum(val(x)) }}"):
            self.assertEqual(plain_reply(ENDS, f"{{ {blocks} }}"), "error 16 SumOverflow y")
        self.assertEqual(plain_reply(ENDS, f"{{ {beyond} a() {{ max(val(y)) sum(val(x)) sum(val(y)) }} }}"), "error 16 SumOverflow x")
        self.assertEqual(plain_reply(ENDS, f"{{ {beyond} a() {{ max(val(y)) }} }}"), '{"data":{"a":[{"max(val(y))":-1}]}}')

    def test_an_overflow_comes_before_an_answer_that_is_too_large(self) -> None:
        ring = " ".join(f"<{hex(one)}> <friend> <{hex(other)}> ." for one in range(1, 31) for other in range(1, 31))
        data = f'alter\n    friend: [uid] . score: int .\nbegin 1\nmutate 1\n    {ring} <0x1> <score> "9223372036854775807" . <0x2> <score> "1" .\n'
        large = f"q(func: uid(0x1)) {'{ friend ' * 10}{{ uid }}{' }' * 10}"
        sums = "var(func: has(score)) { x as score } t() { sum(val(x)) }"
        self.assertEqual(plain_reply(data, f"{{ {large} }}"), "error 17 AnswerTooLarge")
        self.assertEqual(plain_reply(data, f"{{ {large} {sums} }}"), "error 16 SumOverflow x")


if __name__ == "__main__":
    unittest.main()
