"""What `@recurse` shows: by hand, and over random graphs by the rule itself, which follows each way to its end."""

from __future__ import annotations

import random
import time
import unittest
from collections import Counter
from typing import Optional
from unittest import mock

import rows_graphs as rows
from plain_answers import View, view_of
from plain_levels import LONGEST_ANSWER, along, json_key, key_of, listed, own_text
from plain_queries import Block, Field, Followed, read_query
from rows_recursions import random_recursion
from tests.helpers import plain_reply

CIRCLE = """alter
    name: string . friend: [uid] @reverse . age: int . boss: uid @reverse .
begin 1
mutate 1
    <0x1> <name> "A" . <0x2> <name> "B" . <0x3> <name> "C" . <0x1> <friend> <0x2> . <0x2> <friend> <0x3> .
    <0x3> <friend> <0x1> . <0x2> <boss> <0x1> . <0x3> <boss> <0x2> . <0x1> <boss> <0x1> . <0x3> <age> "5" .
    <0x4> <friend> <0x5> . <0x5> <friend> <0x6> . <0x6> <friend> <0x3> . <0x4> <friend> <0x7> . <0x7> <friend> <0x4> .
    <0x8> <friend> <0x8> . <0x8> <friend> <0x1> . <0x8> <name> "H" .
"""


class ByHand(unittest.TestCase):
    """1, 2 and 3 lead to one another in a circle; 4, 5 and 6 show nothing of themselves and lead to 3; 8 leads to itself and to 1."""

    def shown(self, root: int, options: str, fields: str) -> str:
        front, end = '{"data":{"q":[', "]}}"
        said = plain_reply(CIRCLE, f"{{ q(func: uid({root:#x})) @recurse({options}) {{ {fields} }} }}")
        self.assertTrue(said.startswith(front) and said.endswith(end), said)
        return said[len(front) : -len(end)]

    def test_a_circle(self) -> None:
        for (root, options, fields), shown in {
            (1, "depth: 4", "name friend"): '{"name":"A","friend":[{"name":"B","friend":[{"name":"C"}]}]}',
            (1, "depth: 4, loop: false", "name friend"): '{"name":"A","friend":[{"name":"B","friend":[{"name":"C"}]}]}',
            (1, "loop: true, depth: 4", "name friend"):
                '{"name":"A","friend":[{"name":"B","friend":[{"name":"C","friend":[{"name":"A"}]}]}]}',
            (1, "depth: 2", "friend name"): '{"friend":[{"name":"B"}],"name":"A"}',
            (1, "depth: 1", "name friend"): '{"name":"A"}',
            (1, "depth: 1", "friend"): "",
            (1, "depth: 32, loop: true", "friend"): "",
            (1, "depth: 3", "u: uid f: ~friend"): '{"u":"0x1","f":[{"u":"0x3","f":[{"u":"0x2"},{"u":"0x6"}]},{"u":"0x8"}]}',
            (4, "depth: 4", "name friend"): '{"friend":[{"friend":[{"friend":[{"name":"C"}]}]}]}',
            (4, "depth: 3", "name friend"): "",
            (4, "depth: 3, loop: true", "name friend"): "",
            (4, "depth: 6, loop: true", "age friend"):
                '{"friend":[{"friend":[{"friend":[{"age":5}]}]},'
                '{"friend":[{"friend":[{"friend":[{"friend":[{"age":5}]}]}]}]}]}',
            (4, "depth: 2", "count(friend) friend"): '{"count(friend)":2,"friend":[{"count(friend)":1},{"count(friend)":1}]}',
        }.items():
            self.assertEqual(self.shown(root, options, fields), shown, (root, options, fields))

    def test_single_edges(self) -> None:
        for (root, options, fields), shown in {
            (3, "depth: 9", "name boss"): '{"name":"C","boss":{"name":"B","boss":{"name":"A"}}}',
            (3, "depth: 4, loop: true", "name boss"): '{"name":"C","boss":{"name":"B","boss":{"name":"A","boss":{"name":"A"}}}}',
            (1, "depth: 9", "name boss"): '{"name":"A"}',
            (1, "depth: 9", "age boss"): "",
            (1, "depth: 3", "name ~boss"): '{"name":"A","~boss":[{"name":"B","~boss":[{"name":"C"}]}]}',
        }.items():
            self.assertEqual(self.shown(root, options, fields), shown, (root, options, fields))

    def test_nodes_of_the_way_count_for_the_page(self) -> None:
        for (root, options, fields), shown in {
            (8, "depth: 2", "name friend (first: 1)"): '{"name":"H","friend":[{"name":"A"}]}',
            (8, "depth: 3", "name friend (orderdesc: name, first: 1)"): '{"name":"H"}',
            (8, "depth: 2", "name friend (orderdesc: name, offset: 1)"): '{"name":"H","friend":[{"name":"A"}]}',
            (8, "depth: 3, loop: true", "name friend (orderdesc: name, first: 1)"): '{"name":"H","friend":[{"name":"H","friend":[{"name":"H"}]}]}',
            (8, "depth: 3", "name friend @filter(not uid(0x1))"): '{"name":"H"}',
            (1, "depth: 3", "name friend @filter(has(age)) ~friend (after: 0x3)"): '{"name":"A","~friend":[{"name":"H"}]}',
        }.items():
            self.assertEqual(self.shown(root, options, fields), shown, (root, options, fields))

    def test_fields_that_are_no_edges(self) -> None:
        for fields, shown in {
            "nope": "",
            "~nope name": '{"name":"C"}',
            "age (first: 0) friend": '{"age":5}',
            "uid nope friend": '{"uid":"0x3","friend":[{"uid":"0x1"}]}',
        }.items():
            self.assertEqual(self.shown(3, "depth: 2", fields), shown, fields)

    def test_variables_and_other_blocks(self) -> None:
        query = ("{ var(func: has(name)) { x as count(friend) n as age } "
                 "q(func: uid(x), orderdesc: val(x), first: 1) @filter(uid(x)) @recurse(depth: 2) { v: val(x) val(n) friend } "
                 "var(func: has(name)) @recurse(depth: 3) { name } r(func: uid(n)) { uid } }")
        self.assertEqual(plain_reply(CIRCLE, query), '{"data":{"q":[{"v":2,"friend":[{"v":1}]}],"r":[{"uid":"0x3"}]}}')

    def test_depths_that_cant_be(self) -> None:
        for options, depth in (("", 0), ("(depth: 0)", 0), ("(depth: 33)", 33), ("(loop: true)", 0), ("(depth: -1, loop: false)", -1)):
            said = plain_reply(CIRCLE, f"{{ q(func: uid(0x1)) @recurse{options} {{ name friend }} }}")
            self.assertEqual(said, f"error 12 BadDepth {depth}", options)
        said = plain_reply(CIRCLE, "{ q(func: uid(0x1)) @recurse { friend (first: 1, first: 2) } }")
        self.assertEqual(said, "error 11 BadPage first")


def by_the_rule(view: View, block: Block, depth: int, again: bool, way: list[int]) -> str:
    """What is shown of the last node of a way, by each way from it."""
    said = [(field, text_at(view, block, field, depth, again, way)) for field in block.fields]
    return ",".join(f"{json_key(key_of(field))}:{text}" for field, text in said if text)


def text_at(view: View, block: Block, field: Field, depth: int, again: bool, way: list[int]) -> Optional[str]:
    """What a field shows of the last node of a way."""
    item = field.item
    definition = view.schema.get(item.edge.predicate) if isinstance(item, Followed) else None
    if not isinstance(item, Followed) or definition is None or definition.kind != "uid":
        return own_text(view, item, way[-1])
    if depth == 1:
        return None
    nodes = listed(view, item.arguments or [], item.directives, along(view, item.edge, way[-1]))
    trees = [by_the_rule(view, block, depth - 1, again, [*way, node]) for node in nodes if again or node not in way]
    objects = [f"{{{tree}}}" for tree in trees if tree]
    if definition.is_list or item.edge.back:
        return f"[{','.join(objects)}]" if objects else None
    return objects[0] if objects else None


class Agreement(unittest.TestCase):
    """The same is shown as by the rule."""

    GRAPHS = 60
    QUERIES = 8

    def test_over_random_graphs(self) -> None:
        drawn = random.getstate()
        random.seed(78)
        met: Counter[str] = Counter()
        for _ in range(self.GRAPHS):
            graph = rows.graph_of(rows.random_triples())
            for _ in range(self.QUERIES):
                blocks = read_query(random_recursion(4))
                self.compare(view_of(graph, rows.SCHEMA, blocks), blocks[0], met)
        random.setstate(drawn)
        for kind in ("loops", "no loops", "something", "nothing", "deep"):
            self.assertGreater(met[kind], 20, (kind, met))

    def compare(self, view: View, block: Block, met: Counter[str]) -> None:
        options = next(dict(directive.options or []) for directive in block.directives if directive.word == "recurse")
        depth, again = int(options["depth"]), options.get("loop") == "true"
        trees = [by_the_rule(view, block, depth, again, [node]) for node in view.nodes_of(block)]
        wanted = ",".join(f"{{{tree}}}" for tree in trees if tree)
        self.assertEqual(",".join(view.objects_of(block)), wanted, block)
        met["loops" if again else "no loops"] += 1
        met["something" if wanted else "nothing"] += 1
        met["deep"] += "]}]}]" in wanted


class Cliques(unittest.TestCase):
    """Where each node leads to each there are more ways than can be followed."""

    def reply(self, names: list[int], options: str) -> str:
        nodes = range(1, 15)
        triples = [f"<{hex(one)}> <friend> <{hex(other)}> ." for one in nodes for other in nodes]
        triples += [f'<{hex(node)}> <name> "A" .' for node in names]
        data = f"alter\n    friend: [uid] . name: string .\nbegin 1\nmutate 1\n    {' '.join(triples)}\n"
        return plain_reply(data, f"{{ q(func: uid(0x1)) @recurse({options}) {{ name friend }} }}")

    def test_what_is_shown_is_followed_alone(self) -> None:
        started = time.monotonic()
        for names, options, said in (
            ([], "depth: 32", '{"data":{"q":[]}}'),
            ([], "depth: 32, loop: true", '{"data":{"q":[]}}'),
            ([1], "depth: 32", '{"data":{"q":[{"name":"A"}]}}'),
            ([9], "depth: 2", '{"data":{"q":[{"friend":[{"name":"A"}]}]}}'),
            ([1], "depth: 32, loop: true", "error 17 AnswerTooLarge"),
            ([9], "depth: 32, loop: true", "error 17 AnswerTooLarge"),
        ):
            self.assertEqual(self.reply(names, options), said, (names, options))
        self.assertLess(time.monotonic() - started, 30)

    def test_an_answer_that_is_too_large(self) -> None:
        with mock.patch("plain_levels.LONGEST_ANSWER", LONGEST_ANSWER // 100):
            self.assertEqual(self.reply([*range(1, 15)], "depth: 32"), "error 17 AnswerTooLarge")
            self.assertEqual(self.reply([9], "depth: 32"), "error 17 AnswerTooLarge")


if __name__ == "__main__":
    unittest.main()
