"""Queries, as they are answered plainly."""

from __future__ import annotations

import re
import unittest

import plain_machine as plain
from dgraph_shell.help import EXAMPLES
from plain_patterns import BadPattern, UnknownPattern, pattern_of
from plain_queries import Fault, read_query
from tests.helpers import frames, plain_reply

DATA = """alter
    name: string @index(term, trigram, exact) . age: int @index . tag: [string] . friend: [uid] @reverse @count .
    bare: string . boss: uid . born: dateTime @index .
begin 1
mutate 1
    <0x1> <name> "Ann Lee" . <0x2> <name> "Bob" . <0x3> <name> "ann" . <0x1> <age> "30" . <0x2> <age> "-4" .
    <0x1> <tag> "b" . <0x1> <tag> "a" . <0x1> <friend> <0x2> . <0x1> <friend> <0x3> . <0x2> <friend> <0x3> .
    <0x3> <bare> "x" . <0x2> <boss> <0x1> . <0x2> <born> "1990-05-01T10:00:00Z" .
"""


class Answers(unittest.TestCase):
    """What a transaction is answered over a few nodes."""

    def reply(self, query: str) -> str:
        """What is behind the first line of a reply, or a refusal."""
        return plain_reply(DATA, query)

    def nodes(self, root: str, tested: str = "") -> list[int]:
        """The nodes of a block."""
        said = self.reply(f"{{ q(func: {root}) {f'@filter({tested})' if tested else ''} {{ uid }} }}")
        front, end = '{"data":{"q":[', "]}}"
        self.assertTrue(said.startswith(front) and said.endswith(end), said)
        return [int(node, 16) for node in re.findall('{"uid":"(0x[0-9a-f]+)"}', said)]

    def test_roots(self) -> None:
        for root, nodes in {
            "uid(0x9, 0x2, 0x9)": [2, 9],
            "has(name)": [1, 2, 3],
            "has(~friend)": [2, 3],
            "has(nope)": [],
            'eq(name, "ann")': [3],
            'eq(name, ["ann", "Bob", "x"])': [2, 3],
            "eq(age, -4, \"+030\")": [1, 2],
            "lt(age, 30)": [2],
            "ge(age, 30)": [1],
            'gt(name, "Bob")': [3],
            "between(age, -4, 30)": [1, 2],
            "between(age, 30, -4)": [],
            'le(born, "1990-05-01T10:00:00Z")': [2],
            'anyofterms(name, "LEE bob")': [1, 2],
            'allofterms(name, "lee, ann")': [1],
            'allofterms(name, "-")': [],
            "regexp(name, /^ann/i)": [1, 3],
            "eq(count(friend), 2)": [1],
            "lt(count(friend), 1)": [],
            "ge(count(~friend), 2)": [3],
            "eq(count(~friend), 0)": [],
        }.items():
            self.assertEqual(self.nodes(root), nodes, root)

    def test_filters(self) -> None:
        for tested, nodes in {
            "has(age)": [1, 2],
            "not has(age)": [3],
            "not NOT Not has(age)": [3],
            "has(age) and not lt(age, 0) or has(bare)": [1, 3],
            "has(age) and not (lt(age, 0) or has(bare))": [1],
            "eq(count(friend), 0)": [3],
            "uid_in(friend, 0x3)": [1, 2],
            "uid_in(~friend, 0x1)": [2, 3],
            "uid(0x3, 0x7)": [3],
            "eq(nope, 1) or eq(bare, \"x\")": [3],
            'anyofterms(age, "30") or regexp(age, /3/)': [],
        }.items():
            self.assertEqual(self.nodes("has(name)", tested), nodes, tested)

    def test_what_is_shown(self) -> None:
        for query, answer in {
            "{}": "{}",
            "query { q(func: uid(0x1)) { uid n: name age tag friend nope } }":
                '{"q":[{"uid":"0x1","n":"Ann Lee","age":30,"tag":["a","b"]}]}',
            "{ a(func: has(name)) { age } var(func: has(name)) { uid } b(func: has(name)) { friend boss } }":
                '{"a":[{"age":30},{"age":-4}],"b":[]}',
        }.items():
            self.assertEqual(self.reply(query), f'{{"data":{answer}}}')

    def test_refusals_in_their_order(self) -> None:
        for query, refusal in {
            "{ q(func: eq(bare, 1)) @cascade { name } !": "3 BadToken 41",
            "{" * 33 + "x": "5 TooDeep 32",
            "{ q(func: eq(bare, 1)) @cascade { name }": "4 BadSyntax 40",
            "{ q(func: eq(bare, 1)) @cascade { name } r(func: uid(x)) { } }": "6 UnknownVariable x",
            "{ q(func: eq(bare, 1)) @cascade { name } }": "9 NotIndexed bare eq",
            '{ q(func: eq(age, "x")) { uid } r(func: eq(bare, 1)) { uid } }': "9 NotIndexed bare eq",
            '{ q(func: eq(age, "x")) @filter(has(~boss)) { uid } }': "9 NotIndexed boss ~",
            "{ q(func: eq(count(boss), 1)) { uid } }": "9 NotIndexed boss count",
            "{ q(func: ge(count(~boss), 1)) { uid } }": "9 NotIndexed boss count",
            '{ q(func: uid(0x1)) @filter(regexp(bare, /(/) or eq(age, "x")) { uid } }': "10 BadLiteral bare",
            '{ q(func: uid(0x1)) @filter(eq(age, "x") or regexp(bare, /(/)) { uid } }': "10 BadLiteral age",
            '{ q(func: uid(0x1)) @filter(eq(boss, "0x1")) { uid } }': "10 BadLiteral boss",
            '{ q(func: uid(0x1)) @filter(eq(count(nope), "x")) { uid } }': "10 BadLiteral nope",
        }.items():
            self.assertEqual(self.reply(query), f"error {refusal}", query)
        self.assertEqual(plain.run(b"query 1 1\n!\n").replies, [b"error 1 NoSession 1\n"])

    def test_nested(self) -> None:
        for fields, shown in {
            "friend { name }": '[{"friend":[{"name":"Bob"},{"name":"ann"}]},{"friend":[{"name":"ann"}]}]',
            "friend { friend { uid } }": '[{"friend":[{"friend":[{"uid":"0x3"}]}]}]',
            "~friend { count(uid) n: name }": '[{"~friend":[{"count":0}]},{"~friend":[{"count":1},{"n":"Ann Lee"}]},'
                                              '{"~friend":[{"count":2},{"n":"Ann Lee"},{"n":"Bob"}]}]',
            "boss { name }": '[{"boss":{"name":"Ann Lee"}}]',
            "boss { count(uid) }": '[{"boss":[{"count":0}]},{"boss":[{"count":1}]},{"boss":[{"count":0}]}]',
            "friend": "[]",
            "friend { }": "[]",
            "name { friend }": '[{"name":"Ann Lee"},{"name":"Bob"},{"name":"ann"}]',
            "nope { uid }": "[]",
            "count(friend)": '[{"count(friend)":2},{"count(friend)":1},{"count(friend)":0}]',
            "count(uid)": '[{"count":3}]',
            "f: friend (orderdesc: name, first: 1) { uid }": '[{"f":[{"uid":"0x3"}]},{"f":[{"uid":"0x3"}]}]',
            "friend (after: 0x2) { uid }": '[{"friend":[{"uid":"0x3"}]},{"friend":[{"uid":"0x3"}]}]',
            "friend @filter(has(age)) { uid }": '[{"friend":[{"uid":"0x2"}]}]',
        }.items():
            self.assertEqual(self.reply(f"{{ q(func: has(name)) {{ {fields} }} }}"), f'{{"data":{{"q":{shown}}}}}', fields)

    def shown(self, block: str) -> str:
        """What is shown of a block, behind its name."""
        front, end = '{"data":{"q":[', "]}}"
        said = self.reply(f"{{ q{block} }}")
        self.assertTrue(said.startswith(front) and said.endswith(end), said)
        return said[len(front) : -len(end)]

    def test_cascades(self) -> None:
        for block, shown in {
            "(func: has(name)) @cascade { name age }": '{"name":"Ann Lee","age":30},{"name":"Bob","age":-4}',
            "(func: has(name)) @cascade { name friend { age } }": '{"name":"Ann Lee","friend":[{"age":-4}]}',
            "(func: has(name)) { name friend @cascade { age } }": '{"name":"Ann Lee","friend":[{"age":-4}]},{"name":"Bob"},{"name":"ann"}',
            "(func: has(name)) @cascade { uid friend }": '{"uid":"0x1"},{"uid":"0x2"}',
            "(func: has(name)) @cascade { count(uid) age nope: count(nope) }":
                '{"count":2},{"age":30,"nope":0},{"age":-4,"nope":0}',
            "(func: has(name)) { friend @cascade { count(uid) boss } }":
                '{"friend":[{"count":1}]},{"friend":[{"count":0}]},{"friend":[{"count":0}]}',
            "(func: has(name), first: 2) @cascade { bare }": "",
            "(func: has(name), offset: 2) @cascade { bare }": '{"bare":"x"}',
            "(func: has(name)) @cascade { nope }": "",
            "(func: has(name)) @cascade { }": "",
            "(func: uid(0x7)) @cascade { uid }": '{"uid":"0x7"}',
            "(func: has(name)) @cascade { boss { name } }": '{"boss":{"name":"Ann Lee"}}',
            "(func: has(name)) @cascade { ~friend { boss { tag } } }": '{"~friend":[{"boss":{"tag":["a","b"]}}]}',
        }.items():
            self.assertEqual(self.shown(block), shown, block)

    def test_flat_objects(self) -> None:
        for block, shown in {
            "(func: has(name)) @normalize { name }": "",
            "(func: has(name)) @normalize { a: age name }": '{"a":30},{"a":-4}',
            "(func: has(name)) @normalize { a: age friend { f: name } }":
                '{"a":30,"f":"Bob"},{"a":30,"f":"ann"},{"a":-4,"f":"ann"}',
            "(func: has(name)) @normalize { n: name friend { n: name a: age } }":
                '{"n":"Ann Lee","a":-4},{"n":"Ann Lee"},{"n":"Bob"},{"n":"ann"}',
            "(func: has(name)) @normalize { friend { n: name a: age } n: name }":
                '{"n":"Bob","a":-4},{"n":"ann"},{"n":"ann"},{"n":"ann"}',
            "(func: uid(0x1)) @normalize { x: friend { u: uid } y: friend { v: uid } t: tag }":
                ",".join(f'{{"u":"{u}","v":"{v}","t":["a","b"]}}' for u in ("0x2", "0x3") for v in ("0x2", "0x3")),
            "(func: has(name)) @cascade @normalize { friend { n: name age } }": '{"n":"Bob"}',
            "(func: has(name)) @normalize { n: count(uid) c: count(friend) nope: nope }": '{"c":2},{"c":1},{"c":0}',
            "(func: has(name), orderasc: age) @normalize { boss { b: name count(uid) } friend (first: -1) { n: name } }":
                '{"b":"Ann Lee","n":"ann"},{"n":"ann"}',
        }.items():
            self.assertEqual(self.shown(block), shown, block)

    def test_what_is_too_large_is_never_made(self) -> None:
        ring = "".join(f"<{hex(one)}> <friend> <{hex(other)}> . " for one in range(1, 31) for other in range(1, 31))
        script = frames(f"alter\n    friend: [uid] .\nbegin 1\nmutate 1\n    {ring}\n")
        braces = "{ friend " * 10 + "{ %s }" + " }" * 10
        crossed = "{ x: friend { a: uid } y: friend { b: uid } z: friend { c: uid } w: friend { d: uid } v: friend { e: uid } }"
        for query, reply in (
            (f"{{ q(func: uid(0x1)) @cascade {braces % 'nope'} }}", b'ok query 1 17\n{"data":{"q":[]}}\n'),
            (f"{{ q(func: uid(0x1)) @cascade {braces % 'uid'} }}", b"error 17 AnswerTooLarge\n"),
            (f"{{ q(func: uid(0x1)) @normalize {braces % 'u: uid'} }}", b"error 17 AnswerTooLarge\n"),
            (f"{{ q(func: uid(0x1)) @normalize {crossed} }}", b"error 17 AnswerTooLarge\n"),
        ):
            body = query.encode()
            self.assertEqual(plain.run(script + b"query 1 %d\n%s\n" % (len(body), body)).replies[-1], reply, query)

    def test_lists(self) -> None:
        for arguments, nodes in {
            "orderasc: age": [2, 1, 3],
            "orderdesc: age": [1, 2, 3],
            "orderasc: bare, orderdesc: name": [3, 2, 1],
            "orderasc: nope, orderasc: friend": [1, 2, 3],
            "first: 2": [1, 2],
            "first: -2": [2, 3],
            "first: 0": [],
            "offset: 1, first: 1": [2],
            "offset: 9": [],
            "after: 0x1, offset: 1": [3],
            "orderasc: age, first: 1, offset: 1": [1],
        }.items():
            answer = ",".join(f'{{"uid":"{hex(node)}"}}' for node in nodes)
            self.assertEqual(self.reply(f"{{ q(func: has(name), {arguments}) {{ uid }} }}"), f'{{"data":{{"q":[{answer}]}}}}')

    def test_arguments_that_cant_stand(self) -> None:
        for arguments, word in {
            "first: 1, first: 2": "first",
            "offset: -1": "offset",
            "first: -1, orderasc: name": "first",
            "after: 0x1, orderasc: name": "after",
            "offset: 1, first: 1, offset: 2, after: 0x1, after: 0x2": "offset",
        }.items():
            self.assertEqual(self.reply(f"{{ q(func: has(name), {arguments}) {{ uid }} }}"), f"error 11 BadPage {word}")
            inner = self.reply(f"{{ q(func: has(name), first: 1) {{ friend ({arguments}) {{ uid }} }} }}")
            self.assertEqual(inner, f"error 11 BadPage {word}")

    def test_empty_brackets(self) -> None:
        by_itself = self.reply("{ q(func: has(name)) { name } }")
        self.assertEqual(self.reply("{ q(func: has(name)) { name() } }"), by_itself)

    def test_very_long_numbers(self) -> None:
        zeros = "0" * 10_000
        self.assertEqual(self.nodes(f"eq(age, {zeros}30)"), [1])
        self.assertEqual(self.nodes(f'eq(age, "-{zeros}4")'), [2])
        self.assertEqual(self.reply(f"{{ q(func: eq(age, 1{zeros})) {{ uid }} }}"), "error 4 BadSyntax 18")


class Help(unittest.TestCase):
    """The forms that the shell shows are built."""

    def test_the_example_of_a_query_is_answered(self) -> None:
        bodies = {name: "\n".join(EXAMPLES[name]).encode() for name in ("alter", "mutate", "query")}
        script = b"alter %d\n%s\nbegin 1\n" % (len(bodies["alter"]), bodies["alter"])
        for name in ("mutate", "query"):
            script += b"%s 1 %d\n%s\n" % (name.encode(), len(bodies[name]), bodies[name])
        answer = b'{"data":{"one":[{"name":"Ann"}],"some":[{"uid":"0x2","n":"Bob"}]}}'
        self.assertEqual(plain.run(script).replies[-1].split(b"\n")[1], answer)


class Patterns(unittest.TestCase):
    """Patterns, as the part of their language that is read says."""

    def test_where_they_are_found(self) -> None:
        for text, found, others in (
            ("a.c", ["xabcx", "a.c"], ["ac", "a\nc", "ABC"]),
            ("^ab?$", ["a", "ab"], ["abb", "xa", "a\n"]),
            ("[a-c]x*[^y]$", ["bz", "axxq"], ["by", "a", "dz"]),
            (r"\.\/\$", ["./$"], ["a/$"]),
            ("", ["", "a"], []),
        ):
            pattern = pattern_of(text.replace(r"\/", "/"), False)
            self.assertEqual([one for one in found + others if pattern.is_in(one)], found, text)

    def test_letters_of_any_case(self) -> None:
        for text, found in {"straße": "STRAẞE", "σας": "ΣΑΣ", "[a-c]+$": "ABC", "K": "\u212a", "É": "é"}.items():
            self.assertTrue(pattern_of(text, True).is_in(found), text)
            self.assertFalse(pattern_of(text, False).is_in(found), text)
        self.assertFalse(pattern_of("[^a]", True).is_in("A"))
        self.assertFalse(pattern_of("i", True).is_in("İ"))

    def test_what_is_no_pattern(self) -> None:
        for text in ("(", "a(b", ")", "a)", "[a", "*a", "?", "+", r"\1", "[b-a]"):
            with self.assertRaises(BadPattern, msg=text):
                pattern_of(text, False)

    def test_what_isnt_known(self) -> None:
        for text in ("a**", "a|b", "(a)", "a{2}", r"\d", "[[:alpha:]]", "^*"):
            with self.assertRaises(UnknownPattern, msg=text):
                pattern_of(text, False)


class Reading(unittest.TestCase):
    """Trees of queries; the rows `queries` of table_checks have the grammar whole."""

    def test_nots_are_counted(self) -> None:
        block = read_query(f"{{ q(func: has(a)) @filter({'not ' * 5000}(not has(b))) {{ }} }}")[0]
        part = block.directives[0].filter
        assert part is not None
        self.assertEqual((part.nots, part.atom.word), (5001, "has"))

    def test_patterns_and_flags(self) -> None:
        function = read_query(r"{ q(func: regexp(p, /a\/b\\/i)) { } }")[0].function
        assert function is not None
        self.assertEqual((function.of, function.values, function.folds), ("p", [r"a/b\\"], True))

    def test_the_first_fault_decides(self) -> None:
        for text, fault in (("{ q(func: eq(uid, 1)) { a a } ", 13), ("{ q(func: has(a)) { a a } ", 22), ("{", 1)):
            with self.assertRaises(Fault) as caught:
                read_query(text)
            self.assertEqual((caught.exception.letter, caught.exception.offset), ("S", fault), text)
