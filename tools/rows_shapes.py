"""Rows of the section `shapes` of table_levels: lists of nodes, whole trees, and recursion over columns.

Lists of nodes, whole trees and graphs are random. The answers come from `plain_levels.py`, which goes node by node, and for recursion from
a walk along each path.
"""

from __future__ import annotations

import random
from collections.abc import Iterator
from typing import Optional, Union

from plain_levels import LONGEST_ANSWER, Tree, counts_in, flat, key_of, remaining, shown
from plain_queries import Count, CountUid, Field, Followed, Uid, read_query
from plain_values import read_posting

SEED = 30
KINDS = {"text": "string", "int": "int", "bool": "bool", "time": "dateTime"}
# The name of each node of a product.
NAME = "a name that takes some room in an answer"

# ---------------------------------------------------------------------------------------------------
# Lists of nodes
# ---------------------------------------------------------------------------------------------------

HAND_ORDERS = [
    "order\t3 1 2",
    "order\t",
    "order\t3 1 2\tup 1=int:5 2=int:5 3=int:5",
    "order\t1 2 3 4\tup 2=int:1 4=int:0",
    "order\t1 2 3 4\tdown 2=int:1 4=int:0",
    "order\t1 2 3 4\tdown 1=text:a 2=text:b 3=text:a\tup 1=int:2 3=int:1",
    "order\t1 2 3 4\tdown 1=text:a 2=text:b 3=text:a\tdown 1=int:2 3=int:1",
    "order\t1 2 3\tup 1=bool:true 2=bool:false 9=bool:false",
    "order\t1 2 3\tdown 1=time:2001-01-01 2=time:2001-01-01T00:00:01Z 3=time:2000-12-31",
    "order\t1 2 3\tup 1=text:b 2=int:7 3=bool:false",
    "order\t5 5 1 5",
    "order\t1 x",
    "order\t1 2\tsideways 1=int:1",
    "order\t1 2\tup 2=int:1 1=int:2",
    "order\t1 2\tup 1=int:x",
]
HAND_PAGES = [
    "page\t1 2 3 4 5\t",
    "page\t1 2 3 4 5\tfirst:2",
    "page\t1 2 3 4 5\tfirst:-2",
    "page\t1 2 3 4 5\tfirst:0",
    "page\t1 2 3 4 5\tfirst:-9",
    "page\t1 2 3 4 5\tfirst:9223372036854775807",
    "page\t1 2 3 4 5\tfirst:-9223372036854775808",
    "page\t1 2 3 4 5\toffset:2",
    "page\t1 2 3 4 5\toffset:5",
    "page\t1 2 3 4 5\toffset:9223372036854775807",
    "page\t1 2 3 4 5\toffset:-1",
    "page\t1 2 3 4 5\tafter:2",
    "page\t1 2 3 4 5\tafter:0",
    "page\t1 2 3 4 5\tafter:18446744073709551615",
    "page\t9 7 8 1 2\tafter:2 offset:1 first:1",
    "page\t9 7 8 1 2\tfirst:-1 offset:1 after:2",
    "page\t9 7 8 1 2\tfirst:1 first:2 offset:3 offset:1",
    "page\t1 2\tfirst:x",
    "page\t1 2\tlast:1",
    "page\t1 y\tfirst:1",
]


def value_key(word: str) -> Optional[tuple[int, object]]:
    kind, _, text = word.partition(":")
    return read_posting(KINDS[kind], text) if kind in KINDS else None  # type: ignore[return-value]


def numbers_in(field: str) -> Optional[list[int]]:
    words = field.split()
    return [int(word) for word in words] if all(word.isdigit() for word in words) else None


def column_of(field: str) -> Optional[tuple[bool, dict[int, object]]]:
    word, _, said = field.partition(" ")
    pairs = [one.partition("=") for one in said.split()]
    values = {int(node): value_key(value) for node, _, value in pairs}
    if word not in ("up", "down") or None in values.values() or list(values) != sorted(values):
        return None
    return word == "down", values  # type: ignore[return-value]


def ordered(fields: list[str]) -> Optional[str]:
    nodes = numbers_in(fields[0])
    columns = [column_of(field) for field in fields[1:]]
    if nodes is None or None in columns:
        return None
    made = sorted(set(nodes))
    for down, values in reversed(columns):  # type: ignore[misc]
        there = sorted((node for node in made if node in values), key=lambda node: values[node], reverse=down)  # type: ignore[arg-type, return-value]
        made = there + [node for node in made if node not in values]
    return " ".join(map(str, made))


def paged(fields: list[str]) -> Optional[str]:
    nodes = numbers_in(fields[0])
    said: dict[str, int] = {}
    for word in fields[1].split():
        name, _, number = word.partition(":")
        if name not in ("first", "offset", "after") or not number.lstrip("-").isdigit():
            return None
        said.setdefault(name, int(number))
    if nodes is None:
        return None
    made = [node for node in nodes if "after" not in said or node > said["after"]]
    made = made[max(said.get("offset", 0), 0) :]
    first = said.get("first", len(made))
    return " ".join(map(str, made[:first] if first >= 0 else made[first:]))


def random_orders() -> Iterator[str]:
    for _ in range(120):
        nodes = random.sample(range(1, 15), random.randrange(10))
        fields = [" ".join(map(str, nodes))]
        for _ in range(random.randrange(4)):
            kind = random.choice(["int", "int", "text", "mixed"])
            values = {node: one_value(kind) for node in sorted(random.sample(range(1, 16), random.randrange(12)))}
            fields.append(" ".join([random.choice(["up", "down"]), *(f"{node}={value}" for node, value in values.items())]))
        yield "\t".join(["order", *fields])


def one_value(kind: str) -> str:
    kind = random.choice(["int", "text", "bool"]) if kind == "mixed" else kind
    return {
        "int": f"int:{random.randrange(-2, 3)}",
        "text": f"text:{random.choice(['', 'a', 'b', 'ab', 'é'])}",
        "bool": f"bool:{random.choice(['true', 'false'])}",
    }[kind]


# ---------------------------------------------------------------------------------------------------
# Whole trees
# ---------------------------------------------------------------------------------------------------


def random_fields(depth: int) -> str:
    """Fields of a query, no two under one key."""
    choices = ["uid", "name", "age", "count(uid)", "count(friend)", "a: name", "b: name", "c: count(friend)", "d: uid", "n: count(uid)"]
    if depth:
        choices += [f"friend {random_fields(depth - 1)}", f"~friend {random_fields(depth - 1)}", f"a: boss {random_fields(depth - 1)}"]
        choices += [f"boss {random_fields(depth - 1)}", "likes", "likes { }"]
    random.shuffle(choices)
    said: dict[str, str] = {}
    for choice in choices[: random.randrange(6)]:
        key = choice.partition(":")[0] if ":" in choice.partition("{")[0] else choice.partition(" ")[0]
        said.setdefault(key.replace("count(uid)", "count"), choice)
    return f"{{ {' '.join(said.values())} }}"


def random_tree(fields: list[Field]) -> Tree:
    """A whole tree of a node that might stand under these fields."""
    under: dict[str, Union[str, Tree, list[Tree]]] = {}
    for field in fields:
        item = field.item
        if isinstance(item, CountUid):
            continue
        if isinstance(item, Uid):
            under[key_of(field)] = f'"0x{random.randrange(1, 9)}"'
        elif isinstance(item, Count):
            under[key_of(field)] = str(random.randrange(4))
        elif item.edge.predicate in ("name", "age"):
            if random.random() < 0.7:
                under[key_of(field)] = str(random.randrange(10)) if item.edge.predicate == "age" else f'"{random.choice("xyz")}"'
        else:
            trees = [random_tree(item.fields or []) for _ in range(random.randrange(4))]
            if item.edge.predicate == "boss" and not counts_in(item.fields):
                if trees:
                    under[key_of(field)] = trees[0]
            else:
                under[key_of(field)] = trees
    return Tree(under)


def steps_of(tree: Union[str, Tree, list[Tree]]) -> Iterator[str]:
    """The steps that make a tree."""
    if isinstance(tree, str):
        yield f"text {tree[1:-1]}" if tree.startswith('"') else f"int {tree}"
    elif isinstance(tree, Tree):
        for key, below in tree.under.items():
            yield from steps_of(below)
            yield f"field {key}"
        yield f"node {len(tree.under)}"
    else:
        for one in tree:
            yield from steps_of(one)
        yield f"array {len(tree)}"


def whole_text(tree: Union[str, Tree, list[Tree]]) -> str:
    """The text of a tree as it stands."""
    if isinstance(tree, str):
        return tree
    if isinstance(tree, Tree):
        return f"{{{','.join(f'{chr(34)}{key}{chr(34)}:{whole_text(below)}' for key, below in tree.under.items())}}}"
    return f"[{','.join(map(whole_text, tree))}]"


def answer_text(objects: list[str]) -> str:
    return f'{{"data":{{"q":[{",".join(objects)}]}}}}'


def pairs_text(pairs: dict[str, str]) -> str:
    return f"{{{','.join(f'{chr(34)}{key}{chr(34)}:{text}' for key, text in pairs.items())}}}"


def shape_of(table: str, fields: list[Field], trees: list[Tree]) -> str:
    if table == "cascade":
        return answer_text([whole_text(tree) for tree in remaining(fields, trees)])
    if table == "strip":
        return answer_text([f"{{{','.join(shown(fields, tree))}}}" for tree in trees])
    return answer_text([pairs_text(pairs) for tree in trees for pairs in flat(fields, tree)])


def random_shapes() -> Iterator[tuple[str, str]]:
    for _ in range(300):
        text = f"{{ q(func: uid(0x1)) {random_fields(2)} }}"
        fields = read_query(text)[0].fields
        trees = [random_tree(fields) for _ in range(random.randrange(4))]
        steps = [step for tree in trees for step in steps_of(tree)] or ["nothing"]
        for table in ("cascade", "strip", "normalize"):
            yield "\t".join([table, text, *steps]), shape_of(table, fields, trees)


def product(count: int) -> str:
    """How many bytes the flat objects of a node with so many nodes under each of three edges have, as an answer: each with each."""
    one = len(pairs_text({key: f'"{NAME}"' for key in "abc"}) + ",")
    size = len(answer_text([])) + count**3 * one - (count > 0)
    return f"{size} bytes" if size <= LONGEST_ANSWER else "the answer is too large"


# ---------------------------------------------------------------------------------------------------
# Recursion
# ---------------------------------------------------------------------------------------------------

A, B, C = '"n":"a"', '"n":"b"', '"n":"c"'
HAND_UNFOLDS = [
    f"unfold\t1000 1 0\t{A};{B}\tmany 1;0",
    f"unfold\t1000 2 0\t{A};{B}\tmany 1;0",
    f"unfold\t1000 3 0\t{A};{B}\tmany 1;0",
    f"unfold\t1000 32 0\t{A};;{C}\tmany 1 0;2 1;0 1 2",
    f"unfold\t1000 2 0\t{A};;{C}\tmany 1;2;",
    f"unfold\t1000 3 0\t{A};{B};{C}\tone 1 2;;",
    f"unfold\t1000 3 0\t{A};;{C}\tone 1 2;;",
    f"unfold\t1000 3 0\t;;\tmany 1 2;2;",
    f"unfold\t1000 3 7\t{A};{B}\tmany 1;",
    f"unfold\t28 2 0\t{A};{B}\tmany 1;",
    f"unfold\t27 2 0\t{A};{B}\tmany 1;",
    f"unfold\t1000 0 0\t{A}\tmany ",
    f"unfold\t1000 33 0\t{A}\tmany ",
    f"unfold\t1000 2 0\t{A}\tmany x",
    f"unfold\t1000 2 0\t{A}\tmany",
]


def walked(texts: list[str], lists: list[list[int]], single: bool, left: int, path: list[int]) -> str:
    """What the last node of a path shows, where so many edges may be followed: itself, and those to which it leads off the path."""
    node = path[-1]
    own = texts[node] if node < len(texts) else ""
    ends = lists[node] if left and node < len(lists) else []
    rows = (walked(texts, lists, single, left - 1, [*path, end]) for end in ends if end not in path)
    objects = [f"{{{row}}}" for row in rows if row]
    edge = f'"friend":{objects[0]}' if single and objects else f'"friend":[{",".join(objects)}]' if objects else ""
    return ",".join(part for part in (own, edge) if part)


def unfolded(fields: list[str]) -> Optional[str]:
    """The answer to a row of recursion."""
    limit, depth, node = map(int, fields[0].split())
    form, _, lists = fields[2].partition(" ")
    if not 1 <= depth <= 32 or " " not in fields[2] or "x" in lists:
        return None
    ends = [[int(word) for word in part.split()] for part in lists.split(";")]
    row = walked(fields[1].split(";"), ends, form == "one", depth - 1, [node])
    return row if len(row) <= limit else "the answer is too large"


def behind_a_gate(parents: int, others: int) -> str:
    """A node that leads to some, each of which leads to one gate; behind it one that has a name, and others that lead to each other
    and to the gate."""
    gate, named = parents + 1, parents + 2
    group = range(named + 1, named + 1 + others)
    lists = [[*range(1, gate)], *([gate] for _ in range(parents)), [*group, named], [], *([*group, gate] for _ in group)]
    texts = [A if node == named else "" for node in range(len(lists))]
    return f"unfold\t100000 32 0\t{';'.join(texts)}\tmany {';'.join(' '.join(map(str, ends)) for ends in lists)}"


def random_unfolds() -> Iterator[str]:
    """Rows over small graphs."""
    for _ in range(60):
        count = random.randrange(1, 7)
        texts = [random.choice(["", "", A, B, C]) for _ in range(count)]
        lists = [random.sample(range(count), random.randrange(count + 1)) for _ in range(count)]
        ends = ";".join(" ".join(map(str, ends)) for ends in lists)
        limit = random.choice([40, 400, 100_000])
        yield f"unfold\t{limit} {random.randrange(1, 8)} 0\t{';'.join(texts)}\t{random.choice(['many', 'one'])} {ends}"


def gate_row(parents: int) -> str:
    """What is shown behind a gate: of each parent the gate, and behind that the one node with a name."""
    one = f'{{"friend":[{{"friend":[{{{A}}}]}}]}}'
    return f'"friend":[{",".join([one] * parents)}]'


def rows() -> Iterator[tuple[str, Optional[str]]]:
    """Each row with its answer; none where it can't be read. A comment has no answer."""
    random.seed(SEED)
    yield "# Lists of nodes in order. Wanted: the rules of the language, by hand.", ""
    yield from ((row, ordered(row.split("\t")[1:])) for row in HAND_ORDERS)
    yield "# The same at random. Wanted: sorted by tools/rows_shapes.py, a key at a time.", ""
    yield from ((row, ordered(row.split("\t")[1:])) for row in random_orders())
    yield "# Very many nodes, of which seven values are told apart.", ""
    yield from [("many\t10", "6 7"), ("many\t1000000", "6 999999"), ("many\tx", None)]
    yield "# Pages.", ""
    yield from ((row, paged(row.split("\t")[1:])) for row in HAND_PAGES)
    yield "# Whole trees at random: what a cascade leaves, what is shown, flat objects. Wanted: tools/plain_levels.py.", ""
    yield from random_shapes()
    yield "# Nodes under three edges, each followed by each. Wanted: counted by hand.", ""
    yield from ((f"product\t{count}", product(count)) for count in (0, 1, 2, 10, 48, 49, 400, 1000))
    yield "product\tx", None
    yield "# Recursion: no node of the path comes again. Wanted: a walk along each path.", ""
    yield from ((row, unfolded(row.split("\t")[1:])) for row in HAND_UNFOLDS)
    yield from ((row, unfolded(row.split("\t")[1:])) for row in random_unfolds())
    yield "# A gate, behind which others lead to each other and back. Wanted: by hand.", ""
    yield from ((behind_a_gate(parents, others), gate_row(parents)) for parents, others in ((1, 3), (5, 10), (40, 30)))
    yield "# Rows that can't be read.", ""
    yield from ((row, None) for row in ("cascade\t{ q(", "strip\t{ q(func: uid(0x1)) { uid } }\tnode 1", "normalize\t{ }\tfield a", "else\t1"))
