"""Rows of table_levels about the calls that queries make of a graph.

Answers and numbers were worked out by hand, from what `root` of dg_funcs says of the lists that are read and what `rows_of` and
`run_plan` of dg_level say of levels and of variables.
"""

from __future__ import annotations

from collections.abc import Iterator

KINDS = ["objects", "subjects", "by_token", "by_token_range", "holders", "by_count"]
SCHEMA = (
    "name: string @index(exact) . nick: string @index(hash) . age: int @index(int) . ok: bool @index(bool) . "
    "motto: string @index(term, trigram) . born: dateTime @index(year) . friend: [uid] @reverse @count ."
)
# 1 and 2 lead to 3 and 4, these to 5 and 6, and 5 to 1.
TRIPLES = [
    *("1 name text:Ann", "1 nick text:a", "1 age int:3", "1 ok bool:true", "1 motto text:red fox", "1 born time:2001-02-03", "1 friend 3", "1 friend 4"),
    *("2 name text:Bob", "2 nick text:b", "2 age int:5", "2 ok bool:false", "2 motto text:blue fox", "2 born time:2001-05-06", "2 friend 3", "2 friend 4"),
    *("3 name text:Cid", "3 nick text:a", "3 age int:5", "3 ok bool:true", "3 motto text:red dog", "3 born time:2002-07-08", "3 friend 5", "3 friend 6"),
    *("4 name text:Dan", "4 age int:8", "4 ok bool:false", "4 motto text:a big red dog", "4 friend 5", "4 friend 6"),
    *("5 name text:Eve", "5 friend 1"),
    "6 name text:Fay",
]


def counted(query: str, shown: str, **calls: int) -> tuple[str, str]:
    """A row: what the blocks of a query show, and the calls that are made for it, none of the kinds that aren't named."""
    numbers = " ".join(f"{kind} {calls.pop(kind, 0)}" for kind in KINDS)
    assert not calls
    return f"counted\t{query}", f'{{"data":{{{shown}}}}} {numbers}'


def block(*nodes: str) -> str:
    return f'"q":[{",".join(nodes)}]'


def uids(*nodes: int) -> list[str]:
    return [f'{{"uid":"{node:#x}"}}' for node in nodes]


def root(function: str, *nodes: int, **calls: int) -> tuple[str, str]:
    """A row of a block that asks for the nodes of its root, or of those that pass a filter."""
    head, _, filters = function.partition(" @")
    said = f" @{filters}" if filters else ""
    return counted(f"{{ q(func: {head}){said} {{ uid }} }}", block(*uids(*nodes)), **calls)


def index_rows() -> Iterator[tuple[str, str]]:
    """Roots by an index."""
    yield "# One list for each distinct value of `eq`, by exact, hash, int and bool: they tell alone.", ""
    yield root('eq(name, "Ann")', 1, by_token=1)
    yield root('eq(name, ["Ann", "Bob"])', 1, 2, by_token=2)
    yield root('eq(name, "Ann", "Ann")', 1, by_token=1)
    yield root('eq(name, ["Bob", "Ann", "Bob", "Ann", "Ann"])', 1, 2, by_token=2)
    yield root('eq(name, "Zoe")', by_token=1)
    yield root('eq(nick, "a")', 1, 3, by_token=1)
    yield root('eq(nick, ["a", "b", "a"])', 1, 2, 3, by_token=2)
    yield root("eq(age, 5)", 2, 3, by_token=1)
    yield root('eq(age, [5, "3", 5, 3])', 1, 2, 3, by_token=2)
    yield root("eq(ok, true)", 1, 3, by_token=1)
    yield root("eq(ok, [false, true, false])", 1, 2, 3, 4, by_token=2)
    yield "# One for each distinct year, and then the objects of each node that these give.", ""
    yield root('eq(born, ["2001-02-03", "2001-12-31"])', 1, by_token=1, objects=2)
    yield root('eq(born, ["2001-02-03", "2002-07-08"])', 1, 3, by_token=2, objects=3)
    yield "# The range between the two, up to the value or from it on, and then the objects of each node in it.", ""
    yield root("between(age, 4, 8)", 2, 3, 4, by_token_range=1, objects=3)
    yield root("between(age, 3, 4)", 1, by_token_range=1, objects=1)
    yield root("le(age, 5)", 1, 2, 3, by_token_range=1, objects=3)
    yield root("lt(age, 5)", 1, by_token_range=1, objects=3)
    yield root("ge(age, 5)", 2, 3, 4, by_token_range=1, objects=3)
    yield root("gt(age, 5)", 4, by_token_range=1, objects=3)
    yield root('between(name, "B", "D")', 2, 3, by_token_range=1, objects=2)
    yield root('between(born, "2001-01-01", "2001-03-01")', 1, by_token_range=1, objects=2)


def term_rows() -> Iterator[tuple[str, str]]:
    """Roots by an index of terms."""
    yield "# One for each distinct term of `anyofterms`: they tell alone.", ""
    yield root('anyofterms(motto, "dog")', 3, 4, by_token=1)
    yield root('anyofterms(motto, "blue dog")', 2, 3, 4, by_token=2)
    yield root('anyofterms(motto, "Red red, RED dog!")', 1, 3, 4, by_token=2)
    yield root('anyofterms(motto, "red blue dog cat")', 1, 2, 3, 4, by_token=4)
    yield root('anyofterms(motto, "!")')
    yield "# One for each distinct term of `allofterms`, or of each value of `eq`, and then the objects of each node that is on all of these.", ""
    yield root('allofterms(motto, "fox")', 1, 2, by_token=1, objects=2)
    yield root('allofterms(motto, "red dog red")', 3, 4, by_token=2, objects=2)
    yield root('allofterms(motto, "big red dog")', 4, by_token=3, objects=1)
    yield root('allofterms(motto, "blue dog")', by_token=2)
    yield root('eq(motto, "red fox")', 1, by_token=2, objects=1)
    yield root('eq(motto, "fox RED")', by_token=2, objects=1)
    yield root('eq(motto, ["red fox", "red dog"])', 1, 3, by_token=4, objects=3)


def other_rows() -> Iterator[tuple[str, str]]:
    """Other roots, and filters."""
    yield "# Those that have an object. Those that are pointed to have a number of subjects, from 1 on.", ""
    yield root("has(name)", 1, 2, 3, 4, 5, 6, holders=1)
    yield root("has(friend)", 1, 2, 3, 4, 5, holders=1)
    yield root("has(~friend)", 1, 3, 4, 5, 6, by_count=1)
    yield root("uid(0x2, 0x9)", 2, 9)
    yield "# The numbers that stand so.", ""
    yield root("eq(count(friend), 2)", 1, 2, 3, 4, by_count=1)
    yield root("eq(count(friend), [1, 2, 1])", 1, 2, 3, 4, 5, by_count=2)
    yield root("le(count(friend), 1)", 5, by_count=1)
    yield root("between(count(friend), 1, 2)", 1, 2, 3, 4, 5, by_count=1)
    yield root("ge(count(friend), 2)", 1, 2, 3, 4, by_count=1)
    yield root("eq(count(~friend), 1)", 1, by_count=1)
    yield root("gt(count(~friend), 1)", 3, 4, 5, 6, by_count=1)
    yield "# No list serves a pattern: each node with an object is asked.", ""
    yield root("regexp(motto, /fox/)", 1, 2, holders=1, objects=4)
    yield "# A filter is asked of each node of the root once; behind `and` of those that passed so far, behind `or` of those that haven't.", ""
    yield root("has(name) @filter(eq(age, 5))", 2, 3, holders=1, objects=6)
    yield root("has(name) @filter(eq(age, 5) and eq(ok, true))", 3, holders=1, objects=6 + 2)
    yield root("has(name) @filter(eq(age, 5) or eq(ok, true))", 1, 2, 3, holders=1, objects=6 + 4)


def level_rows() -> Iterator[tuple[str, str]]:
    """Levels of nodes to which several lead."""
    head = 'q(func: eq(name, ["Ann", "Bob"]))'
    yield "# 1 and 2 lead to 3 and 4, and both of these to 5 and 6. What a field shows is asked once for each node of a level (`rows_of`), however", ""
    yield "# many lead to it: of 1 and 2 the edge, of 3 and 4 the edge; with names 4, 4 and 2 calls, and not 4, 8 and 8.", ""
    below = f'{{"friend":[{",".join(uids(3, 4))}]}}'
    yield counted(f"{{ {head} {{ friend {{ uid }} }} }}", block(below, below), by_token=2, objects=2)
    below = f'{{"friend":[{",".join(uids(5, 6))}]}}'
    below = f'{{"friend":[{below},{below}]}}'
    yield counted(f"{{ {head} {{ friend {{ friend {{ uid }} }} }} }}", block(below, below), by_token=2, objects=2 + 2)
    last = '"friend":[{"name":"Eve"},{"name":"Fay"}]'
    below = f'"friend":[{{"name":"Cid",{last}}},{{"name":"Dan",{last}}}]'
    shown = block(f'{{"name":"Ann",{below}}}', f'{{"name":"Bob",{below}}}')
    yield counted(f"{{ {head} {{ name friend {{ name friend {{ name }} }} }} }}", shown, by_token=2, objects=4 + 4 + 2)
    below = '{"friend":[{"count(friend)":2,"count(~friend)":2},{"count(friend)":2,"count(~friend)":2}]}'
    yield counted(f"{{ {head} {{ friend {{ count(friend) count(~friend) }} }} }}", block(below, below), by_token=2, objects=2 + 2, subjects=2)
    below = f'{{"~friend":[{",".join(uids(1, 2))}]}}'
    below = f'{{"~friend":[{below},{below}]}}'
    query = '{ q(func: eq(name, ["Eve", "Fay"])) { ~friend { ~friend { uid } } } }'
    yield counted(query, block(below, below), by_token=2, subjects=2 + 2)
    yield "# A filter and an order ask 3 and 4 once. Then 3 alone is in the level below, and shows its name.", ""
    below = '{"friend":[{"name":"Cid"}]}'
    yield counted(f"{{ {head} {{ friend @filter(eq(ok, true)) {{ name }} }} }}", block(below, below), by_token=2, objects=2 + 2 + 1)
    yield counted(f"{{ {head} {{ friend (orderasc: age, first: 1) {{ name }} }} }}", block(below, below), by_token=2, objects=2 + 2 + 1)
    yield "# With a cascade the edges are followed once too, where the block has it and where the first edge has it.", ""
    below = f'{{"friend":[{",".join(uids(5, 6))}]}}'
    below = f'{{"friend":[{below},{below}]}}'
    yield counted(f"{{ {head} @cascade {{ friend {{ friend {{ uid }} }} }} }}", block(below, below), by_token=2, objects=2 + 2)
    yield counted(f"{{ {head} {{ friend @cascade {{ friend {{ uid }} }} }} }}", block(below, below), by_token=2, objects=2 + 2)
    yield "# So are values, with flat objects too: 4, 4 and 2 calls as above, 4 and 2, and 2, 4 and 2. Of a node that is dropped, as it has no age, the", ""
    yield "# edge isn't followed: two ages, one edge, two ages.", ""
    yield counted(f"{{ {head} @cascade {{ name friend {{ name friend {{ name }} }} }} }}", shown, by_token=2, objects=4 + 4 + 2)
    pairs = block(*(f'{{"n":"{name}","m":"{child}"}}' for name in ("Ann", "Bob") for child in ("Cid", "Dan")))
    yield counted(f"{{ {head} @cascade @normalize {{ n: name friend {{ m: name }} }} }}", pairs, by_token=2, objects=4 + 2)
    below = f'{{"friend":[{{"name":"Cid",{last}}},{{"name":"Dan",{last}}}]}}'
    yield counted(f"{{ {head} {{ friend @cascade {{ name friend {{ name }} }} }} }}", block(below, below), by_token=2, objects=2 + 4 + 2)
    query = '{ q(func: eq(name, ["Ann", "Eve"])) @cascade { age friend { age } } }'
    yield counted(query, block('{"age":3,"friend":[{"age":5},{"age":8}]}'), by_token=2, objects=2 + 1 + 2)
    yield "# For a variable the edge is followed in a block that isn't shown; a block that is shown is run once more for its text.", ""
    query = '{ var(func: eq(name, ["Ann", "Bob"])) { name f as friend { name } } q(func: uid(f)) { name } }'
    yield counted(query, block('{"name":"Cid"}', '{"name":"Dan"}'), by_token=2, objects=2 + 2)
    shown = block(f'{{"friend":[{",".join(uids(3, 4))}]}}', f'{{"friend":[{",".join(uids(3, 4))}]}}')
    query = f"{{ {head} {{ f as friend {{ uid }} }} r(func: uid(f)) {{ uid }} }}"
    yield counted(query, f'{shown},"r":[{",".join(uids(3, 4))}]', by_token=2 + 2, objects=2 + 2)


def recursion_rows() -> Iterator[tuple[str, str]]:
    """Recursions, whose nodes are reached by several ways."""
    yield "# Of the nodes at the last level the names alone are asked for, and where they lead isn't; of the others that is asked once.", ""
    query = "{{ q(func: uid(0x1)) @recurse(depth: {}) {{ name friend }} }}"
    yield counted(query.format(1), block('{"name":"Ann"}'), objects=1)
    yield counted(query.format(2), block('{"name":"Ann","friend":[{"name":"Cid"},{"name":"Dan"}]}'), objects=3 + 1)
    last = '"friend":[{"name":"Eve"},{"name":"Fay"}]'
    shown = block(f'{{"name":"Ann","friend":[{{"name":"Cid",{last}}},{{"name":"Dan",{last}}}]}}')
    yield counted(query.format(3), shown, objects=5 + 3)
    yield counted("{ q(func: uid(0x1, 0x2)) @recurse(depth: 2) { friend } }", block(), objects=2)
    yield counted("{ q(func: uid(0x1)) @recurse(depth: 32) { friend } }", block(), objects=5)


def held(filters: str, *nodes: int) -> tuple[str, str]:
    """A row of the nodes with a name at which filters hold, each asked by itself."""
    return f"held\t{{ q(func: has(name)) {filters} {{ uid }} }}", " ".join(map(str, nodes))


def held_rows() -> Iterator[tuple[str, str]]:
    """Filters, node by node."""
    yield "# At which nodes a filter holds, each node asked by itself. Wanted: by hand, from what each node has.", ""
    yield held("", 1, 2, 3, 4, 5, 6)
    yield held("@filter(eq(age, 5))", 2, 3)
    yield held("@filter(not eq(age, 5))", 1, 4, 5, 6)
    yield held("@filter(not not eq(age, 5))", 2, 3)
    yield held("@filter(eq(age, 5) and eq(ok, true))", 3)
    yield held("@filter(eq(age, 5) or eq(ok, true))", 1, 2, 3)
    yield held("@filter(not (eq(age, 5) or eq(ok, true)))", 4, 5, 6)
    yield held("@filter(uid(0x6, 0x1, 0x9))", 1, 6)
    yield held("@filter(has(friend))", 1, 2, 3, 4, 5)
    yield held("@filter(has(~friend))", 1, 3, 4, 5, 6)
    yield held("@filter(gt(count(friend), 1))", 1, 2, 3, 4)
    yield held("@filter(eq(count(~friend), 0))", 2)
    yield held("@filter(uid_in(friend, 0x5))", 3, 4)
    yield held("@filter(uid_in(~friend, 0x5))", 1)
    yield held("@filter(between(age, 4, 8))", 2, 3, 4)
    yield held('@filter(allofterms(motto, "red dog"))', 3, 4)
    yield held('@filter(anyofterms(motto, "blue big"))', 2, 4)
    yield held("@filter(regexp(motto, /dog$/))", 3, 4)
    yield held('@filter(ge(born, "2001-05-06"))', 2, 3)
    yield held('@filter(le(name, "Bob"))', 1, 2)
    yield held('@filter(eq(name, "Zoe"))')


def ring_rows() -> Iterator[tuple[str, str]]:
    """A graph in which each of 30 nodes leads to each."""
    yield "# Each of 30 nodes leads to each: 1, 30 and 30 lists, and not 1, 30 and 900. Of pages what is on them alone is followed.", ""
    yield "schema\tnext: [uid] .", "1 declared"
    yield "ring\t30", "900 triples"
    yield counted("{ q(func: uid(0x1)) { next { next { next { none } } } } }", block(), objects=1 + 30 + 30)
    below = f'{{"next":[{uids(1)[0]}]}}'
    shown = block(f'{{"next":[{below},{below}]}}')
    yield counted("{ q(func: uid(0x1)) { next (first: 2) { next (first: 1) { uid } } } }", shown, objects=1 + 2)


def cascade_rows() -> Iterator[tuple[str, str]]:
    """Cascades over the same graph, along ten lists of one node each."""
    yield "# A cascade reads each of ten lists once, as if there were none: to find what is left, and what is shown reads none again. So it is", ""
    yield "# where the block has it, with flat objects too, and where its first edge has it.", ""
    yield "# Where nothing is left no list is read twice: 1, 30 and 30 lists. What isn't declared has no values to be read.", ""
    below, shown = "uid", uids(1)[0]
    for _ in range(10):
        below = f"next (first: 1) {{ {below} }}"
        shown = f'{{"next":[{shown}]}}'
    yield counted(f"{{ q(func: uid(0x1)) @cascade {{ {below} }} }}", block(shown), objects=10)
    edge = below.replace("(first: 1)", "(first: 1) @cascade", 1)
    yield counted(f"{{ q(func: uid(0x1)) {{ {edge} }} }}", block(shown), objects=1 + 9)
    flat = below.replace("uid", "u: uid")
    yield counted(f"{{ q(func: uid(0x1)) @cascade @normalize {{ {flat} }} }}", block('{"u":"0x1"}'), objects=10)
    yield counted("{ q(func: uid(0x1)) @cascade { next { next { next { none } } } } }", block(), objects=1 + 30 + 30)


def rows() -> Iterator[tuple[str, str]]:
    yield "# Calls of each kind but `schema` that a query makes of a graph. Wanted: worked out by hand from the table at `root` of dg_funcs and", ""
    yield "# from what dg_level says of levels, as the comments below say.", ""
    yield f"schema\t{SCHEMA}", "7 declared"
    yield "set\t" + "\t".join(TRIPLES), "33 triples"
    yield from index_rows()
    yield from term_rows()
    yield from other_rows()
    yield from level_rows()
    yield from recursion_rows()
    yield from held_rows()
    yield "# With 100 more nodes that have a name the same calls are made.", ""
    yield "set\t" + "\t".join(f"{node} name text:N{node}" for node in range(7, 107)), "133 triples"
    yield root('eq(name, ["Ann", "Bob"])', 1, 2, by_token=2)
    yield root('between(name, "B", "D")', 2, 3, by_token_range=1, objects=2)
    yield from ring_rows()
    yield from cascade_rows()
