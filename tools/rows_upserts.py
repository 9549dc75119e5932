#!/usr/bin/env python3
"""Prints the rows of crates/table_runs about upsert blocks, as they stand in its stdin; `rows_runs.py` gives their answers.

What stands for itself is written by hand, and at the end are random blocks (`random_upserts.py`) over a random graph. It needs
Python 3.9 or later.
"""

from __future__ import annotations

from collections.abc import Iterator

from random_scripts import Draw
from random_words import NODES, PREDICATES

SEED = 32
RANDOM = 60
# So many triples stand in the random graph at first.
FIRST = 60
SHOWN = ["name note", "age nums", "ok flags", "born days", "tags", "friend { uid }", "boss { uid }", "count(friend)"]
COMPARED = ["eq", "le", "lt", "ge", "gt"]
# A row without a body ends in a blank.
EMPTY = ""


def block(query: str, *mutations: str) -> str:
    """An upsert block of these blocks and mutations."""
    return f"upsert {{ query {{ {f'{query} ' if query else ''}}} {' '.join(f'mutation {mutation}' for mutation in mutations)} }}"


def upsert(session: int, query: str, *mutations: str) -> str:
    return f"frame | upsert {session} | {block(query, *mutations)}"


def asked(session: int, query: str) -> str:
    return f"frame | query {session} | {{ {query} }}"


def told(condition: str, name: str = "yes") -> str:
    """A mutation that makes a new node, which the reply shows, where its condition holds."""
    return f'@if({condition}) {{ set {{ _:{name} <mark> "m" . }} }}'


# ---------------------------------------------------------------------------------------------------
# Who is there already, and who isn't
# ---------------------------------------------------------------------------------------------------

SIGN_UP = ('q(func: eq(email, "a@x")) { v as uid }', '{ set { uid(v) <email> "a@x" . } }')
ONLY_NEW = ('q(func: eq(email, "b@x")) { v as uid }', '@if(eq(len(v), 0)) { set { uid(v) <email> "b@x" . uid(v) <name> "Bea" . } }')
ALL = asked(3, "q(func: has(email)) { uid email name }")

MEETINGS = f"""
# Upsert blocks. Two sessions look for one text, find none and make a node each: with @upsert the later commit is refused, and what
# begins behind the earlier one finds its node.
frame | alter | email: string @index(exact) @upsert . name: string .
frame | begin 1
frame | begin 2
{upsert(1, *SIGN_UP)}
{upsert(1, *SIGN_UP)}
{upsert(2, *SIGN_UP)}
frame | commit 1
frame | commit 2
frame | begin 2
{upsert(2, *SIGN_UP)}
{upsert(2, *ONLY_NEW)}
{upsert(2, *ONLY_NEW)}
frame | commit 2
frame | begin 1
frame | begin 2
frame | begin 3
{upsert(1, *ONLY_NEW)}
{upsert(2, 'q(func: eq(email, "b@x")) { v as uid }', '@if(gt(len(v), 0)) { set { uid(v) <name> "Bo" . } }')}
frame | commit 1
frame | commit 2
{ALL}
frame | discard 3
frame | begin 3
{ALL}
frame | commit 3
run

# The same without @upsert: both commits stand, and there are two nodes of one address. Who sees one of them and changes it meets
# the other writer of that node as before.
frame | alter | email: string @index(exact) . name: string .
frame | begin 1
frame | begin 2
{upsert(1, *SIGN_UP)}
{upsert(2, *SIGN_UP)}
frame | commit 1
frame | commit 2
frame | begin 3
{ALL}
frame | begin 1
frame | begin 2
{upsert(1, 'q(func: eq(email, "a@x"), first: 1) { v as uid }', '{ set { uid(v) <name> "Ann" . } }')}
{upsert(2, 'q(func: eq(email, "a@x")) { v as uid }', '{ set { uid(v) <name> "Anna" . } }')}
frame | commit 2
frame | commit 1
frame | commit 3
frame | begin 3
{ALL}
run
"""

# ---------------------------------------------------------------------------------------------------
# Conditions
# ---------------------------------------------------------------------------------------------------

# A variable of two nodes, of none, of three values, of a predicate that isn't declared, and of a count.
COUNTED = "v as var(func: uid(0x1, 0x2)) { } w as var(func: uid(0x1), first: 0) { } var(func: has(age)) { x as age } " + (
    "var(func: has(name)) { z as nope n as count(friend) }"
)
OTHERS = [
    *("eq(len(w), 0)", "gt(len(w), 0)", "eq(len(x), 3)", "eq(len(z), 0)", "eq(len(n), 2)", "gt(len(z), -1)"),
    *("eq(len(v), 002)", "ge(len(v), -9223372036854775808)", "gt(len(v), 9223372036854775807)", "lt(len(v), -0)"),
    *("not eq(len(v), 2)", "not eq(len(v), 3)", "NOT not eq(len(v), 2)", "nOt NoT Not eq(len(v), 2)"),
    *("eq(len(v), 2) and eq(len(w), 0)", "eq(len(v), 2) AND eq(len(w), 1)", "eq(len(v), 1) aNd eq(len(w), 0)"),
    *("eq(len(v), 1) or eq(len(w), 0)", "eq(len(v), 2) OR eq(len(w), 1)", "eq(len(v), 1) oR eq(len(w), 1)"),
    "eq(len(v), 2) or eq(len(w), 0) and eq(len(w), 1)",
    "(eq(len(v), 2) or eq(len(w), 0)) and eq(len(w), 1)",
    "not eq(len(v), 2) and eq(len(w), 1)",
    "not (eq(len(v), 2) And eq(len(w), 1))",
    "not ((eq(len(v), 2)) or not (eq(len(w), 0)))",
    "((eq(len(v), 2))) and (not (eq(len(x), 0) or (eq(len(z), 1) or eq(len(n), 0))))",
]


def conditions() -> Iterator[str]:
    yield "# Conditions: each comparison below, at and above the number of a variable's nodes, `not`, `and` and `or` in letters of any case,"
    yield "# and brackets. A mutation whose condition holds makes a new node."
    yield "frame | alter | mark: string . age: int . name: string . friend: [uid] ."
    yield "frame | begin 1"
    yield 'frame | mutate 1 | <0x1> <age> "1" . <0x2> <age> "2" . <0x3> <age> "1" . <0x4> <name> "D" . <0x5> <name> "E" . <0x5> <friend> <0x4> .'
    for number in (1, 2, 3):
        yield upsert(1, COUNTED, *(told(f"{word}(len(v), {number})", word) for word in COMPARED))
        yield upsert(1, COUNTED, *(told(f"not {word}(len(v), {number})", word) for word in COMPARED))
    yield from (upsert(1, COUNTED, told(condition)) for condition in OTHERS)
    yield "run"


ORDER = f"""
# Conditions are looked at before any change of the request, and so is what a variable stands for; mutations go in the order of the
# text, and the last of two that set one value is what stays.
frame | alter | name: string @index(exact) . tags: [string] . friend: [uid] . boss: uid .
frame | begin 1
{upsert(1, 'v as var(func: eq(name, "A")) { }', '@if(eq(len(v), 0)) { set { <0x1> <name> "A" . } }', '@if(eq(len(v), 0)) { set { <0x1> <tags> "none" . } }', '@if(gt(len(v), 0)) { set { <0x1> <tags> "some" . } }', '{ set { uid(v) <tags> "new" . } }')}
{asked(1, 'q(func: uid(0x1, 0x2)) { uid name tags }')}
{upsert(1, 'v as var(func: eq(name, "A")) { }', '@if(eq(len(v), 1)) { set { <0x3> <name> "first" . } }', '{ set { <0x3> <name> "second" . } }', '@if(eq(len(v), 0)) { set { <0x3> <name> "third" . } }')}
{upsert(1, 'v as var(func: eq(name, "A")) { }', '{ set { <0x4> <name> "second" . } }', '@if(eq(len(v), 1)) { set { <0x4> <name> "first" . } }')}
{upsert(1, '', '{ set { <0x5> <name> "kept" . } delete { <0x5> <name> "other" . } }', '{ delete { <0x3> <name> "second" . } set { <0x6> <name> "F" . } }')}
{upsert(1, '', '{ delete { <0x6> <name> * . } }', '{ set { <0x6> <name> "again" . <0x6> <tags> "x" . } }', '{ delete { <0x6> <tags> * . } }')}
{asked(1, 'q(func: has(name)) { uid name tags }')}
{upsert(1, 'v as var(func: has(name)) { }', '{ delete { uid(v) <name> * . uid(v) <tags> * . } set { uid(v) <tags> "was named" . } }')}
{asked(1, 'q(func: has(tags)) { uid name tags } p(func: has(name)) { uid }')}
{upsert(1, 'v as var(func: has(tags), orderdesc: tags, first: 3) { } w as var(func: uid(0x9, 0x7, 0x8)) { }', '{ set { uid(v) <boss> uid(w) . uid(w) <friend> uid(v) . } }')}
{asked(1, 'q(func: has(boss)) { uid boss { uid } } p(func: has(friend)) { uid friend { uid } }')}
{upsert(1, 'v as var(func: has(boss)) { w as boss }', '{ delete { uid(v) <boss> uid(w) . } set { uid(w) <boss> uid(v) . } }')}
{asked(1, 'q(func: has(boss)) { uid boss { uid } }')}
frame | commit 1
run
"""

# ---------------------------------------------------------------------------------------------------
# New nodes
# ---------------------------------------------------------------------------------------------------

NONE = "v as var(func: uid(0x1), first: 0) { }"
NONE_TWICE = f"{NONE} w as var(func: uid(0x1), first: 0) {{ }}"
BOTH = f"{NONE} u as var(func: uid(0x3, 0x2)) {{ }}"

NEW = f"""
# A variable without a node stands in a set for a new node, which is one in the whole request; in a delete for none. New nodes are
# numbered as they appear, subjects before objects, and above all that variables stand for.
frame | alter | name: string . note: string . age: int . friend: [uid] . boss: uid .
frame | begin 1
{upsert(1, NONE, '{ set { uid(v) <name> "A" . uid(v) <note> "one" . } }')}
{upsert(1, NONE, '{ set { uid(v) <friend> uid(v) . } }')}
{upsert(1, NONE, '{ set { uid(v) <name> "C" . } }', '{ set { uid(v) <note> "C too" . <0x1> <friend> uid(v) . } }')}
{upsert(1, NONE_TWICE, '{ set { uid(v) <friend> uid(w) . } }')}
{upsert(1, NONE_TWICE, '{ set { <0x1> <friend> uid(w) . uid(v) <friend> _:v . } set { _:a <friend> uid(w) . } }')}
{upsert(1, NONE_TWICE, '{ set { _:zz <friend> uid(v) . _:B <friend> _:zz . uid(w) <friend> _:_x . _:u <name> "u" . } }')}
{asked(1, 'q(func: has(friend)) { uid friend { uid name } } p(func: has(name)) { uid name note }')}
{upsert(1, NONE, '{ delete { uid(v) <name> * . uid(v) <name> "A" . uid(v) <friend> <0x1> . } }')}
{upsert(1, NONE, '{ delete { <0x50> <friend> uid(v) . uid(v) <friend> uid(v) . } }')}
{upsert(1, NONE, '{ delete { uid(v) <name> "A" . } set { <0x1> <friend> uid(v) . } delete { <0x1> <friend> uid(v) . } }')}
{upsert(1, NONE, '@if(gt(len(v), 0)) { set { uid(v) <name> "no" . _:no <name> "no" . <0x70> <name> "no" . } }')}
{upsert(1, NONE, '{ }', '{ set { } delete { } }')}
{upsert(1, NONE, '{ set { _:next <name> "next" . } }')}
{upsert(1, NONE, '{ set { <0x20> <friend> uid(v) . } }')}
{upsert(1, BOTH, '{ set { uid(u) <friend> uid(v) . uid(v) <boss> uid(u) . } }')}
{asked(1, 'q(func: uid(0x2, 0x3, 0x20, 0x22)) { uid friend { uid } boss { uid } }')}
{upsert(1, 'v as var(func: uid(0x40)) { }', '{ delete { uid(v) <name> * . } }')}
{upsert(1, 'v as var(func: uid(0x30)) { }', '{ set { _:after <friend> uid(v) . } }')}
{upsert(1, 'v as var(func: uid(0x50)) { }', '{ delete { <0x1> <friend> uid(v) . } set { _:then <name> "then" . } }')}
{upsert(1, f'{NONE} var(func: uid(0x60)) {{ x as nope }}', '{ set { uid(v) <name> val(x) . <0x61> <name> val(x) . uid(x) <name> "x" . } }')}
frame | commit 1
run
"""

VALUES = f"""
# val(x) is the text of a variable's value at the subject; where it has none there, the statement stands for none. It is the least
# of a list, and reads as what its new predicate takes.
frame | alter | name: string . note: default . age: int . ok: bool . born: dateTime . nums: [int] . tags: [string] . days: [dateTime] . friend: [uid] . flag: bool .
frame | begin 1
frame | mutate 1 | <0x1> <name> "Ann \\"A\\"" . <0x2> <name> "12" . <0x3> <name> "true" . <0x4> <name> "" . <0x1> <age> "-007" . <0x2> <age> "9223372036854775807" .
frame | mutate 1 | <0x1> <ok> "true" . <0x2> <ok> "false" . <0x1> <born> "1993-05-19T10:20:30.50+01:30" . <0x2> <born> "0000-01-01" . <0x1> <nums> "5" . <0x1> <nums> "-1" . <0x3> <nums> "7" . <0x1> <friend> <0x2> . <0x1> <friend> <0x3> .
{upsert(1, 'var(func: has(name)) { x as age y as ok z as born }', '{ set { uid(x) <tags> val(x) . uid(y) <tags> val(y) . uid(z) <tags> val(z) . } }')}
{upsert(1, 'var(func: has(name)) { x as nums y as count(friend) z as name }', '{ set { uid(x) <age> val(x) . uid(y) <nums> val(y) . uid(z) <note> val(z) . } }')}
{asked(1, 'q(func: has(name)) { uid name note age nums tags }')}
{upsert(1, 'var(func: uid(0x2)) { x as age } v as var(func: uid(0x1, 0x2, 0x5)) { }', '{ set { uid(v) <tags> val(x) . <0x1> <note> val(x) . <0x6> <note> val(x) . _:new <note> val(x) . } }')}
{upsert(1, 'var(func: uid(0x2)) { x as age }', '{ set { <0x2> <nums> val(x) . <0x2> <note> val(x) . } }')}
{upsert(1, 'var(func: uid(0x1)) { x as name } w as var(func: uid(0x1), first: 0) { }', '{ set { uid(w) <note> val(x) . uid(w) <name> "W" . } }')}
{upsert(1, 'var(func: uid(0x1)) { x as born y as ok }', '{ set { uid(x) <days> val(x) . uid(y) <flag> val(y) . } }')}
{asked(1, 'q(func: uid(0x1, 0x2, 0x5, 0x6, 0x7)) { uid name note nums tags days flag }')}
{upsert(1, 'var(func: uid(0x3)) { x as name }', '{ set { uid(x) <flag> val(x) . } }')}
{upsert(1, 'var(func: uid(0x2)) { x as name }', '{ set { uid(x) <nums> val(x) . } }')}
{upsert(1, 'var(func: uid(0x1)) { x as name }', '{ set { uid(x) <nums> val(x) . } }')}
{upsert(1, 'var(func: uid(0x4)) { x as name }', '{ set { uid(x) <nums> val(x) . } }')}
{upsert(1, 'var(func: uid(0x8)) { x as name }', '{ set { <0x8> <nums> val(x) . <0x9> <friend> val(x) . <0x9> <none> val(x) . } }')}
{upsert(1, 'var(func: has(name)) { x as tags }', '{ delete { uid(x) <tags> val(x) . } }')}
{upsert(1, 'var(func: uid(0x1)) { x as nums } var(func: uid(0x1)) { y as count(nums) }', '{ delete { uid(x) <nums> val(x) . } set { uid(y) <age> val(y) . } }')}
{asked(1, 'q(func: has(name)) { uid age nums tags flag }')}
{upsert(1, 'var(func: uid(0x1)) { x as friend } var(func: has(age)) { a as age } var() { s: sum(val(a)) }', '{ set { uid(x) <friend> uid(a) . } }')}
{upsert(1, 'var(func: uid(0x1)) { x as friend } var(func: uid(0x1)) { a as age } var() { sum(val(a)) }', '@if(eq(len(a), 1)) { set { uid(x) <friend> uid(a) . } }')}
{asked(1, 'q(func: has(friend)) { uid friend { uid } }')}
frame | commit 1
run
"""

# ---------------------------------------------------------------------------------------------------
# Refusals
# ---------------------------------------------------------------------------------------------------

DEEP = "{ q(func: uid(0x1)) " + "{ friend " * 31
SCORES = "var(func: has(score)) { x as score }"
SUM = f"{SCORES} var() {{ sum(val(x)) }}"

REFUSED = f"""
# The refusals of an upsert block in their order, which leave the transaction and the next node as they were: no session, no token,
# too deep, no upsert block; unknown variables, twice, in a circle; no index, no literal, no page, no depth; a sum; and then, by
# statement, no predicate, an object of another sort, a text that doesn't read; no node.
frame | alter | name: string @index(exact) . age: int . score: int . friend: [uid] . tags: [string] .
frame | upsert 1 | ! not even a token
frame | begin 1
frame | mutate 1 | <0x1> <score> "9223372036854775807" . <0x2> <score> "1" .
frame | upsert 2 | {EMPTY}
hex | upsert 1 | 75 70 73 65 72 74 20 7b ff 21
hex | upsert 1 | 21 75 70 73 65 72 74 20 7b ff
frame | upsert 1 | upsert {{ ! {DEEP}
frame | upsert 1 | upsert {{ query {DEEP}
frame | upsert 1 | {{ {{ {DEEP}
frame | upsert 1 | {EMPTY}
frame | upsert 1 | <0x1> <name> "A" .
frame | upsert 1 | {{ set {{ <0x1> <name> "A" . }} }}
frame | upsert 1 | {{ query {{ }} mutation {{ }} }}
frame | upsert 1 | Upsert {{ query {{ }} mutation {{ }} }}
frame | upsert 1 | upsert {{ query {{ }} }}
frame | upsert 1 | upsert {{ mutation {{ }} query {{ }} }}
frame | upsert 1 | upsert {{ query {{ v as var(func: eq(name, "A")) }} mutation {{ set {{ uid(v) <name> "B" . }} }} }}
{upsert(1, '', '{ <0x1> <name> "A" . }')}
{upsert(1, '', '{ set { <0x1> <name> * . } }')}
{upsert(1, '', '{ delete { _:a <name> * . } }')}
{upsert(1, '', '{ delete { <0x1> <friend> _:a . } }')}
{upsert(1, '', '{ set { val(x) <name> "A" . } }')}
{upsert(1, '', '{ set { uid <name> "A" . } }')}
{upsert(1, '', '{ set { uid(0x1) <name> "A" . } }')}
{upsert(1, '', '@if() { }')}
{upsert(1, '', '@if(eq(len(v), 9223372036854775808)) { }')}
{upsert(1, '', '@if(eq(len(v), "1")) { }')}
{upsert(1, '', '@if(between(len(v), 1, 2)) { }')}
{upsert(1, '', '@if(eq(count(v), 1)) { }')}
{upsert(1, '', '@filter(eq(len(v), 1)) { }')}
{upsert(1, '', '@if(eq(len(v), 1)) @if(eq(len(v), 1)) { }')}
{upsert(1, '', '@if(eq(len(v), 1) xor eq(len(v), 1)) { }')}
{upsert(1, 'q(func: uid(0x1)) { uid } q(func: uid(0x1)) { uid }', '{ }')}
{upsert(1, 'q(func: ge(age, "x"), first: 1, first: 2) @recurse { name }', '@if(eq(len(v), 0)) { }')}
{upsert(1, 'a(func: uid(u)) { x as uid x as name } b(func: ge(age, 1)) { uid }', '{ set { uid(v) <nope> <0x2> . } }')}
{upsert(1, 'a(func: uid(0x1)) { v as uid }', '@if(eq(len(u), 0)) { set { uid(w) <nope> <0x2> . } }')}
{upsert(1, 'a(func: uid(0x1)) { v as uid }', '{ set { uid(w) <name> val(y) . } }', '@if(eq(len(u), 0)) { }')}
{upsert(1, 'a(func: uid(0x1)) { v as uid }', '@if(eq(len(v), 9)) { set { uid(v) <name> val(v) . } }')}
{upsert(1, 'a(func: uid(0x1)) { v as friend }', '{ delete { uid(v) <name> val(v) . } }')}
{upsert(1, 'a(func: uid(0x1)) { x as uid x as name } b(func: ge(age, 1)) { uid }', '{ set { uid(x) <nope> <0x2> . } }')}
{upsert(1, 'x as a(func: uid(x)) @filter(has(~friend)) { uid }', '{ set { uid(x) <nope> <0x2> . } }')}
{upsert(1, 'x as a(func: ge(age, "x")) { uid }', '{ set { uid(x) <nope> <0x2> . } }')}
{upsert(1, 'x as a(func: has(~friend)) { uid }', '{ set { uid(x) <nope> <0x2> . } }')}
{upsert(1, 'x as a(func: uid(0x1), first: 1, first: 2) @filter(ge(age, "x")) { uid }', '{ set { uid(x) <nope> <0x2> . } }')}
{upsert(1, 'x as a(func: uid(0x1)) @filter(regexp(name, /(/)) { uid }', '{ set { uid(x) <nope> <0x2> . } }')}
{upsert(1, 'a(func: uid(0x1), offset: -1) @recurse(depth: 33) { name }', '{ set { <0x1> <nope> <0x2> . } }')}
{upsert(1, f'{SUM} a(func: uid(0x1)) @recurse(depth: 33) {{ name }}', '{ set { <0x1> <nope> <0x2> . } }')}
{upsert(1, SUM, '{ set { <0x1> <nope> <0x2> . } }')}
{upsert(1, f'{SCORES} t() {{ s: sum(val(x)) }}', '@if(eq(len(x), 9)) { }')}
{upsert(1, f'{SCORES} var(func: uid(0x1)) {{ y as score }} t() {{ max(val(x)) sum(val(y)) }}', '{ set { uid(y) <age> val(y) . } }')}
{upsert(1, '', '{ set { <0x1> <name> "set" . <0x1> <nope> <0x2> . <0x1> <name> <0x2> . } }')}
{upsert(1, '', '{ set { <0x1> <name> <0x2> . <0x1> <nope> <0x2> . } }')}
{upsert(1, '', '{ set { <0x1> <age> "x" . <0x1> <name> <0x2> . } }')}
{upsert(1, '', '{ set { <0x1> <age> "1"^^<xs:boolean> . <0x1> <name> <0x2> . } }')}
{upsert(1, '', '{ set { <0x1> <friend> "x" . } }')}
{upsert(1, 'var(func: uid(0x1)) { x as score } v as var(func: uid(0x1), first: 0) { }', '{ set { uid(v) <friend> val(x) . uid(x) <friend> val(x) . } }')}
{upsert(1, 'v as var(func: uid(0x1), first: 0) { }', '{ delete { uid(v) <nope> * . <0x1> <name> uid(v) . } }')}
{upsert(1, 'v as var(func: uid(0x1), first: 0) { }', '{ set { <0x1> <name> uid(v) . } }')}
{upsert(1, 'v as var(func: uid(0x1, 0x2)) { }', '@if(eq(len(v), 0)) { set { <0x1> <nope> "x" . } }')}
{upsert(1, 'v as var(func: uid(0x1, 0x2)) { }', '@if(eq(len(v), 2)) { set { <0x1> <nope> "x" . } }')}
{upsert(1, 'v as var(func: uid(0x4000000000000000)) { }', '{ set { uid(v) <age> "x" . } }')}
{upsert(1, 'v as var(func: uid(0x4000000000000000)) { }', '{ set { uid(v) <age> "1" . } }')}
{upsert(1, 'v as var(func: uid(0xffffffffffffffff)) { }', '{ delete { <0x1> <friend> uid(v) . } }')}
{upsert(1, 'v as var(func: uid(0x4000000000000000)) { }', '@if(eq(len(v), 0)) { set { uid(v) <age> "1" . } }')}
{upsert(1, 'v as var(func: uid(0x4000000000000000)) { }', '{ delete { uid(v) <age> val(x) . } }')}
{upsert(1, 'v as var(func: uid(0x4000000000000000)) { x as age }', '{ set { uid(v) <age> val(x) . } }')}
{asked(1, 'q(func: has(score)) { uid name age score } p(func: has(name)) { uid }')}
{upsert(1, 'v as var(func: uid(0x1), first: 0) { }', '{ set { uid(v) <name> "the third node" . } }')}
{upsert(1, 'v as var(func: uid(0x3fffffffffffffff)) { }', '{ set { uid(v) <name> "last" . _:a <name> "no more" . } }')}
{upsert(1, 'v as var(func: uid(0x3ffffffffffffffe)) { }', '{ set { uid(v) <name> "the last but one" . _:a <name> "last" . } }')}
{upsert(1, 'v as var(func: uid(0x1), first: 0) { }', '{ set { uid(v) <name> "no more" . } }')}
{upsert(1, 'v as var(func: uid(0x1), first: 0) { }', '{ delete { uid(v) <name> "no more" . } }')}
{upsert(1, 'v as var(func: uid(0x3fffffffffffffff)) { }', '{ set { uid(v) <age> "1" . } }')}
{asked(1, 'q(func: has(name)) { uid name age }')}
frame | commit 1
run
"""

# ---------------------------------------------------------------------------------------------------
# Cut, great and random
# ---------------------------------------------------------------------------------------------------

CUT = 'upsert{query{v as a(func:uid(0x1)){x as n}}mutation @if(not lt(len(v),1)){set{uid(v)n val(x).}delete{}}}'


def cut() -> Iterator[str]:
    yield "# An upsert block cut at each of its bytes."
    yield "frame | alter | n: string ."
    yield "frame | begin 1"
    yield from (f"frame | upsert 1 | {CUT[:end]}" for end in range(len(CUT)) if CUT[:end].strip() == CUT[:end])
    yield f"frame | upsert 1 | {CUT}"
    yield "run"


GREAT = f"""
# Many statements of one: 40 nodes that each lead to each, and values of them all; and many mutations, groups and conditions.
frame | alter | name: string . friend: [uid] @reverse @count . boss: uid . age: int .
frame | begin 1
frame | mutate 1 | {' '.join(f'<{hex(node)}> <age> "{node % 7}" .' for node in range(1, 41))}
{upsert(1, 'v as var(func: has(age)) { x as age }', '{ set { uid(v) <friend> uid(v) . uid(x) <name> val(x) . uid(v) <boss> uid(x) . } }')}
{asked(1, 'q(func: eq(count(friend), 40)) { count(uid) } p(func: uid(0x1, 0x28)) { name boss { uid } count(friend) count(~friend) } r(func: has(boss)) { count(uid) }')}
{upsert(1, 'v as var(func: has(age)) @filter(lt(age, 6)) { } w as var(func: has(age)) @filter(ge(age, 2)) { }', '{ delete { uid(v) <friend> uid(w) . uid(w) <boss> * . } }')}
{asked(1, 'q(func: has(name), first: 7) { count(friend) count(~friend) } r(func: has(boss)) { count(uid) }')}
{upsert(1, 'v as var(func: has(age)) { }', '{ delete { uid(v) <friend> * . uid(v) <boss> * . uid(v) <age> * . } }')}
{asked(1, 'q(func: has(friend)) { uid } r(func: has(name)) { count(uid) }')}
repeated | upsert 1 | upsert {{ query {{ v as var(func: has(name)) {{ }} }} … }} | 100 | mutation @if(eq(len(v), 40)) {{ set {{ }} }}
repeated | upsert 1 | upsert {{ query {{ v as var(func: has(name)) {{ }} }} mutation @if(… eq(len(v), 40)) {{ set {{ _:a <name> "even" . }} }} }} | 1000 | not␊
repeated | upsert 1 | upsert {{ query {{ v as var(func: has(name)) {{ }} }} mutation @if(eq(len(v), 1) … ) {{ set {{ _:a <name> "one" . }} }} }} | 100 | or lt(len(v), 40) or eq(len(v), 41) and eq(len(v), 41)
repeated | upsert 1 | upsert {{ query {{ v as var(func: has(name)) {{ }} }} mutation {{ set {{ … }} }} }} | 100 | uid(v) <boss> <0x3> .
{asked(1, 'q(func: has(name)) { count(uid) } r(func: has(boss)) { count(uid) }')}
frame | discard 1
run
"""


def a_row(body: str) -> bool:
    """Whether a body can stand in a row."""
    return " | " not in body and body.strip() == body


def drawn_frames() -> Iterator[str]:
    draw = Draw(SEED)
    yield "# The same at random, over a graph at random."
    yield f"frame | alter | {draw.declared(PREDICATES, 1.1).replace(chr(10), ' ')}"
    yield "frame | begin 1"
    yield f"frame | mutate 1 | {' '.join(draw.triple(PREDICATES, NODES, False) for _ in range(FIRST))}"
    for number in range(RANDOM):
        text = draw.upsert()
        if a_row(text):
            yield f"frame | upsert 1 | {text}"
        if number % 4 == 3:
            yield f"frame | mutate 1 | {draw.changes(PREDICATES, NODES).replace(chr(10), '␊')}"
        if number % 3 == 2:
            yield asked(1, f"q(func: has({draw.choice(PREDICATES)})) {{ uid {' '.join(draw.sample(SHOWN, 2))} }}")
        if number % 20 == 19:
            yield "frame | commit 1"
            yield "frame | begin 1"
    yield "frame | commit 1"
    yield "run"


def rows() -> Iterator[str]:
    yield from MEETINGS.strip().split("\n")
    yield ""
    yield from conditions()
    for part in (ORDER, NEW, VALUES, REFUSED):
        yield ""
        yield from part.strip().split("\n")
    yield ""
    yield from cut()
    yield ""
    yield from GREAT.strip().split("\n")
    yield ""
    yield from drawn_frames()


def main() -> None:
    for row in rows():
        print(row)


if __name__ == "__main__":
    main()
