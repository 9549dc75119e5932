#!/usr/bin/env python3
"""Prints the rows of look-ups of crates/table_runs or crates/table_zero, the last ones there but for `section bench`.

`rows_lookups.py stdin groups` prints those of table_runs, the last ones of its `section groups`, with their heads, and
`rows_lookups.py stdout groups` with their answers. So does `zero` for table_zero, where they are the last ones. The answers come from plain triples alone: each look-up goes over all of a graph.
"""

from __future__ import annotations

import random
import re
import sys
from typing import Iterator, NamedTuple

from plain_graph import TOKENIZERS, Change, ConflictKey, Definition, Graph, apply, conflict_keys, tokens_of
from plain_values import NODE, Posting, read_posting

SEED = 8
# From how many nodes on a run is long.
LONG = 10
KINDS = {"text": "string", "int": "int", "bool": "bool", "time": "dateTime"}
DEFAULTS = {"int": "int", "bool": "bool", "dateTime": "year"}

# Rows of table_runs. One of a look-up begins with the graphs that it is for.
SCENE = """
# Look-ups. Without an index, a reverse list or a count there is no answer.
new 3
alter name: string @index(exact, term, trigram, hash) . age: int @index(int) @count . ok: bool @index .
alter born: dateTime @index(year, month, day, hour) . tag: [string] @index(term) @count . plain: string .
alter friend: [uid] @reverse @count . boss: uid @reverse . likes: [uid] @reverse . knows: [uid] @count .
begin 1
1,now subjects 1 name
1,now subjects 1 friend
1,now subjects 1 knows
1,now subjects 1 nobody
1,now token exact name text:Ann
1,now token exact tag text:red
1,now token year age int:1
1,now token exact plain text:a
1,now token exact nobody text:a
1,now range term name - -
1,now range hash tag - -
1,now range int nobody - -
1,now holders name
1,now holders plain
1,now holders nobody
1,now count name 1 1
1,now count knows 0 5
1,now count likes 0 5
1,now count ~likes 0 5
1,now count ~knows 0 5
1,now count ~friend 0 5
1,now count nobody 0 5

# Rows that can't be read.
1 token exact name
1 token exact name 7
1 token nothing name text:Ann
1 token exact name what:Ann
1 token int age int:x
1 range exact name text:a
1 range exact name text:a 7
1 range exact name - - -
1 count friend 1
1 count friend x 1
1 count friend - 1
1 count friend 1 18446744073709551616
1 count ~~friend 1 1
1 subjects friend
1 subjects x friend
1 holders
1 holders name age
2,then holders name

# A transaction sees its own changes alone.
add 1 set 1 name text:Ann-Lee set 2 name text:Bob set 3 name text:ann-kim set 4 name text:Al set 5 name text:Zoë
add 1 set 1 age int:30 set 2 age int:-5 set 3 age int:30 set 4 age int:0 set 1 ok bool:true set 2 ok bool:false
add 1 set 1 born time:2001-02-03T04:05:06Z set 2 born time:2001-02-28T23:59:59Z set 3 born time:1969-12-31T23:00:00Z
add 1 set 1 tag text:red-car set 1 tag text:red-bus set 2 tag text:blue-car set 3 tag text:red set 4 plain text:a
add 1 set 1 friend 2 set 1 friend 3 set 1 friend 1 set 2 friend 3 set 4 friend 9 set 4 knows 1 set 5 knows 1 set 5 knows 2
add 1 set 2 boss 1 set 3 boss 1 set 1 boss 4 set 7 likes 8
1,now subjects 3 friend
1,now subjects 1 boss
1,now token exact name text:Bob
1,now token term name text:ann
1,now range int age int:0 -
1,now holders friend
1,now count friend 1 1
1,now count ~friend 1 1
commit 1

# One transaction stays at that graph, while another adds, replaces and deletes.
begin 2
begin 3
2,3,now subjects 3 friend
2,3,now subjects 9 friend
2,3,now subjects 7 friend
2,3,now subjects 1 boss
2,3,now subjects 8 likes
2,3,now token exact name text:Ann-Lee
2,3,now token exact name text:ann-lee
2,3,now token hash name text:Bob
2,3,now token hash name int:1
2,3,now token term name text:ann
2,3,now token term name text:Ann
2,3,now token term name text:zoë
2,3,now token trigram name text:ann
2,3,now token trigram name text:Ann
2,3,now token trigram name text:Al
2,3,now token trigram name text:n-L
2,3,now token int age int:30
2,3,now token int age int:31
2,3,now token bool ok bool:true
2,3,now token year born time:2001-01-01
2,3,now token year born time:2001-02-03
2,3,now token month born time:2001-02-01
2,3,now token day born time:2001-02-28
2,3,now token hour born time:1969-12-31T23:00:00Z
2,3,now token term tag text:red
2,3,now token term tag text:car
add 3 set 1 name text:Ann-Kim set 2 name text:Bob-Lee del 4 name text:Al set 6 name text:Al-Lee set 5 name text:Zoë
add 3 set 1 age int:31 del 2 age int:-5 set 6 age int:30 set 2 ok bool:true del 1 ok bool:true
add 3 set 2 born time:2001-03-01T00:00:00Z set 6 born time:1969-12-31T23:59:59.5Z del 3 born time:1969-12-31T23:00:00Z
add 3 del 1 tag text:red-car del 3 tag text:red set 2 tag text:red-van set 6 tag text:green
add 3 del 1 friend 3 del 2 friend 3 set 6 friend 3 set 6 friend 9 del 1 friend 2 set 1 friend 2 set 9 friend 7
add 3 del 4 friend 9 del 7 likes 8 set 2 boss 4 del 1 boss 4 del 4 knows 1 set 5 knows 3
add 3 del 1 friend 8 del 9 boss 9 del 9 name text:nobody
2,3,now subjects 3 friend
2,3,now subjects 2 friend
2,3,now subjects 9 friend
2,3,now subjects 7 friend
2,3,now subjects 8 friend
2,3,now subjects 1 boss
2,3,now subjects 4 boss
2,3,now subjects 8 likes
2,3,now token exact name text:Ann-Lee
2,3,now token exact name text:Ann-Kim
2,3,now token exact name text:Al
2,3,now token hash name text:Bob
2,3,now token hash name text:Bob-Lee
2,3,now token term name text:ann
2,3,now token term name text:lee
2,3,now token term name text:kim
2,3,now token term name text:al
2,3,now token term name text:zoë
2,3,now token trigram name text:Kim
2,3,now token trigram name text:Lee
2,3,now token trigram name text:Al-
2,3,now token int age int:30
2,3,now token int age int:31
2,3,now token int age int:-5
2,3,now token bool ok bool:true
2,3,now token bool ok bool:false
2,3,now token year born time:2001-01-01
2,3,now token month born time:2001-02-01
2,3,now token month born time:2001-03-01
2,3,now token day born time:1969-12-31
2,3,now token hour born time:1969-12-31T23:00:00Z
2,3,now token term tag text:red
2,3,now token term tag text:car
2,3,now token term tag text:bus
2,3,now holders name
2,3,now holders likes
2,3,now holders ok
2,3,now holders friend
2,3,now holders plain
2,3,now count friend 0 0
2,3,now count friend 1 1
2,3,now count friend 2 2
2,3,now count friend 2 18446744073709551615
2,3,now count friend 0 18446744073709551615
2,3,now count friend 0 -
2,3,now count friend 2 -
2,3,now count friend 3 -
2,3,now count friend 3 2
2,3,now count ~friend 0 0
2,3,now count ~friend 1 1
2,3,now count ~friend 2 9
2,3,now count ~friend 0 -
2,3,now count ~friend 2 -
2,3,now count knows 1 1
2,3,now count knows 2 3
2,3,now count age 1 1
2,3,now count age 2 2
2,3,now count tag 1 1
2,3,now count tag 2 2

# Ranges: both ends, one, none; ends that no value has, of another kind, and the lower above the upper.
2,3,now range exact name text:Al text:Bob
2,3,now range exact name text:Am text:C
2,3,now range exact name text:Bob text:Al
2,3,now range exact name text:Bob -
2,3,now range exact name - text:Ann-Lee
2,3,now range exact name - -
2,3,now range exact name int:5 -
2,3,now range exact name - int:5
2,3,now range exact name - time:2001-01-01
2,3,now range hash name text:B text:Z
2,3,now range hash name - -
2,3,now range term name text:kim text:lee
2,3,now range term name text:b text:z
2,3,now range term name - text:a
2,3,now range term name text:zoë -
2,3,now range trigram name text:A text:B
2,3,now range trigram name - -
2,3,now range int age int:0 int:30
2,3,now range int age int:30 int:30
2,3,now range int age int:1 int:29
2,3,now range int age int:31 int:30
2,3,now range int age int:31 -
2,3,now range int age - int:-1
2,3,now range int age int:-9223372036854775808 int:9223372036854775807
2,3,now range int age - -
2,3,now range int age text:a -
2,3,now range int age - text:a
2,3,now range bool ok bool:false bool:true
2,3,now range bool ok bool:true -
2,3,now range year born time:2001-01-01 time:2001-01-01
2,3,now range year born time:2001-01-02 -
2,3,now range year born - time:2000-12-31
2,3,now range month born time:2001-02-01 time:2001-02-28
2,3,now range month born time:2001-03-01 -
2,3,now range day born time:2001-02-03 time:2001-02-28
2,3,now range day born - -
2,3,now range hour born time:1969-12-31T22:30:00Z time:2001-02-03T04:00:00Z
2,3,now range hour born time:9999-12-31T23:59:59Z -
2,3,now range term tag text:bus text:car
2,3,now range term tag text:red -
2,3,now range term tag - -

# What was taken back leaves all as it was.
begin 4
add 4 del 1 friend 1 set 1 friend 1 set 5 name text:Eve set 5 name text:Zoë set 8 likes 8 del 8 likes 8
3,4,now subjects 1 friend
3,4,now subjects 8 likes
3,4,now token exact name text:Eve
3,4,now token term name text:zoë
3,4,now range trigram name text:Eve text:Eve
3,4,now holders likes
3,4,now count friend 1 9
3,4,now count ~friend 1 9
end 4

# The commit changes the present graph, and none of those that are begun.
commit 3
begin 3
2,3,now subjects 3 friend
2,3,now subjects 9 friend
2,3,now subjects 4 boss
2,3,now subjects 8 likes
2,3,now token exact name text:Ann-Kim
2,3,now token term name text:lee
2,3,now token trigram name text:Lee
2,3,now token hash name text:Al
2,3,now token int age int:30
2,3,now token bool ok bool:true
2,3,now token hour born time:1969-12-31T23:00:00Z
2,3,now token term tag text:red
2,3,now range exact name - text:Bob
2,3,now range term name text:kim text:lee
2,3,now range int age - int:30
2,3,now range month born time:2001-02-01 -
2,3,now range term tag - -
2,3,now holders name
2,3,now holders likes
2,3,now holders ok
2,3,now count friend 1 1
2,3,now count friend 2 2
2,3,now count ~friend 1 1
2,3,now count ~friend 2 2
2,3,now count knows 1 9
2,3,now count tag 1 1
commit 2
end 2

# Own changes over lists that a commit made, down to the last object of each kind.
add 3 del 1 friend 1 del 1 friend 2 del 6 friend 3 del 6 friend 9 del 9 friend 7 set 6 friend 3
add 3 del 2 ok bool:true del 1 age int:31 del 3 age int:30 del 4 age int:0 del 6 age int:30
add 3 del 1 tag text:red-bus del 2 tag text:blue-car del 2 tag text:red-van del 6 tag text:green
3,now subjects 3 friend
3,now subjects 1 friend
3,now token int age int:30
3,now range int age - -
3,now range bool ok - -
3,now range term tag - -
3,now holders friend
3,now holders age
3,now holders ok
3,now holders tag
3,now count friend 0 9
3,now count ~friend 0 9
3,now count age 0 9
3,now count tag 0 9
commit 3
now subjects 3 friend
now range int age - -
now range term tag - -
now holders friend
now holders age
now count friend 0 9
now count ~friend 0 9
now count age 0 9

# Definitions lose their lists while there are triples, and get them back after further changes.
alter name: string @index(hash) . friend: [uid] @reverse . boss: uid . born: dateTime . knows: [uid] @reverse @count .
now token exact name text:Bob-Lee
now token term name text:lee
now range trigram name - -
now token hash name text:Bob-Lee
now range year born - -
now subjects 3 friend
now count friend 0 9
now count ~friend 0 9
now subjects 4 boss
now subjects 1 knows
now count knows 1 9
now count ~knows 1 1
now count ~knows 2 2
begin 1
add 1 set 2 name text:Lee-Ray set 9 name text:Ida-Lee set 1 friend 5 set 6 friend 4 set 5 friend 5 set 4 boss 1 del 2 boss 4
add 1 set 1 born time:2020-02-29T12:00:00Z
1 holders name
1 holders boss
1 subjects 5 friend
1 range hash name text:I text:Z
commit 1
alter name: string @index(exact, term, trigram) . friend: [uid] @reverse @count . boss: uid @reverse @count .
alter born: dateTime @index(month) . plain: string @index(term) .
begin 1
begin 2
add 2 set 2 name text:Bob-Ray del 9 name text:Ida-Lee del 6 friend 3 set 7 friend 4 del 4 boss 1 set 5 boss 1
add 2 del 1 born time:2020-02-29T12:00:00Z set 5 born time:2020-02-01 set 4 plain text:b
1,2,now token exact name text:Lee-Ray
1,2,now token term name text:lee
1,2,now token term name text:ray
1,2,now token trigram name text:Ray
1,2,now token hash name text:Lee-Ray
1,2,now range exact name text:I -
1,2,now token month born time:2020-02-01
1,2,now token year born time:2020-01-01
1,2,now range month born time:2001-03-01 -
1,2,now range term plain - -
1,2,now subjects 4 friend
1,2,now subjects 5 friend
1,2,now subjects 1 boss
1,2,now count friend 1 1
1,2,now count friend 2 2
1,2,now count ~friend 1 1
1,2,now count ~friend 2 2
1,2,now count boss 1 1
1,2,now count ~boss 1 1
1,2,now count ~boss 2 2
commit 2
1,now token term name text:lee
1,now token term name text:ray
1,now subjects 4 friend
1,now count ~boss 2 2
end 1
"""

# The same at ten thousand nodes.
LARGE = """
# Ten thousand triples of each kind: own ones, committed ones, and changes over these.
new 2
alter age: int @index @count . friend: [uid] @reverse @count . label: string @index(trigram) .
begin 1
begin 2
grow 1 age 1000 10000 int:
grow 1 friend 1000 10000
grow 1 label 1000 10000 text:n
1,2,now holders age
1,2,now holders label
1,2,now range int age int:4000 int:5000
1,2,now range int age int:10995 -
1,2,now token int age int:7777
1,2,now token trigram label text:n10
1,2,now range trigram label text:n20 text:n21
1,2,now subjects 9999 friend
1,2,now count friend 1 1
1,2,now count friend 2 9
1,2,now count ~friend 0 1
commit 1
begin 1
add 1 set 4500 age int:0 del 6000 age int:6000 set 500 age int:4200 set 2000 friend 7 set 2001 friend 7 del 3000 friend 3000
add 1 set 1050 label text:n20 del 2050 label text:n2050
1,2,now holders age
1,2,now range int age int:4000 int:5000
1,2,now range int age - int:1003
1,2,now token trigram label text:n10
1,2,now token trigram label text:n20
1,2,now holders friend
1,2,now subjects 7 friend
1,2,now subjects 3000 friend
1,2,now count age 1 1
1,2,now count friend 1 1
1,2,now count friend 2 2
1,2,now count ~friend 1 1
1,2,now count ~friend 2 2
commit 1
now range int age - int:1003
now token trigram label text:n20
now count friend 1 1
now count friend 2 2
now count ~friend 2 2
alter age: int . friend: [uid] . label: string @index(exact) .
now range int age - -
now range exact label text:n10990 text:n10999
now holders friend
alter age: int @index . friend: [uid] @reverse @count .
now range int age - int:1003
now range int age int:4000 int:5000
now subjects 7 friend
now count friend 1 1
now count friend 2 2
now count ~friend 1 1
now count ~friend 2 2
"""


class Txn(NamedTuple):
    """An open transaction: its start, the graph there, the graph with its own changes, and these."""

    start: int
    base: Graph
    graph: Graph
    changes: list[Change]


class Unfit(Exception):
    """The row can't be read, or names a call that may not be made."""


def number(word: str, bits: int = 64) -> int:
    if not re.fullmatch(r"[0-9]+", word) or int(word) >= 2**bits:
        raise Unfit
    return int(word)


def posting_of(word: str) -> Posting:
    kind, colon, written = word.partition(":")
    if not colon:
        return Posting(NODE, number(word))
    found = read_posting(KINDS.get(kind, ""), written)
    if found is None:
        raise Unfit
    return found


def value_of(word: str) -> Posting:
    found = posting_of(word)
    if found.rank == NODE:
        raise Unfit
    return found


def nodes_text(nodes: list[int]) -> str:
    """Nodes in order. Of a long run without a gap only the ends are told."""
    runs: list[list[int]] = []
    for node in nodes:
        if runs and runs[-1][-1] + 1 == node:
            runs[-1].append(node)
        else:
            runs.append([node])
    texts = [f"{run[0]} to {run[-1]}" if len(run) >= LONG else ", ".join(map(str, run)) for run in runs]
    return ", ".join(texts) or "none"


def triples(graph: Graph, p: str) -> Iterator[tuple[int, Posting]]:
    """The subjects and the objects of a predicate."""
    return ((s, o) for (pred, s), objects in graph.items() if pred == p for o in objects)


def numbers(nodes: list[int], low: int, high: int | None) -> list[int]:
    """Those that stand there so often."""
    times: dict[int, int] = {}
    for node in nodes:
        times[node] = times.get(node, 0) + 1
    return [node for node, n in times.items() if low <= n and (high is None or n <= high)]


def looked_up(schema: dict[str, Definition], graph: Graph, command: str, words: list[str]) -> list[int]:
    """The nodes that a look-up finds."""
    def declared(p: str) -> Definition:
        return schema.get(p, Definition("default", False))

    def kept(is_kept: bool) -> None:
        if not is_kept:
            raise Unfit

    def tokenizer(word: str) -> str:
        kept(word in TOKENIZERS)
        return word

    if command == "subjects" and len(words) == 2:
        o, p = Posting(NODE, number(words[0])), words[1]
        kept(declared(p).has_reverse)
        return [s for s, object in triples(graph, p) if object == o]
    if command == "token" and len(words) == 3:
        name, p, said = tokenizer(words[0]), words[1], value_of(words[2])
        kept(name in declared(p).tokenizers)
        return [s for s, o in triples(graph, p) if any(token.value == said for token in tokens_of([name], o))]
    if command == "range" and len(words) == 4:
        name, p = tokenizer(words[0]), words[1]
        low, high = (None if word == "-" else value_of(word) for word in words[2:])
        kept(name in declared(p).tokenizers)

        def lies(said: Posting) -> bool:
            return (low is None or low <= said) and (high is None or said <= high)

        return [s for s, o in triples(graph, p) if any(lies(token.value) for token in tokens_of([name], o))]
    if command == "holders" and len(words) == 1:
        return [s for s, _ in triples(graph, words[0])]
    if command == "count" and len(words) == 3:
        p, low = words[0].removeprefix("~"), number(words[1])
        high = None if words[2] == "-" else number(words[2])
        is_reverse = words[0].startswith("~")
        kept(declared(p).has_count and (declared(p).has_reverse or not is_reverse))
        if is_reverse:
            return numbers([o.key for _, o in triples(graph, p) if isinstance(o.key, int)], low, high)
        return numbers([s for s, _ in triples(graph, p)], low, high)
    raise Unfit


def schema_of(text: str) -> dict[str, Definition]:
    """The definitions of a text."""
    schema = {}
    for name, kind, marks in re.findall(r"(\w+): (\S+) ([^.]*)\.", text):
        inner = kind.strip("[]")
        index = re.search(r"@index(?:\(([^)]*)\))?", marks)
        tokenizers = () if index is None else tuple((index[1] or DEFAULTS[inner]).split(", "))
        schema[name] = Definition(inner, kind != inner, tokenizers, "@reverse" in marks, "@count" in marks)
    return schema


class Plain:
    """A graph under a schema."""

    def __init__(self) -> None:
        self.schema: dict[str, Definition] = {}
        self.graph: Graph = {}

    def answer(self, row: str) -> str:
        _, command, *words = row.split()
        if command == "new":
            self.__init__()  # type: ignore[misc]
            return "made"
        if command == "schema":
            self.schema = schema_of(" ".join(words))
            return " ".join(words).replace(" . ", " .␊") + "␊"
        if command == "apply":
            fours = [words[at : at + 4] for at in range(0, len(words), 4)]
            apply(self.graph, (Change(v == "del", int(s), p, posting_of(o), self.schema[p]) for v, s, p, o in fours))
            return f"{sum(map(len, self.graph.values()))} triples"
        try:
            return nodes_text(sorted(set(looked_up(self.schema, self.graph, command, words))))
        except Unfit:
            return "?"


class Model:
    """What rows made so far."""

    def __init__(self) -> None:
        self.next = 1
        self.schema: dict[str, Definition] = {}
        self.graph: Graph = {}
        self.txns: dict[int, Txn] = {}
        self.commits: list[tuple[int, set[ConflictKey]]] = []

    def drawn(self) -> int:
        self.next += 1
        return self.next - 1

    def txn(self, word: str) -> Txn:
        if number(word, 32) not in self.txns:
            raise Unfit
        return self.txns[int(word)]

    def alter(self, text: str) -> str:
        if self.txns:
            return f"pending {min(txn.start for txn in self.txns.values())}"
        self.schema.update(schema_of(text))
        return f"{self.drawn()} {self.drawn()}"

    def add(self, txn: Txn, changes: list[tuple[str, int, str, Posting]]) -> str:
        made = [Change(verb == "del", s, p, o, self.schema[p]) for verb, s, p, o in changes]
        apply(txn.graph, made)
        txn.changes.extend(made)
        return "added"

    def commit(self, word: str) -> str:
        txn = self.txn(word)
        if not txn.changes:
            raise Unfit
        del self.txns[int(word)]
        keys = conflict_keys(txn.base, txn.changes)
        clashes = [(key, ts) for ts, others in self.commits if ts > txn.start for key in keys & others]
        if clashes:
            least = min(key for key, _ in clashes)
            return f"{least.text()} at {max(ts for key, ts in clashes if key == least)}"
        self.commits.append((self.next, keys))
        self.graph = dict(self.graph)
        apply(self.graph, txn.changes)
        return str(self.drawn())

    def call(self, command: str, rest: str) -> str:
        words = rest.split()
        if command == "new":
            self.__init__()  # type: ignore[misc]
            return "made"
        if command == "alter":
            return self.alter(rest)
        if command == "begin":
            if int(rest) in self.txns:
                raise Unfit
            self.txns[int(rest)] = Txn(self.next, self.graph, dict(self.graph), [])
            return str(self.drawn())
        if command == "commit":
            return self.commit(rest)
        if command == "end":
            self.txn(rest)
            del self.txns[int(rest)]
            return "true"
        if command == "add":
            fours = [words[at : at + 4] for at in range(1, len(words), 4)]
            return self.add(self.txn(words[0]), [(verb, int(s), p, posting_of(o)) for verb, s, p, o in fours])
        if command == "grow":
            p, first, count, before = (words + [""])[1:5]
            nodes = range(int(first), int(first) + int(count))
            return self.add(self.txn(words[0]), [("set", s, p, posting_of(f"{before}{s}")) for s in nodes])
        graph = self.graph if words[0] == "now" else self.txn(words[0]).graph
        return nodes_text(sorted(set(looked_up(self.schema, graph, command, words[1:]))))

    def answer(self, row: str) -> str:
        command, _, rest = row.partition(" ")
        try:
            return self.call(command, rest)
        except Unfit:
            return "?"


def spread(scene: str) -> Iterator[str]:
    """The rows of a scene, one for each graph that a look-up names."""
    for line in scene.splitlines():
        names, _, rest = line.partition(" ")
        if re.fullmatch(r"(\d+|now)(,\w+)*", names):
            command, _, words = rest.partition(" ")
            yield from (f"{command} {name} {words}".strip() for name in names.split(","))
        else:
            yield line


# Predicates of the rows by chance, each with the objects that it may have.
OBJECTS = {
    "name": ["text:Ann-Lee", "text:ann-kim", "text:Kim", "text:lee", "text:Al", "text:Bob-Ann"],
    "age": ["int:-1", "int:0", "int:1", "int:2", "int:30"],
    "born": ["time:2001-02-03T04:05:06Z", "time:2001-02-03T04:59:59Z", "time:2001-03-01", "time:1969-12-31T23:59:59Z"],
    "tag": ["text:red-car", "text:red-bus", "text:car", "text:bus-car"],
    "friend": ["1", "2", "3", "4", "5"],
    "boss": ["1", "2", "3"],
}
TOKENS = {
    "name": ["exact", "term", "trigram"],
    "age": ["int"],
    "born": ["year", "month", "day", "hour"],
    "tag": ["term", "exact"],
}
SAID = {
    "name": ["text:Kim", "text:kim", "text:ann", "text:lee", "text:Lee", "text:Al", "text:B", "text:Bob-Ann"],
    "age": OBJECTS["age"] + ["int:10"],
    "born": ["time:2001-01-01", "time:2001-02-01", "time:2001-02-03", "time:2001-02-03T04:00:00Z", "time:1969-12-31"],
    "tag": ["text:red", "text:car", "text:bus", "text:red-car", "text:c"],
}
KINDS_OF = {"name": "string", "age": "int", "born": "dateTime", "tag": "[string]", "friend": "[uid]", "boss": "uid"}


def definition(rnd: random.Random, p: str) -> str:
    """A definition with some of the lists that the predicate may have."""
    some = [t for t in TOKENS.get(p, []) if rnd.random() < 0.8]
    index = [f"@index({', '.join(some)})"] if some else []
    marks = ["@reverse"] if "uid" in KINDS_OF[p] else []
    kept = [mark for mark in [*marks, "@count"] if rnd.random() < 0.85]
    return " ".join([f"{p}: {KINDS_OF[p]}", *index, *kept, "."])


def altered(rnd: random.Random, least: int) -> str:
    """Definitions of some predicates."""
    some = sorted(rnd.sample(sorted(KINDS_OF), rnd.randint(least, len(KINDS_OF))))
    return " ".join(definition(rnd, p) for p in some)


def changed(rnd: random.Random) -> str:
    changes = []
    for _ in range(rnd.randint(1, 4)):
        p = rnd.choice(sorted(OBJECTS))
        changes.append(f"{rnd.choice(['set', 'set', 'del'])} {rnd.randint(1, 5)} {p} {rnd.choice(OBJECTS[p])}")
    return " ".join(changes)


def look_up(rnd: random.Random, name: str) -> str:
    chance = rnd.random()
    if chance < 0.2:
        return f"subjects {name} {rnd.randint(1, 5)} {rnd.choice(['friend', 'boss'])}"
    if chance < 0.4:
        p = rnd.choice(sorted(TOKENS))
        return f"token {name} {rnd.choice(TOKENS[p])} {p} {rnd.choice(SAID[p])}"
    if chance < 0.65:
        p = rnd.choice(sorted(TOKENS))
        low, high = (rnd.choice(SAID[p] + ["-", "-"]) for _ in range(2))
        return f"range {name} {rnd.choice(TOKENS[p])} {p} {low} {high}"
    if chance < 0.75:
        return f"holders {name} {rnd.choice(sorted(OBJECTS))}"
    p = rnd.choice(["friend", "friend", "~friend", "~friend", "boss", "~boss", "tag", "age"])
    low = rnd.randint(0, 3)
    return f"count {name} {p} {low} {low + rnd.randint(0, 2)}"


def by_chance(rnd: random.Random, count: int) -> Iterator[str]:
    """Rows by chance: the first declares all, and each step looks at some graphs."""
    yield f"new {rnd.randint(1, 3)}"
    yield "alter " + " ".join(f"{p}: {kind} ." for p, kind in KINDS_OF.items())
    yield f"alter {altered(rnd, 4)}"
    opened: set[int] = set()
    for _ in range(count):
        chance, number = rnd.random(), rnd.randint(1, 3)
        if number not in opened:
            yield f"begin {number}"
            opened.add(number)
        elif chance < 0.45:
            yield f"add {number} {changed(rnd)}"
        elif chance < 0.6:
            yield f"end {number}" if chance < 0.47 else f"commit {number}"
            opened.discard(number)
        elif chance < 0.66:
            yield from (f"end {number}" for number in sorted(opened))
            opened.clear()
            yield f"alter {altered(rnd, 2)}"
        names = [str(number) for number in sorted(opened)] + ["now"]
        yield from (look_up(rnd, rnd.choice(names)) for _ in range(rnd.randint(0, 3)))


def of_groups() -> Iterator[str]:
    yield from spread(SCENE)
    yield ""
    yield "# Look-ups by chance."
    rnd = random.Random(SEED)
    for _ in range(3):
        yield from by_chance(rnd, 50)
    yield from spread(LARGE)


def of_zero() -> Iterator[str]:
    """Rows of one graph in memory."""
    yield ""
    yield "# Graphs: look-ups by chance. From tools/rows_lookups.py."
    rnd = random.Random(SEED)
    for _ in range(3):
        yield "graph new"
        for turn in range(20):
            if turn % 7 == 0:
                yield f"graph schema {altered(rnd, 6)}"
            yield f"graph apply {changed(rnd)}"
            yield from ("graph " + look_up(rnd, "").replace("  ", " ") for _ in range(rnd.randint(1, 4)))


def main(what: str, crate: str) -> None:
    rows, model = (of_groups(), Model()) if crate == "groups" else (of_zero(), Plain())
    for row in rows:
        if what == "stdin":
            print(row)
        elif row and not row.startswith("#"):
            print(f"{row} => {model.answer(row)}")


if __name__ == "__main__":
    main(*sys.argv[1:])
