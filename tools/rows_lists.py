#!/usr/bin/env python3
"""Prints the generated rows of crates/table_lists, the last ones there but for `section bench`.

`rows_lists.py stdin` prints them with their heads, and `rows_lists.py stdout` with their answers.
These come from this model alone, which knows no layers, bases, runs or pages: a list is the set
that is left of all operations up to a timestamp, a map is a dict, and what ascends is written down.
"""
import datetime
import json
import sys

# Postings, keys and conflict keys in ascending order.
POSTINGS = """
0 1 2 7 31 255 18446744073709551615
int:-9223372036854775808 int:-5 int:0 int:12 int:9223372036854775807
text: text:A text:a text:a␀ text:a␠b text:ab text:b text:z text:é text:日 bool:false bool:true
time:0000-01-01T00:00:00Z time:1969-12-31T23:59:59.5Z time:1970-01-01T00:00:00Z
time:2024-02-29T22:30:00.12Z
""".split()
KEYS = """
data age 0
data age 7
data age 18446744073709551615
index age int int:-1
index age int int:3
count age 1
data friend 1
data friend 2
data friend 10
reverse friend 0
reverse friend 9
count friend 2
rcount friend 1
rcount friend 3
data name 1
index name exact text:
index name exact text:b
index name hash text:a
index name term text:a
index name term text:b
index name trigram text:abc
index name bool bool:false
index name bool bool:true
index name year time:1993-01-01T00:00:00Z
index name month time:1993-01-01T00:00:00Z
index name day time:1992-12-31T00:00:00Z
index name hour time:1992-12-31T23:00:00Z
data name␠of 1
data names 0
data é 0
""".strip().splitlines()
CONFLICTS = r"""
data age 1
data age 1 int:-30
data age 1 int:4
data age 2
data friend 1
data friend 1 0
data friend 1 31
data friend 1 text:a
data friend 2 1
data name␠of 1 text:"\
data name␠of 1 bool:false
data name␠of 1 time:1993-05-19T00:00:00Z
index age int int:-2
index age int int:3
index age int int:3 0
index age int int:3 4
index name exact text:z␊
index name hash text:a
index name term text:␁q 9
index name trigram text:abc
index name bool bool:true 1
index name year time:1993-01-01T00:00:00Z
index name month time:1992-05-01T00:00:00Z
index name day time:1992-05-19T00:00:00Z 255
index name hour time:1991-05-19T07:00:00Z
count age 2
count friend 1
count friend 10
rcount age 3
rcount friend 0
rcount friend 18446744073709551615
""".strip().splitlines()
# Keys in ascending order that have values of each kind up to the ends of their types.
SPELLED = """
data  0
data a 0
data a 255
data a 256
data a 18446744073709551615
index a exact text:
index a exact text:␀
index a exact text:␀a
index a exact text:a
index a exact text:a␀
index a exact text:ab
index a exact text:日
index a hash text:
index a term text:é
index a trigram text:a␠b
index a int int:-9223372036854775808
index a int int:-257
index a int int:-256
index a int int:-1
index a int int:0
index a int int:255
index a int int:256
index a int int:9223372036854775807
index a bool bool:false
index a bool bool:true
index a year time:0000-01-01T00:00:00Z
index a year time:0000-12-31T23:59:59.999999999Z
index a year time:1969-12-31T23:59:59.5Z
index a year time:1970-01-01T00:00:00Z
index a year time:1970-01-01T00:00:00.000000001Z
index a year time:1970-01-01T00:00:00.000000256Z
index a year time:9999-12-31T23:59:59.999999999Z
index a month time:2024-02-29T22:30:00.12Z
index a day time:1960-02-29T00:00:00Z
index a hour time:0001-01-01T00:00:00Z
reverse a 0
reverse a 72057594037927936
count a 1
rcount a 1
data a␁ 0
data a␠ 0
data aa 0
data name 1
data é 7
data 日 7
""".strip("\n").splitlines()
PREDICATES = ["age", "friend", "name", "name␠of", "names", "é"]

seed = 11


def draw():
    global seed
    seed = (seed * 6364136223846793005 + 1442695040888963407) % 2**64
    return seed


def below(n):
    return (draw() >> 33) % n


def one_of(places, n):
    """One of these at every other time, and else one below n."""
    places = sorted(places)
    return places[below(len(places))] if places and below(2) else below(n)


def some(n, most):
    """Up to so many places below n, ascending."""
    return sorted({below(n) for _ in range(below(most + 1))})


rows = []


def row(text, answer):
    rows.append((text, str(answer)))


def head(text):
    rows.extend([("", ""), ("# " + text, "")])


def truth(b):
    return "true" if b else "false"


def joined(texts):
    return " ".join(texts) or "none"


def words(places):
    return joined(POSTINGS[p] for p in sorted(places))


def some_ops(most):
    return {p: below(3) > 0 for p in some(len(POSTINGS), most)}


def op_word(puts, word):
    return ("set " if puts else "del ") + str(word)


def ops_words(ops):
    return joined(op_word(ops[p], POSTINGS[p]) for p in sorted(ops))


def after(places, ops):
    return (places | {p for p in ops if ops[p]}) - {p for p in ops if not ops[p]}


def bits():
    head("Sixty commits, each on a node below 8 and on one from 8 to 15. By a set of bits.")
    row("list new", "version 0")
    nodes, at_each = 0, [0]
    for ts in range(1, 61):
        n = draw()
        low, high = n >> 33 & 7, 8 | n >> 45 & 7
        puts = {low: n >> 40 & 3 != 0, high: n >> 52 & 1 == 0}
        for node in puts:
            nodes = nodes | 1 << node if puts[node] else nodes & ~(1 << node)
        at_each.append(nodes)
        ops = joined(op_word(puts[node], node) for node in (low, high))
        row(f"list layer {ts} {ops}", f"version {ts}")
    for ts, nodes in enumerate(at_each):
        row(f"list read {ts}", joined(str(i) for i in range(16) if nodes >> i & 1))


def bases():
    head("Bases of postings of each kind. By Python's lists.")
    for _ in range(6):
        places = some(len(POSTINGS), 14)
        row(f"base new {words(places)}", len(places))
        for _ in range(6):
            p = one_of(places, len(POSTINGS))
            row(f"base find {POSTINGS[p]}", truth(p in places))
            row(f"base seek {POSTINGS[p]}", sum(q < p for q in places))
            start, most = below(12), below(6)
            row(f"base walk {start} {most}", words(places[start:start + most]))


def operations():
    head("Operations of each kind merged, asked and applied. By Python's dicts and sets.")
    for _ in range(12):
        older, newer = some_ops(6), some_ops(6)
        both = {**older, **newer}
        row(f"ops merge {ops_words(older)} | {ops_words(newer)}", ops_words(both))
        for _ in range(3):
            p = below(len(POSTINGS))
            said = {None: "unsaid", True: "in", False: "out"}[both.get(p)]
            row(f"ops decide {ops_words(both)} | {POSTINGS[p]}", said)
        places = set(some(len(POSTINGS), 8))
        row(f"ops apply {words(places)} | {ops_words(both)}", words(after(places, both)))


def change_map(versions, v, changes):
    written = [f"{k}={'none' if x is None else x}" for k, x in changes]
    row(" ".join([f"map@{v} change", *written]), f"version {len(versions)}")
    made = dict(versions[v])
    for key, value in changes:
        made[key] = value
    versions.append({k: made[k] for k in made if made[k] is not None})


def ask_map(versions, keys):
    v, key = below(len(versions)), below(keys + 1)
    row(f"map@{v} get {key}", versions[v].get(key, "none"))
    at = min((k for k in versions[v] if key <= k), default=None)
    row(f"map@{v} from {key}", "none" if at is None else f"{at}={versions[v][at]}")


def maps():
    head("Maps in versions. By Python's dicts.")
    row("map new", "version 0")
    versions = [{}]
    for _ in range(25):
        v = below(len(versions))
        changes = [(below(12), below(100) if below(3) else None) for _ in range(below(5))]
        change_map(versions, v, changes)
        for _ in range(3):
            ask_map(versions, 12)


def large_maps():
    head("Maps of hundreds of keys, which are put in and taken out again. By Python's dicts.")
    row("map new", "version 0")
    versions = [{}]
    for step in range(24):
        v = len(versions) - 1 if below(6) else below(len(versions))
        there = sorted(versions[v])
        if step % 8 < 5 or not there:
            changes = [(below(600), below(1000)) for _ in range(20 + below(90))]
        else:
            start = below(len(there))
            changes = [(k, None) for k in there[start : start + 10 + below(150)]]
        change_map(versions, v, changes)
        for _ in range(6):
            ask_map(versions, 600)
    for v, kept in enumerate(versions[-6:], len(versions) - 6):
        for key in sorted(kept)[:: 1 + len(kept) // 20]:
            row(f"map@{v} from {key}", f"{key}={kept[key]}")


class Grown:
    """The operations of all commits on one list, and what may be asked of it."""

    def __init__(self, commits=(), base=0, newest=0):
        self.commits, self.base, self.newest = tuple(commits), base, newest

    def layer(self, ts, ops):
        return Grown(self.commits + ((ts, ops),), self.base, ts) if ts > self.newest else None

    def rolled(self, upto):
        return Grown(self.commits, upto, max(upto, self.newest)) if upto >= self.base else None

    def at(self, ts):
        places = set()
        for when, ops in self.commits:
            places = after(places, ops) if when <= ts else places
        return places if ts >= self.base else None

    def layered(self, upto):
        return any(self.base < when <= upto for when, _ in self.commits)


def ask_list(version, grown):
    ts = below(grown.newest + 3)
    places = grown.at(ts)
    command, item = ("read", "merged")[below(2)], one_of(places or [], len(POSTINGS))
    legal = places is not None
    row(f"list@{version} {command} {ts}", words(places) if legal else "?")
    row(f"list@{version} has {ts} {POSTINGS[item]}", truth(item in places) if legal else "?")
    row(f"list@{version} layered {ts}", truth(grown.layered(ts)))


def lists():
    head("Posting lists with bases, in versions. By the set that is left of all operations.")
    for _ in range(2):
        row("list new", "version 0")
        versions = [Grown()]
        for _ in range(20):
            v = len(versions) - 1 if below(4) else below(len(versions))
            grown = versions[v]
            if below(4):
                ts, ops = grown.newest + below(4), some_ops(5)
                text, made = f"layer {ts} {ops_words(ops)}", grown.layer(ts, ops)
            else:
                upto = grown.base + below(6)
                text, made = f"base {upto}", grown.rolled(upto)
            row(f"list@{v} {text}", f"version {len(versions)}" if made else "?")
            if made:
                versions.append(made)
            for v in (len(versions) - 1, below(len(versions))):
                ask_list(v, versions[v])


def with_base(store, k, upto):
    lists, _, newest = store
    rolled = Grown(lists[k].commits if k in lists else (), upto)
    return {**lists, k: rolled}, upto, max(newest, upto)


def with_record(store, ts, held, parts):
    lists, base, _ = store
    lists = dict(lists)
    for k in parts:
        if KEYS[k].split()[1] in held:
            old = lists.get(k, Grown())
            lists[k] = Grown(old.commits + ((ts, parts[k]),), old.base)
    return lists, base, ts


def ask_store(version, store):
    lists, base, newest = store
    k, ts = one_of(lists, len(KEYS)), base + below(newest - base + 2)
    found = lists.get(k)
    places = (found or Grown()).at(ts)
    item = one_of(places, len(POSTINGS))
    later = min((key for key in lists if key >= k), default=None)
    row(f"store@{version} from {KEYS[k]}", "none" if later is None else KEYS[later])
    row(f"store@{version} get {KEYS[k]}", "a list" if found else "none")
    row(f"store@{version} layered {KEYS[k]} | {ts}", truth(found.layered(ts)) if found else "none")
    row(f"store@{version} read {KEYS[k]} | {ts}", words(places))
    row(f"store@{version} has {KEYS[k]} | {ts} {POSTINGS[item]}", truth(item in places))


def stores():
    head("Stores of lists under keys of each kind, in versions. By a dict of such sets.")
    row("store new", "version 0")
    versions = [({}, 0, 0)]
    for step in range(20):
        v = len(versions) - 1 if below(4) else below(len(versions))
        lists, base, newest = versions[v]
        if step % 6 == 5:
            k, upto = one_of(lists, len(KEYS)), base + below(newest - base + 2)
            made = with_base(versions[v], k, upto)
            row(f"store@{v} base {KEYS[k]} | {upto}", f"version {len(versions)}")
        else:
            ts, held = newest + 1 + below(3), [p for p in PREDICATES if below(4)]
            keys = {one_of(lists, len(KEYS)) for _ in range(1 + below(4))}
            parts = {k: some_ops(4) for k in sorted(keys)}
            made = with_record(versions[v], ts, held, parts)
            written = [f"{KEYS[k]} : {ops_words(parts[k])}" for k in parts]
            texts = [f"store@{v} record {ts}", joined(held), *written]
            row(" | ".join(texts), f"version {len(versions)}")
        versions.append(made)
        for v in (len(versions) - 1, below(len(versions))):
            ask_store(v, versions[v])


def order(a, b):
    return "less" if a < b else "equal" if a == b else "greater"


def pairs(count):
    """All neighbours, each one with itself, and some that are drawn."""
    drawn = [(below(count), below(count)) for _ in range(40)]
    return [(i, i + 1) for i in range(count - 1)] + [(i, i) for i in range(count)] + drawn


def keys():
    head("Keys. By the order in which tools/rows_lists.py writes them down.")
    for a, b in pairs(len(KEYS)):
        command = ("order", "cmp", "below", "equal")[below(4)]
        answer = {"below": truth(a < b), "equal": truth(a == b)}.get(command, order(a, b))
        row(f"key {command} {KEYS[a]} | {KEYS[b]}", answer)
    for key in KEYS:
        row(f"key copy {key}", key)
        row(f"key pred {key}", key.split()[1])


def plain(text):
    return "".join(chr(ord(c) - 0x2400) if 0x2400 <= ord(c) <= 0x2420 else c for c in text)


def conflict_text(key):
    kind, pred, *rest = key.split()
    if kind == "index":
        texts = [rest[0], value_text(rest[1])] + [hex(int(n)) for n in rest[2:]]
    else:
        texts = [hex(int(rest[0]))] + [value_text(v) for v in rest[1:]]
    return " ".join([kind, plain(pred)] + texts)


def value_text(word):
    kind, _, text = word.partition(":")
    if not text and kind.isdigit():
        return hex(int(kind))
    return text if kind in ("int", "bool") else json.dumps(plain(text), ensure_ascii=False)


def conflicts():
    head("Conflict keys. By the order there, and by Python's json.")
    for a, b in pairs(len(CONFLICTS)):
        command = ("compare", "order", "cmp", "below", "equal")[below(5)]
        answer = {"below": truth(a < b), "equal": truth(a == b)}.get(command, order(a, b))
        row(f"conflict {command} {CONFLICTS[a]} | {CONFLICTS[b]}", answer)
    row("conflict new", 0)
    kept = set()
    for key in CONFLICTS:
        row(f"conflict text {key}", conflict_text(key))
        row(f"conflict copy {key}", conflict_text(key))
        k = below(len(CONFLICTS))
        kept.add(k)
        row(f"conflict put {CONFLICTS[k]}", len(kept))
        k = below(len(CONFLICTS))
        found = "at " if k in kept else "missing at "
        row(f"conflict place {CONFLICTS[k]}", found + str(sum(i < k for i in kept)))
    texts = [conflict_text(CONFLICTS[k]) for k in sorted(kept)]
    row("conflict keys", ", ".join(texts) + ": true")


class Rule:
    """Keys at some of so many places, ten apart, which begin anew behind the last place."""

    def __init__(self, places, first, step, count):
        self.words = f"{places} {first} {step} {count}"
        self.keys = [10 * (1 + (first + turn * step) % places) for turn in range(count)]


def ruled(versions, v, command, rule):
    row(f"map@{v} {command} {rule.words}", f"version {len(versions)}")
    puts = command in ("fill", "put", "set")
    made = dict(versions[v])
    for turn, key in enumerate(rule.keys, 1):
        made[key] = turn if puts else None
    versions.append({k: made[k] for k in made if made[k] is not None})


def walk(versions):
    kept = versions[-1]
    row("map walk", f"{len(kept)} pairs, keys {sum(kept)}, values {sum(kept.values())}, in order")


def ask_around(versions, key):
    v, kept = len(versions) - 1, versions[-1]
    for k in (key - 5, key, key + 5):
        row(f"map@{v} get {k}", kept.get(k, "none"))
        for command, place in (("from", k), ("above", k + 1)):
            at = min((other for other in kept if place <= other), default=None)
            row(f"map@{v} {command} {k}", "none" if at is None else f"{at}={kept[at]}")


def map_pages():
    head("Maps of one page and of many, changed at their ends and in the middle. By Python's dicts.")
    for n in (1, 64, 65, 4096, 4097):
        row("map new", "version 0")
        versions = [{}]
        ruled(versions, 0, "fill", Rule(n, 0, 1, n))
        walk(versions)
        for key in (10, 10 * n, 10 * (1 + n // 2)):
            for changes in ([(key - 5, 1)], [(key + 5, 2)], [(key, 3)], [(key, None)]):
                change_map(versions, 1, changes)
                walk(versions)
                ask_around(versions, key)
        change_map(versions, 1, [(10 * n + 5, 4), (10, None), (5, 6), (10 * n, None), (5, 7)])
        walk(versions)
        for command in ("drop", "fill"):
            for rule in (Rule(n, 1, 617, n // 2), Rule(n, n - 1, n - 1, n // 3 + 1)):
                ruled(versions, 1, command, rule)
                walk(versions)


def emptied_maps():
    head("Maps filled and emptied pair by pair: in order, from behind and shuffled. By Python's dicts.")
    for n in (1, 64, 65, 4096, 4097):
        row("map new", "version 0")
        versions = [{}]
        ruled(versions, 0, "fill", Rule(n, 3, 617, 2 * n))
        walk(versions)
        for first, step in ((0, 1), (n - 1, n - 1), (2, 617)):
            ruled(versions, 0, "put", Rule(n, first, step, n))
            walk(versions)
        for v, (first, step) in enumerate(((0, 1), (n - 1, n - 1), (n // 2, 617)), 1):
            half = n - n // 2
            ruled(versions, v, "take", Rule(n, first, step, half))
            walk(versions)
            ruled(versions, len(versions) - 1, "take", Rule(n, first + half * step, step, n // 2))
            walk(versions)
            row("map page 0", "none")


def maps_in_place():
    head("Maps to which pairs are put in place, and the maps that they shared pages with. By Python's dicts.")
    for n in (1, 63, 64, 65, 700):
        row("map new", "version 0")
        versions = [{}]
        for first, step in ((0, 1), (n - 1, n - 1), (n // 2, 617)):
            ruled(versions, 0, "set", Rule(n, first, step, n))
            walk(versions)
        for v, rule in ((1, Rule(2 * n, n - 1, 3, n)), (2, Rule(n, 0, 1, n)), (3, Rule(3 * n, 1, 617, n // 2 + 1))):
            ruled(versions, v, "set", rule)
            walk(versions)
            ask_around(versions, rule.keys[0])
            kept = versions[v]
            row(f"map@{v} walk", f"{len(kept)} pairs, keys {sum(kept)}, values {sum(kept.values())}, in order")


def parts_one_by_one():
    global seed
    kept, seed = seed, 31
    head("Parts that are put one by one, each a timestamp later. By a dict of such sets.")
    row("store new", "version 0")
    versions = [({}, 0, 0)]
    for step in range(12):
        v = len(versions) - 1 if below(4) else below(len(versions))
        made = versions[v]
        ts = made[2] + 1 + below(3)
        parts = [(one_of(made[0], len(KEYS)), some_ops(4)) for _ in range(1 + below(6))]
        for later, (k, ops) in enumerate(parts):
            made = with_record(made, ts + later, PREDICATES, {k: ops})
        texts = [f"store@{v} each {ts}", *(f"{KEYS[k]} : {ops_words(ops)}" for k, ops in parts)]
        row(" | ".join(texts), f"version {len(versions)}")
        versions.append(made)
        for v in (len(versions) - 1, below(len(versions))):
            ask_store(v, versions[v])
    seed = kept


def parts_written(parts):
    return [f"{KEYS[k]} : {ops_words(parts[k])}" for k in sorted(parts)]


def many_keys():
    global seed
    kept, seed = seed, 29
    head("Parts and bases of many keys at once, and the key above one. By a dict of such sets.")
    row("store new", "version 0")
    versions = [({}, 0, 0)]
    for step in range(18):
        v = len(versions) - 1 if below(4) else below(len(versions))
        lists, base, newest = made = versions[v]
        if step % 3 == 2:
            upto = base + below(newest - base + 2)
            keys = sorted({one_of(lists, len(KEYS)) for _ in range(1 + below(6))})
            for k in keys:
                made = with_base(made, k, upto)
            words_of_keys = [KEYS[k] for k in keys]
            row(" | ".join([f"store@{v} bases {upto}", *words_of_keys]), f"version {len(versions)}")
        else:
            ts = newest + 1 + below(3)
            parts = {one_of(lists, len(KEYS)): some_ops(4) for _ in range(1 + below(8))}
            made = with_record(made, ts, PREDICATES, parts)
            texts = [f"store@{v} parts {ts}", *parts_written(parts)]
            row(" | ".join(texts), f"version {len(versions)}")
        versions.append(made)
        for v in (len(versions) - 1, below(len(versions))):
            ask_store(v, versions[v])
            k = one_of(versions[v][0], len(KEYS))
            later = min((key for key in versions[v][0] if key > k), default=None)
            row(f"store@{v} above {KEYS[k]}", "none" if later is None else KEYS[later])
    head("The parts of a predicate. By the predicates of the keys.")
    for pred in PREDICATES + ["a", "friends", "z", "日"]:
        for _ in range(2):
            parts = {k: some_ops(2) for k in some(len(KEYS), 14) or [0]}
            found = [KEYS[k] for k in sorted(parts) if KEYS[k].split()[1] == pred]
            texts = [f"store of {pred}", *parts_written(parts)]
            row(" | ".join(texts), ", ".join(found) or "none")
    seed = kept


KINDS = ["data", "index", "reverse", "count", "rcount"]
TOKENIZERS = ["exact", "hash", "term", "trigram", "int", "bool", "year", "month", "day", "hour"]
KINDS_OF_VALUES = ["text"] * 4 + ["int", "bool"] + ["time"] * 4
EPOCH = datetime.date(1970, 1, 1).toordinal()
CYCLE = 146097  # days of 400 years, after which the calendar repeats
NO_KEY = "no key has these bytes"


def signed(n, size=8):
    """Numbers from the least on, so that they order as they are written."""
    return (n + 2 ** (8 * size - 1)).to_bytes(size, "big")


def time_bytes(text):
    date, _, clock = text.rstrip("Z").partition("T")
    year, month, day = map(int, date.split("-"))
    shift = 400 if year < 1 else 0
    days = datetime.date(year + shift, month, day).toordinal() - (CYCLE if shift else 0) - EPOCH
    hour, minute, second = clock.split(":")
    second, _, fraction = second.partition(".")
    secs = ((days * 24 + int(hour)) * 60 + int(minute)) * 60 + int(second)
    return signed(secs) + int(fraction.ljust(9, "0")).to_bytes(4, "big")


def time_word(secs, nanos):
    days, rest = divmod(secs, 86400)
    at = days + EPOCH
    shift = 400 if at < 1 else 0
    date = datetime.date.fromordinal(at + (CYCLE if shift else 0))
    fraction = f".{nanos:09}".rstrip("0").rstrip(".")
    clock = f"{rest // 3600:02}:{rest // 60 % 60:02}:{rest % 60:02}{fraction}"
    return f"time:{date.year - shift:04}-{date.month:02}-{date.day:02}T{clock}Z"


def bytes_of_value(word):
    kind, _, text = word.partition(":")
    if kind == "text":
        return plain(text).encode()
    if kind == "int":
        return signed(int(text))
    return bytes([text == "true"]) if kind == "bool" else time_bytes(text)


def bytes_of_key(key):
    kind, pred, *rest = key.split(" ")
    front = plain(pred).encode() + bytes([0, 1 + KINDS.index(kind)])
    if kind != "index":
        return front + int(rest[0]).to_bytes(8, "big")
    return front + bytes([TOKENIZERS.index(rest[0])]) + bytes_of_value(rest[1])


def pictured(data):
    return "".join(chr(ord(c) + 0x2400) if ord(c) <= 0x20 else c for c in data.decode())


def value_with(kind, data):
    """The word of the value of a kind that has the bytes; a ValueError where none has."""
    if kind == "text":
        return "text:" + pictured(data)
    if kind == "bool":
        return "bool:" + ["false", "true"][[b"\0", b"\1"].index(data)]
    if len(data) != (8 if kind == "int" else 12):
        raise ValueError
    number = int.from_bytes(data[:8], "big") - 2**63
    if kind == "int":
        return f"int:{number}"
    nanos = int.from_bytes(data[8:], "big")
    first, last = (int.from_bytes(time_bytes(t)[:8], "big") - 2**63 for t in ENDS)
    if not first <= number <= last or nanos >= 10**9:
        raise ValueError
    return time_word(number, nanos)


ENDS = ("0000-01-01T00:00:00Z", "9999-12-31T23:59:59Z")


def key_with(data):
    """The key that has the bytes, or the fault."""
    try:
        at = data.index(0)
        pred, kind, rest = pictured(data[:at]), data[at + 1], data[at + 2 :]
        name = dict(enumerate(KINDS, 1))[kind]
        if name == "index":
            value = value_with(KINDS_OF_VALUES[rest[0]], rest[1:])
            return f"index {pred} {TOKENIZERS[rest[0]]} {value}"
        if len(rest) != 8:
            return NO_KEY
        return f"{name} {pred} {int.from_bytes(rest, 'big')}"
    except (ValueError, LookupError):
        return NO_KEY


def read_row(data, answer):
    row(f"keybytes read {data.hex() or 'none'}", answer)


# Keys whose last byte says something of a node, a number or a moment.
CUT = ("data name 1", "reverse name 258", "count name 2", "rcount name 3", "index name int int:-2")
CUT += tuple(f"index name {part} time:1970-01-01T00:00:00.000000001Z" for part in ("year", "month", "day", "hour"))


def no_keys():
    """Bytes that no key has, beside some that one has: a piece is added, missing or out of its range."""
    front, number = b"a\0", bytes(8)
    yield from (b"", b"a", b"aa", front, front + b"\1", b"\xff\0\1" + number, b"\xed\xa0\x80\0\1" + number)
    yield from (front + bytes([k]) + number for k in (0, 6, 255))
    yield from (front + bytes([k]) + n for k in (1, 3, 4, 5) for n in (number[1:], number + b"\0"))
    index = front + b"\2"
    yield from (index, index + b"\x0a", index + b"\x0a" + number, index + b"\xff")
    yield from (index + bytes([t]) + b"\xc3" for t in range(4))
    yield from (index + bytes([t]) for t in range(4, 10))
    yield from (index + b"\4" + number[1:], index + b"\4" + number + b"\0")
    yield from (index + b"\5" + end for end in (b"\2", b"\xff", b"\0\0"))
    for t in range(6, 10):
        time = index + bytes([t])
        yield from (time + number, time + number + bytes(3), time + signed(0) + bytes(5))
        yield time + signed(0) + (10**9).to_bytes(4, "big")
        yield time + signed(0) + b"\xff\xff\xff\xff"
        first, last = (int.from_bytes(time_bytes(end)[:8], "big") - 2**63 for end in ENDS)
        yield from (time + signed(secs) + bytes(4) for secs in (first - 1, last + 1, -(2**63)))
    yield from (bytes_of_key(key)[:-1] for key in CUT)


def changed_bytes(data):
    """The bytes with one put in, taken out or changed."""
    at = below(len(data) + 1)
    new = bytes([(0, 1, 2, 128, 195, 255, below(256))[below(7)]])
    return data[:at] + new[: below(2)] + data[at + below(2) :]


def bytes_of_keys():
    head("The bytes of keys. By Python's own bytes of texts, numbers and dates.")
    for key in KEYS + SPELLED:
        data = bytes_of_key(key)
        if "  " not in key:
            row(f"keybytes of {key}", data.hex())
            row(f"keybytes back {key}", key)
            row(f"keybytes plain {key}", "true")
        read_row(data, key)
    for keys_in_order in (KEYS, SPELLED[1:]):
        for a, b in pairs(len(keys_in_order)):
            row(f"keybytes order {keys_in_order[a]} | {keys_in_order[b]}", order(a, b))
    head("Keys that have no bytes: a zero byte in the predicate, or a value that isn't of the tokenizer's kind.")
    values = ["text:1", "int:1", "bool:true", "time:1970-01-01T00:00:00Z"]
    others = [(t, v) for t, k in zip(TOKENIZERS, KINDS_OF_VALUES) for v in values if v[: len(k)] != k]
    for key in ["data ␀ 1", "count a␀b 1", "index ␀ term text:a"] + [f"index a {t} {v}" for t, v in others]:
        row(f"keybytes plain {key}", "false")
        row(f"keybytes of {key}", "?")
        row(f"keybytes back {key}", "?")
    row("keybytes order data a 1 | data a␀ 1", "?")
    row("keybytes read 0", "?")
    row("keybytes read 0g", "?")
    row("keybytes read", "?")
    head("Bytes that no key has. By hand, and answered by a reader of Python's own.")
    for data in no_keys():
        assert key_with(data) == NO_KEY, data
        read_row(data, NO_KEY)
    for _ in range(150):
        data = changed_bytes(bytes_of_key((KEYS + SPELLED)[below(len(KEYS + SPELLED))]))
        read_row(data, key_with(data))


PAGED = (map_pages, emptied_maps, many_keys, maps_in_place, parts_one_by_one)
for make in PAGED + (bits, bases, operations, maps, lists, stores, keys, conflicts, large_maps, bytes_of_keys):
    make()
for text, answer in rows:
    if sys.argv[1:] == ["stdin"]:
        print(text)
    elif answer:
        print(f"{text} => {answer}")
