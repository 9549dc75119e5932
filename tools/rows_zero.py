#!/usr/bin/env python3
"""Prints the generated rows of crates/table_zero, the last ones there but for `section bench`.

`rows_zero.py stdin` prints them with their heads, and `rows_zero.py stdout` with their answers. These come from this
model alone: a verdict goes over all that was committed, and each graph is made anew out of all commits.
"""
import random
import sys

SEED = 20


def oracle(rnd, count):
    """Calls of one oracle."""
    out = []

    def row(call, answer):
        out.append((f"oracle {call}", answer))

    first = rnd.choice([1, 5, 100])
    after, active, commits, line = first, [], [], 0
    row(f"new {first}", "made")

    def verdict(start, keys):
        for at, key in enumerate(keys):
            ts = max((t for t, ks in commits if t > start and key in ks), default=None)
            if ts is not None:
                return at, ts
        return None

    def highest():
        return min(active) - 1 if active else after - 1

    while len(out) < count:
        chance = rnd.random()
        if chance < 0.22:
            row("begin", after)
            active.append(after)
            after += 1
        elif chance < 0.45 and active:
            start = rnd.choice(active)
            keys = sorted(rnd.sample(range(12), rnd.randint(0, 5)))
            call = f"commit {start}" + "".join(f" {key}" for key in keys)
            if verdict(start, keys):
                row(call, "?")
            else:
                row(call, after)
                commits.append((after, keys))
                active.remove(start)
                after += 1
        elif chance < 0.53:
            start = rnd.choice(active + [rnd.randint(0, after + 1)])
            row(f"end {start}", "true" if start in active else "false")
            if start in active:
                active.remove(start)
        elif chance < 0.57:
            row("two", f"{after} {after + 1}")
            after += 2
        elif chance < 0.62:
            row("first", min(active) if active else "none")
        elif chance < 0.67:
            row("line", highest())
        elif chance < 0.70:
            row("next", after)
        elif chance < 0.74:
            want = rnd.randint(max(0, line - 1), highest() + 1)
            if want > highest():
                row(f"purge {want}", "?")
            else:
                line = max(line, want)
                row(f"purge {want}", line)
        else:
            start = rnd.randint(0, after)
            keys = sorted(rnd.sample(range(12), rnd.randint(0, 6)))
            call = f"judge {start}" + "".join(f" {key}" for key in keys)
            found = verdict(start, keys)
            if start < line:
                row(call, "?")
            elif found is None:
                row(call, "clear")
            else:
                row(call, f"place {found[0]} at {found[1]}")
    return out


# The kinds of predicates. Whether each is a list is left to chance.
KINDS = {"age": "int", "boss": "uid", "friend": "uid", "name": "string", "tag": "string"}
WORDS = {"int": "int:", "string": "text:", "uid": ""}


def made(single, objects, verb, o):
    """The objects of a subject after a set or a delete."""
    if verb == "del":
        return objects - {o}
    return {o} if single else objects | {o}


class Zero:
    """All that happened."""

    def __init__(self, groups):
        self.groups, self.next, self.uid, self.altered = groups, 1, 1, 0
        self.single, self.tablets, self.active = {}, [], []
        self.records = []

    def graph(self, at):
        """The objects of each subject at a timestamp, and which predicates had single ones there."""
        graph, single = {}, {}
        for record in self.records:
            if record["ts"] > at:
                break
            single.update(record["newer"])
            for (p, s), ops in record["parts"]:
                for verb, o in ops:
                    graph[p, s] = made(single[p], graph.get((p, s), set()), verb, o)
        return graph

    def parts(self, start, changes):
        """What changes over the graph at a start make of lists."""
        old = self.graph(start)
        new = dict(old)
        for verb, s, p, o in changes:
            new[p, s] = made(self.single[p], new.get((p, s), set()), verb, o)
        parts = []
        for key in sorted({(p, s) for _, s, p, _ in changes}):
            before, after = old.get(key, set()), new[key]
            ops = [("del" if o in before else "set", o) for o in sorted(before ^ after)]
            if ops:
                parts.append((key, ops))
        return parts

    def keys(self, changes):
        """The keys of changes."""
        return sorted({(p, s, () if self.single[p] else (o,)) for _, s, p, o in changes})

    def clash(self, start, keys):
        """The least key that was committed above a start, with the last commit that has it."""
        for key in keys:
            ts = max((r["ts"] for r in self.records if r["ts"] > start and key in r["keys"]), default=None)
            if ts is not None:
                return key, ts
        return None


def object_text(p, o):
    return f"{WORDS[KINDS[p]]}{o}"


def key_text(key):
    p, s, objects = key
    texts = {"int": "{}", "string": '"{}"', "uid": "{:#x}"}
    return " ".join([f"data {p} {s:#x}"] + [texts[KINDS[p]].format(o) for o in objects])


def definition(p, single):
    return f"{p}: {KINDS[p] if single else '[' + KINDS[p] + ']'} ."


def joined(texts):
    return ", ".join(texts) or "none"


def record_text(record):
    parts = [f"{s} {p}: " + " ".join(f"{verb} {object_text(p, o)}" for verb, o in ops) for (p, s), ops in record["parts"]]
    fresh = [f"{p} in {group}" for p, group in record["fresh"]]
    return f"at {record['ts']}; new {joined(fresh)}; parts {joined(parts)}"


def zero(rnd, count):
    """Calls of one state."""
    z = Zero(rnd.choice([1, 2, 3]))
    out = []

    def row(call, answer):
        out.append((f"zero {call}", answer))

    def change():
        p = rnd.choice(sorted(z.single))
        some = {"string": ["A", "B", "C", "D"], "int": [-3, 0, 7], "uid": [1, 2, 3, 4, 5]}
        return rnd.choice(["set", "set", "del"]), rnd.randint(1, 4), p, rnd.choice(some[KINDS[p]])

    def declared():
        return "".join(definition(p, single) + "␊" for p, single in sorted(z.single.items()))

    def alter():
        newer = {p: rnd.random() < 0.4 for p in rnd.sample(sorted(KINDS), rnd.randint(1, 3))}
        call = "alter " + " ".join(definition(p, single) for p, single in newer.items())
        filled = {p for (p, _), objects in z.graph(z.next).items() if objects}
        if any(p in filled and z.single[p] != single for p, single in newer.items()):
            row(call, "?")
            return
        if z.active:
            row(call, f"pending {min(z.active)[0]}")
            return
        fresh = []
        for p in newer:
            if p not in z.single:
                owned = [sum(1 for _, g in z.tablets if g == group) for group in range(1, z.groups + 1)]
                fresh.append((p, owned.index(min(owned)) + 1))
                z.tablets.append(fresh[-1])
        row(call, f"{z.next} {z.next + 1}")
        z.altered = z.next + 1
        z.records.append({"ts": z.altered, "newer": newer, "fresh": fresh, "keys": [], "parts": []})
        z.single.update(newer)
        z.next += 2

    def commit():
        start, author = z.active.pop(rnd.randrange(len(z.active)))
        changes = [change() for _ in range(rnd.randint(1, 4))]
        keys = z.keys(changes)
        call = f"commit {author} {start} " + " ".join(f"{verb} {s} {p} {object_text(p, o)}" for verb, s, p, o in changes)
        clash = z.clash(start, keys)
        if clash:
            row(call, f"{key_text(clash[0])} at {clash[1]}")
            return
        row(call, z.next)
        z.records.append({"ts": z.next, "newer": {}, "fresh": [], "keys": keys, "parts": z.parts(start, changes)})
        z.next += 1

    def end():
        start = rnd.choice([s for s, _ in z.active] + [rnd.randint(0, z.next)])
        author = rnd.randint(1, 3)
        if any(s == start and a != author for s, a in z.active):
            row(f"end {author} {start}", "?")
            return
        row(f"end {author} {start}", "true" if (start, author) in z.active else "false")
        z.active = [active for active in z.active if active[0] != start]

    def look_up():
        at, s, p = rnd.randint(max(0, z.altered - 1), z.next), rnd.randint(1, 4), rnd.choice(sorted(KINDS))
        objects = sorted(z.graph(at).get((p, s), set()))
        row(f"objects {at} {s} {p}", "?" if at < z.altered else joined(object_text(p, o) for o in objects))

    def lease():
        top, nodes = rnd.randint(0, z.uid + 3), rnd.randint(0, 5)
        first = max(z.uid, top + 1)
        row("node", z.uid)
        z.uid = first + nodes
        row(f"lease 1 {top} {nodes}", first)
        row("node", z.uid)

    row(f"new {z.groups}", "made")
    while len(out) < count:
        chance = rnd.random()
        if chance < 0.08 or not z.single:
            alter()
        elif chance < 0.24:
            author = rnd.randint(1, 3)
            owners = joined(f"{p} in {group}" for p, group in sorted(z.tablets))
            row(f"begin {author}", f"{z.next}; {declared()}; {owners}")
            z.active.append((z.next, author))
            z.next += 1
        elif chance < 0.50 and z.active:
            commit()
        elif chance < 0.56:
            end()
        elif chance < 0.60:
            row("first", min(z.active)[0] if z.active else "none")
        elif chance < 0.66:
            p = rnd.choice(sorted(KINDS) + ["no"])
            row(f"has {p}", "true" if any(q == p and objects for (q, _), objects in z.graph(z.next).items()) else "false")
        elif chance < 0.80:
            look_up()
        elif chance < 0.90:
            after = rnd.randint(0, z.next)
            found = next((record for record in z.records if record["ts"] > after), None)
            row(f"next {after}", record_text(found) if found else "none")
        elif chance < 0.93:
            row("look 1", "looked")
        elif chance < 0.96:
            lease()
        else:
            row("schema", declared())
    return out


def tables():
    """The tables with their heads."""
    rnd = random.Random(SEED)
    yield "Oracles: calls by chance. From tools/rows_zero.py.", [row for _ in range(4) for row in oracle(rnd, 60)]
    yield "The state: calls by chance. From tools/rows_zero.py.", [row for _ in range(6) for row in zero(rnd, 75)]


def main():
    for head, rows in tables():
        if sys.argv[1] == "stdin":
            print(f"\n# {head}")
        for call, answer in rows:
            print(call if sys.argv[1] == "stdin" else f"{call} => {answer}")


if __name__ == "__main__":
    main()
