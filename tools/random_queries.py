"""Queries drawn at random: every function, filter and form, and in many of them variables, by which blocks build on each other.

A few of the queries with variables have a fault on purpose: a variable that nobody defines, one that hasn't the values that are
asked for, one that is defined twice, blocks that wait for each other, or a sum of what are no numbers.
"""

from __future__ import annotations

import random
import re

from random_words import BAD_PATTERNS, EDGES, NO_VALUES, NODES, NUMBERS, PATTERNS, PREDICATES, TEXTS, VALUES

NAMES = [*"xyzabcABC_", "x1", "x2", "x.y", "as", "var", "uid", "friend", *(f"v{number}" for number in range(40))]
FAULTS = ["nobody", "nodes", "twice", "cycle", "sum"]
# One query in so many that have variables has such a fault.
ONE_FAULT_IN = 7


class Known:
    """The variables of a query by what they have: the predicate of their values, `count`, or nothing where they have nodes alone. A
    block uses those of blocks that were drawn before, and with a fault also others."""

    def __init__(self, names: list[str], fault: str) -> None:
        self.names = names
        self.fault = fault
        self.has: dict[str, str] = {}
        self.fresh: dict[str, str] = {}

    def define(self, has: str) -> str:
        """A new variable; or one that is there already."""
        if self.fault == "twice" and self.has:
            self.fault = ""
            return next(iter(self.has))
        name = self.names.pop()
        self.fresh[name] = has
        return name

    def end_block(self) -> None:
        self.has.update(self.fresh)
        self.fresh = {}

    def usable(self) -> list[str]:
        """The variables whose nodes a block uses."""
        return [*self.has, "nobody"] if self.fault == "nobody" else [*self.has]

    def with_values(self) -> list[str]:
        """Those whose values it uses."""
        return [name for name in self.usable() if self.fault == "nodes" or self.of(name)]

    def of(self, name: str) -> str:
        """What a variable has."""
        return self.has.get(name, "age")

    def numbers(self) -> list[str]:
        """Those that are summed up."""
        return [name for name in self.with_values() if self.fault == "sum" or self.of(name) in ("age", "nums", "count")]


class Queries(random.Random):
    """Random parts of queries."""

    def __init__(self, seed: int) -> None:
        super().__init__(seed)
        # Of the query that is drawn, where it has variables.
        self.known = Known([], "")

    def one_in(self, most: float) -> bool:
        return self.random() * most < 1

    # ---- functions and filters

    def asked_literal(self, predicate: str) -> str:
        """A literal of a comparison: between quotes, or a number or a truth as it is."""
        text = self.choice(VALUES.get(predicate, NUMBERS))
        if self.one_in(12):
            text = self.choice(self.choice([*VALUES.values(), NO_VALUES]))
        bare = re.fullmatch("-?[0-9]+|true|false", text) and self.one_in(2)
        return text if bare else f'"{text}"'

    def edge(self) -> str:
        """A predicate, now and then one of values or none, and now and then the other way round; seldom beside variables, since such
        blocks stand together, and one that isn't answered is enough."""
        name = self.choice(EDGES) if self.one_in(2) else self.predicate()
        return f"~{name}" if self.one_in(12 if self.known.names else 3) else name

    def predicate(self) -> str:
        return "nick" if self.one_in(20) else self.choice(PREDICATES)

    def comparison(self) -> str:
        word = self.choice(["eq", "eq", "le", "lt", "ge", "gt", "between"])
        of, predicate = f"count({self.edge()})", ""
        if not self.one_in(4):
            of = predicate = self.predicate()
        often = 2 if word == "between" else self.choice([1, 1, 2, 3]) if word == "eq" else 1
        texts = ["0", "1", "2", "-1", '"3"', "true"]
        literals = [self.asked_literal(predicate) if predicate else self.choice(texts) for _ in range(often)]
        said = ", ".join(literals)
        return f"{word}({of}, [{said}])" if word == "eq" and self.one_in(3) else f"{word}({of}, {said})"

    def pattern(self) -> str:
        said = self.choice(BAD_PATTERNS if self.one_in(12) else PATTERNS)
        return f"/{said}/{self.choice(['', 'i'])}"

    def values_compared(self) -> str:
        """A comparison of the values of a variable."""
        name = self.choice(self.known.with_values())
        word = self.choice(["eq", "le", "lt", "ge", "gt", "between"])
        often = 2 if word == "between" else self.choice([1, 2]) if word == "eq" else 1
        has = self.known.of(name)
        counts = ["0", "1", "2"] if has == "count" else []
        literals = [self.choice(counts) if counts else self.asked_literal(has) for _ in range(often)]
        return f"{word}(val({name}), {', '.join(literals)})"

    def variables(self) -> str:
        """One variable or two, and now and then nodes."""
        names = [self.choice(self.known.usable()) for _ in range(self.choice([1, 1, 2]))]
        return ", ".join(names + [hex(node) for node in NODES if self.one_in(20)])

    def of_variables(self, root: bool) -> str:
        """A function of variables."""
        if self.known.with_values() and self.one_in(2):
            return self.values_compared()
        if not root and self.one_in(3):
            return f"uid_in({self.edge()}, {self.variables()})"
        return f"uid({self.variables()})"

    def function(self, root: bool) -> str:
        """A function of a query, in many where variables are known one of these."""
        if self.known.usable() and self.one_in(2):
            return self.of_variables(root)
        ways = ["uid", "uid", "uid", "comparison", "comparison", "has", "has", "has", "terms", "regexp"]
        ways += [] if root else ["uid_in"]
        if self.known.names and self.one_in(1.2):
            ways = ["uid", "has", "has"]
        way = self.choice(ways)
        nodes = ", ".join(hex(self.choice([*NODES, 0xABD, 6])) for _ in range(self.choice([1, 2, 3, 6])))
        texts = self.choice(["name", "name", "tags", "tags", self.predicate()])
        return {
            "uid": lambda: f"uid({nodes})",
            "comparison": self.comparison,
            "has": lambda: f"has({self.edge() if self.one_in(3) else self.predicate()})",
            "terms": lambda: f'{self.choice(["anyofterms", "allofterms"])}({texts}, "{self.choice(TEXTS)}")',
            "regexp": lambda: f"regexp({texts}, {self.pattern()})",
            "uid_in": lambda: f"uid_in({self.edge()}, {nodes})",
        }[way]()

    def filter(self, depth: int = 2) -> str:
        """A filter with brackets, so deep at most."""
        if depth == 0 or self.one_in(2):
            return self.choice(["", "", "not ", "NOT not "]) + self.function(False)
        inner = self.choice([" and ", " or ", " Or "]).join(self.filter(depth - 1) for _ in range(2))
        return self.choice(["({})", "({})", "not ({})", "{}"]).format(inner)

    # ---- lists

    def argument(self, has_order: bool) -> str:
        """An argument of a list that isn't ordered, or now and then of one that is; seldom one that can't stand there."""
        least = 0 if has_order and not self.one_in(20) else -3
        return self.choice(
            [
                f"first: {self.choice(range(least, 4))}",
                f"offset: {self.choice(range(-1 if self.one_in(10) else 0, 4))}",
                f"after: {hex(self.choice(NODES))}" if not has_order or self.one_in(20) else "offset: 1",
            ]
        )

    def order_key(self) -> str:
        """A predicate, or a variable with values."""
        names = self.known.with_values()
        return f"val({self.choice(names)})" if names and self.one_in(2) else self.predicate()

    def arguments(self) -> list[str]:
        """The arguments of a list of nodes, now and then twice the same."""
        orders = [f"{self.choice(['orderasc', 'orderdesc'])}: {self.order_key()}" for _ in range(self.choice([0, 0, 1, 2]))]
        pages = [self.argument(bool(orders)) for _ in range(self.choice([0, 0, 1, 2]))]
        if not self.one_in(20):
            pages = list({page.partition(":")[0]: page for page in pages}.values())
        said = orders + pages
        self.shuffle(said)
        return said

    def list_directives(self, tested: float, words: list[str]) -> list[str]:
        """The directives of a list: a filter of one in so many, and now and then each of these words, in any order."""
        said = [f"@filter({self.filter()})"] if self.one_in(tested) else []
        said += [word for word in words if self.one_in(3.5)]
        self.shuffle(said)
        return said

    # ---- fields

    def variable(self, has: str) -> str:
        """In front of what a variable can stand for, now and then a new one, which has so."""
        return f"{self.known.define(has)} as " if self.known.names and self.one_in(3) else ""

    def own_field(self, alias: str, name: str) -> str:
        """A field of a node itself, now and then with a variable."""
        if name == "count(uid)":
            return alias + name
        has = {"uid": "", "boss": "", "friend": ""}.get(name, "count" if name.startswith("count(") else name)
        return self.variable(has) + alias + name

    def values_shown(self) -> list[str]:
        """Values of variables, some of them under an alias."""
        names = dict.fromkeys(name for name in self.known.with_values() if self.one_in(3))
        return [f"{f'w{place}: ' if self.one_in(2) else ''}val({name})" for place, name in enumerate(names)]

    def edge_field(self, key: str, depth: int, has_few: bool, is_flat: bool) -> str:
        """An edge under a key with what stands behind it, so deep at most."""
        arguments = self.arguments() if self.one_in(2) else []
        brackets = f"({', '.join(arguments)})" if arguments or self.one_in(20) else ""
        directives = self.list_directives(4, ["@cascade"])
        few = has_few or "@cascade" in directives
        braces = [] if self.one_in(15) else [f"{{ {self.fields(depth - 1, few, is_flat)} }}"]
        edge = self.choice(EDGES) if (few or is_flat) and self.one_in(1.5) else self.edge()
        has = edge if edge in VALUES or edge == "nick" else ""
        return " ".join([f"{self.variable(has)}{key}: {edge}{brackets}", *directives, *braces])

    def fields(self, depth: int, has_few: bool, is_flat: bool) -> str:
        """Fields, seldom two under one key, with edges so deep at most; few in a cascade, since a node seldom has many, and in flat
        objects more under an alias, of which some stand again at another depth."""
        names = self.sample([*PREDICATES, "nick"], self.choice([0, 0, 1, 1] if has_few else [0, 1, 1, 2, 3, 6]))
        names += [] if self.one_in(4) else ["uid"]
        names += [f"count({self.choice(['uid', self.edge()])})"] if self.one_in(5) else []
        same = ["uid: ", "name: "] if self.one_in(15 if self.known.names else 4) else []
        aliases = self.sample(["n: ", "o:", "a: " if is_flat else "", *same, *[""] * (5 if is_flat else 12)], len(names))
        said = [self.own_field(alias, name) for alias, name in zip(aliases, names)] + self.values_shown()
        edges = range(self.choice([0, 1, 1, 2] if has_few or is_flat else [0, 0, 1, 2]) if depth else 0)
        said += [self.edge_field(f"e{place}", depth, has_few, is_flat) for place in edges]
        return self.choice([" ", ", "]).join(said)

    # ---- blocks

    def aggregates(self) -> str:
        """The fields of a block without a function."""
        said = [f"{self.choice(['min', 'max'])}(val({name}))" for name in self.known.with_values() if self.one_in(2)]
        said += [f"sum(val({name}))" for name in self.known.numbers() if self.one_in(1.5)]
        self.shuffle(said)
        return self.choice([" ", ", "]).join(dict.fromkeys(said))

    def recursion(self) -> str:
        """What stands behind the head of a block that recurs; now and then a depth that can't be."""
        options = [f"depth: {self.choice([1, 2, 2, 3, 3, 4, 5])}"]
        options += [f"loop: {self.choice(['true', 'false'])}"] if self.one_in(2) else []
        if self.one_in(12):
            options = self.choice([[], options[1:], ["depth: 0"], ["depth: 33"], ["depth: 32"], ["loop: true", "depth: -1"]])
        self.shuffle(options)
        fields = self.sample([*PREDICATES, "nick", "uid", f"count({self.edge()})"], self.choice([0, 1, 1, 2]))
        fields += self.values_shown()
        for place in range(self.choice([1, 1, 2])):
            arguments = self.arguments() if self.one_in(3) else []
            brackets = f"({', '.join(arguments)})" if arguments else ""
            filters = f" @filter({self.filter()})" if self.one_in(4) else ""
            fields.append(f"e{place}: {self.edge()}{brackets}{filters}")
        return f"@recurse{'(' + ', '.join(options) + ')' if options else ''} {{ {' '.join(fields)} }}"

    def block(self, name: str) -> str:
        if self.known.with_values() and self.one_in(5):
            return f"{name}() {{ {self.aggregates()} }}"
        arguments = self.arguments() if self.one_in(3) else []
        said = ", ".join([f"func: {self.function(True)}", *arguments])
        if self.one_in(8):
            return f"{name}({said}) {self.recursion()}"
        directives = self.list_directives(2.5, ["@cascade", "@normalize"])
        shape = ("@cascade" in directives, "@normalize" in directives)
        fields = self.fields(self.choice([0, 1, 2, 3] if any(shape) else [0, 0, 1, 2, 3]), *shape)
        return " ".join([f"{self.variable('')}{name}({said})", *directives, f"{{ {fields} }}"])

    def shown_alone(self, name: str, variable: str) -> str:
        """A block that shows what a variable stands for."""
        value = f" val({variable})" if self.known.of(variable) else ""
        return f"{name}(func: uid({variable})) {{ uid{value} }}"

    def sums(self) -> str:
        """A query that sums up numbers."""
        of = self.choice(["age", "nums"])
        page = f", first: {self.choice([1, 2, 3, 4])}" if self.one_in(2) else ""
        blocks = [f"var(func: has({of}){page}) {{ x as {of} n as count({of}) }}", f"{self.choice(['t', 'var'])}() {{ sum(val(x)) sum(val(n)) }}"]
        self.shuffle(blocks)
        return f"{{ {' '.join(blocks)} }}"

    def blocks_with_variables(self) -> list[str]:
        """Blocks that build on each other, in any order of the text."""
        blocks = self.known_blocks()
        self.known = Known([], "")
        return blocks

    def known_blocks(self) -> list[str]:
        """The same, and their variables are known behind them too."""
        fault = self.choice(FAULTS) if self.one_in(ONE_FAULT_IN) else ""
        self.known = Known(self.sample(NAMES, len(NAMES)), fault)
        blocks = []
        for name in self.sample(["q", "p", "r", "var", "var", "x.y"], self.choice([1, 2, 2, 3, 4])):
            blocks.append(self.block(name))
            self.known.end_block()
        # Some are shown, those with values first.
        names = sorted(self.known.has, key=lambda name: not self.known.has[name])[:3]
        blocks += [self.shown_alone(f"s{place}", variable) for place, variable in enumerate(names)]
        blocks += self.circle() if fault == "cycle" else []
        if self.one_in(2):
            self.shuffle(blocks)
        return blocks

    def circle(self) -> list[str]:
        """Blocks that wait for each other, or one that waits for itself."""
        one, other = self.known.names.pop(), self.known.names.pop()
        if self.one_in(3):
            return [f"{one} as c(func: has(name)) @filter(not uid({one})) {{ uid }}"]
        return [f"{one} as c(func: uid({other}, 0x1)) {{ uid }}", f"var(func: has(name)) {{ {other} as friend @filter(uid({one})) }}"]

    def query(self) -> str:
        if self.one_in(6):
            node = hex(self.choice([*NODES, 0xABD, 6]))
            return f"{{ q(func: uid({node})) {{ {self.choice([*PREDICATES, 'nick'])} }} }}"
        if self.one_in(60):
            return "{" * self.choice([1, 32, 33, 34])
        front = self.choice(["", "", "", "query ", "# asked\n"])
        if self.one_in(2.5):
            return f"{front}{{ {' '.join(self.blocks_with_variables())} }}"
        names = self.sample(["q", "p", "r", "var", "x.y"], 0 if self.one_in(20) else self.choice([1, 1, 1, 2, 3]))
        return f"{front}{{ {' '.join(self.block(name) for name in names)} }}"
