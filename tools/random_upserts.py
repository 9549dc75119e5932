"""Upsert blocks drawn at random: queries that find nodes and values, and mutations that name what was found.

Most are sound. A few conditions and statements name a variable that nobody defines, or one without the values that are asked for;
a few statements have a predicate that isn't declared, an object of another sort or a text that doesn't read.
"""

from __future__ import annotations

from random_queries import NAMES, Known, Queries
from random_words import EDGES, INDEXED, NO_VALUES, NODES, PREDICATES, TEXTS, TYPED, VALUES

# The last node that there can be, and one behind it.
ODD_NODES = ["0x3fffffffffffffff", "0x4000000000000000"]
NUMBERS = ["0", "0", "0", "1", "1", "2", "3", "5", "-1", "007", "9223372036854775807", "-9223372036854775808"]
# One condition or statement in so many has a fault on purpose.
ONE_FAULT_IN = 30


def kind_of(has: str) -> str:
    """The kind of the values of a predicate, or of a variable that has them or counts; empty where they are of none."""
    return "int" if has == "count" else TYPED.get(has, "").strip("[]").lower()


class Upserts(Queries):
    """Random parts of upsert blocks."""

    # ---- what is found

    def found_root(self, predicate: str) -> str:
        """The function of a block and what stands behind it; now and then it finds nothing, or isn't served by an index."""
        texts = VALUES.get(predicate)
        if self.one_in(60):
            return f"(func: uid({self.choice(ODD_NODES)}))"
        if texts and self.one_in(3):
            asked = f'eq({predicate}, "{self.choice(texts)}")'
            heads = [f"(func: has({predicate})) @filter({asked})", f"(func: has({predicate})) @filter(not {asked})"]
            return self.choice([*heads, f"(func: has({predicate}), orderdesc: {predicate}) @filter({asked})", f"(func: {asked})"])
        if self.one_in(2.5):
            return f"(func: uid({', '.join(hex(node) for node in self.sample(NODES, self.choice([1, 2, 2, 3])))}))"
        page = f", first: {self.choice([0, 1, 2])}" if self.one_in(5) else ""
        return f"(func: has({'nick' if self.one_in(12) else predicate}){page})"

    def found_field(self, predicate: str) -> str:
        """A field of a node that a variable can stand for: the node, nodes, values, or a number of objects."""
        count = f"count({self.choice([*EDGES, 'tags'])})"
        return self.choice([predicate, predicate, "uid", "uid", self.choice(PREDICATES), "nick" if self.one_in(4) else count])

    def defined_as(self, said: str) -> str:
        """A new variable before what it stands for."""
        has = "count" if said.startswith("count(") else "" if said in (*EDGES, "uid") else said
        return f"{self.known.define(has)} as {said}"

    def found_block(self, name: str) -> str:
        predicate = self.choice(PREDICATES)
        front = f"{self.known.define('')} as {name}" if self.one_in(3) else name
        fields = [self.found_field(predicate) for _ in range(self.choice([1, 1, 2, 3]))]
        said = self.choice([" ", ", "]).join(self.defined_as(field) for field in dict.fromkeys(fields))
        self.known.end_block()
        return f"{front}{self.found_root(predicate)} {{ {said} }}"

    def found(self) -> str:
        """The blocks of a query, of which the variables are known then; in some any blocks that there are."""
        if self.one_in(4):
            return " ".join(self.known_blocks())
        self.known = Known(self.sample(NAMES, len(NAMES)), "nobody" if self.one_in(30) else "")
        return " ".join(self.found_block(name) for name in self.sample(["q", "p", "var", "var"], self.choice([0, 1, 1, 1, 2, 3])))

    # ---- conditions

    def length(self) -> str:
        names = self.known.usable()
        name = self.choice(names) if names and not self.one_in(ONE_FAULT_IN) else "nobody"
        return f"{self.choice(['eq', 'eq', 'le', 'lt', 'ge', 'gt'])}(len({name}), {self.choice(NUMBERS)})"

    def condition(self, depth: int = 2) -> str:
        """A condition with brackets, so deep at most, and words in letters of any case."""
        if depth == 0 or self.one_in(2):
            return self.choice(["", "", "", "not ", "NOT ", "nOt not "]) + self.length()
        joint = self.choice([" and ", " AND ", " aNd ", " or ", " OR ", " oR "])
        inner = joint.join(self.condition(depth - 1) for _ in range(self.choice([2, 2, 3])))
        return self.choice(["({})", "(({}))", "not ({})", "Not({})", "{}", "{}"]).format(inner)

    # ---- statements

    def named_node(self, deletes: bool) -> str:
        """A node of a statement, in most a variable's."""
        names = self.known.usable()
        if names and self.one_in(1.5):
            return f"uid({self.choice(names)})"
        if self.one_in(5) and not deletes:
            return "_:" + self.choice(["a", "b", "c"])
        return f"<{hex(self.choice(NODES))}>"

    def takers(self, name: str) -> list[str]:
        """The predicates that take the values of a variable, and seldom all."""
        kind = kind_of(self.known.of(name))
        if self.one_in(ONE_FAULT_IN):
            return PREDICATES
        return [taker for taker in PREDICATES if kind_of(taker) in ("string", "default", kind) and taker not in EDGES]

    def value_statement(self, deletes: bool) -> str:
        """A statement with the value of a variable, in most at one of its nodes."""
        name = self.choice(self.known.with_values())
        subject = self.named_node(deletes) if self.one_in(3) else f"uid({name})"
        return f"{subject} <{self.choice(self.takers(name))}> val({name}) ."

    def named_statement(self, deletes: bool) -> str:
        if self.known.with_values() and self.one_in(2.5):
            return self.value_statement(deletes)
        predicate = "nick" if self.one_in(ONE_FAULT_IN) else self.choice([*PREDICATES, *EDGES])
        texts = self.choice([*VALUES.values(), NO_VALUES]) if self.one_in(ONE_FAULT_IN) else VALUES.get(predicate, TEXTS)
        is_edge = (predicate in EDGES) != self.one_in(ONE_FAULT_IN)
        said = self.named_node(deletes) if is_edge else f'"{self.choice(texts)}"'
        if deletes and self.one_in(2.5):
            said = "*"
        return f"{self.named_node(deletes)} <{predicate}> {said} ."

    def named_group(self) -> str:
        deletes = self.one_in(2.5)
        lines = [self.named_statement(deletes) for _ in range(self.choice([0, 1, 1, 1, 2, 3]))]
        return f"{'delete' if deletes else 'set'} {{ {' '.join(lines)} }}"

    def named_mutation(self) -> str:
        condition = f" @if({self.condition()})" if (self.known.usable() or self.one_in(20)) and self.one_in(2) else ""
        return f"mutation{condition} {{ {' '.join(self.named_group() for _ in range(self.choice([0, 1, 1, 1, 2])))} }}"

    # ---- whole blocks

    def upsert_behind(self, query: str) -> str:
        """The upsert block of a query whose variables are known."""
        mutations = " ".join(self.named_mutation() for _ in range(self.choice([1, 1, 1, 2, 3])))
        self.known = Known([], "")
        return f"upsert {{ query {query} {mutations} }}"

    def upsert(self) -> str:
        if self.one_in(60):
            return "upsert " + "{(" * self.choice([1, 16, 17])
        return self.upsert_behind(f"{{ {self.found()} }}")

    def upsert_of_sums(self) -> str:
        """An upsert block that sums up numbers, and uses them."""
        query = self.sums()
        self.known = Known([], "")
        self.known.has = {"x": "age" if "x as age" in query else "nums", "n": "count"}
        return self.upsert_behind(query)

    def sound_upsert(self, predicates: list[str], nodes: list[int]) -> str:
        """An upsert block without a fault, over these predicates and nodes: it sets a value, or an edge, where none has it yet, or at
        all nodes that have it."""
        predicate, node = self.choice(predicates), hex(self.choice(nodes))
        said = f"<{hex(self.choice(NODES))}>" if predicate in EDGES else f'"{self.choice(VALUES[predicate])}"'
        asked = f"uid_in({predicate}, {said[1:-1]})" if predicate in EDGES else f"eq({predicate}, {said})"
        blocks = f"v as var(func: has({predicate})) @filter({asked}) {{ }} var(func: uid({node})) {{ w as uid }}"
        subject = self.choice(["uid(v)", "uid(w)", f"<{node}>"])
        condition = self.choice(["", " @if(eq(len(v), 0))", " @if(not gt(len(v), 0) OR ge(len(w), 1))", " @if(lt(len(v), 3))"])
        word = "delete" if self.one_in(8) else "set"
        return f"upsert {{ query {{ {blocks} }} mutation{condition} {{ {word} {{ {subject} <{predicate}> {said} . }} }} }}"
