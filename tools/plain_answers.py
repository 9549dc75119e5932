"""Queries, answered plainly: each node is looked at by itself, in triples alone and without an index.

What is wrong with a query stands in `plain_checks.py`, what variables stand for in `plain_variables.py`, what fields show in
`plain_levels.py`, and what `@recurse` shows in `plain_recursion.py`.
"""

from __future__ import annotations

import operator
from collections.abc import Callable, Iterable, Iterator
from typing import Optional, TypeVar, Union

from plain_checks import Schema, check, kind_asked, kinds_of, places_of
from plain_graph import Graph, terms
from plain_levels import LONGEST_ANSWER, asks, block_objects, by_commas, listed
from plain_patterns import pattern_of
from plain_queries import COMPARISONS, TERMS, Block, Count, Edge, Fault, Function, Part, Val, read_query
from plain_recursion import Unfolding
from plain_tokens import Refusal
from plain_values import INT, NODE, TEXT, Posting, json_text, read_posting
from plain_variables import Variable, aggregate_objects, find_variables, refuse_overflow

Said = TypeVar("Said")
HOLDS = {name: getattr(operator, name) for name in COMPARISONS}
REFUSALS = {"T": (3, "BadToken"), "D": (5, "TooDeep"), "S": (4, "BadSyntax")}


# ---------------------------------------------------------------------------------------------------
# Truth
# ---------------------------------------------------------------------------------------------------


class View:
    """A graph and its schema, looked at node by node, and what the variables of a query stand for as far as they are known; the
    values of each are of a kind, or of none."""

    def __init__(self, graph: Graph, schema: Schema, kinds: Optional[dict[str, Optional[str]]] = None) -> None:
        self.graph = graph
        self.schema = schema
        self.kinds = kinds or {}
        self.variables: dict[str, Variable] = {}

    def objects(self, name: str, node: int) -> frozenset[Posting]:
        return self.graph.get((name, node), frozenset())

    def triples(self, name: str) -> Iterator[tuple[int, Posting]]:
        for (predicate, subject), objects in self.graph.items():
            if predicate == name:
                yield from ((subject, posting) for posting in objects)

    def ends(self, edge: Edge, node: int) -> int:
        """How many objects a node has, or how many subjects point to it."""
        if not edge.back:
            return len(self.objects(edge.predicate, node))
        return sum(posting == Posting(NODE, node) for _, posting in self.triples(edge.predicate))

    def texts(self, name: str, node: int) -> Iterator[str]:
        for posting in self.objects(name, node):
            if posting.rank == TEXT:
                yield posting.value()  # type: ignore[misc]

    def compared(self, function: Function, node: int) -> Iterable[Posting]:
        """What a comparison compares at a node."""
        if isinstance(function.of, Count):
            return [Posting(INT, self.ends(function.of.edge, node))]
        if isinstance(function.of, Val):
            values = self.variables[function.of.name].values
            return [values[node]] if node in values else []
        assert isinstance(function.of, str)
        return self.objects(function.of, node)

    def holds(self, function: Function, node: int) -> bool:
        """Whether a function holds at a node."""
        word, of, values, folds = function
        if word == "uid":
            return node in self.named(values)
        if word == "has":
            assert isinstance(of, Edge)
            return self.ends(of, node) > 0
        if word == "uid_in":
            return self.leads_to(of, node, self.named(values))  # type: ignore[arg-type]
        if word in TERMS:
            return self.has_terms(function, node)
        if word == "regexp":
            pattern = pattern_of(values[0], folds)
            return any(pattern.is_in(text) for text in self.texts(of, node))  # type: ignore[arg-type]
        return self.is_compared(function, node)

    def named(self, said: Iterable[Union[int, str]]) -> set[int]:
        """The nodes that are named by themselves or by a variable."""
        return {node for one in said for node in (self.variables[one].nodes if isinstance(one, str) else [one])}

    def has_terms(self, function: Function, node: int) -> bool:
        """Whether one of a node's texts has one of the terms, or all."""
        assert isinstance(function.of, str)
        asked = set(terms(function.values[0]))
        least = len(asked) if function.word == "allofterms" else 1
        return bool(asked) and any(len(asked & set(terms(text))) >= least for text in self.texts(function.of, node))

    def leads_to(self, edge: Edge, node: int, nodes: Iterable[int]) -> bool:
        """Whether one of the nodes is at the other end of an edge."""
        if not edge.back:
            return any(Posting(NODE, one) in self.objects(edge.predicate, node) for one in nodes)
        return any(Posting(NODE, node) in self.objects(edge.predicate, one) for one in nodes)

    def is_compared(self, function: Function, node: int) -> bool:
        """Whether a comparison or `between` holds at a node."""
        kind = kind_asked(self.schema, self.kinds, function)
        if kind is None:
            return False
        read = [read_posting(kind, text) for text in function.values]
        found = list(self.compared(function, node))
        if function.word == "between":
            return any(read[0] <= one <= read[1] for one in found)  # type: ignore[operator]
        if function.word == "eq":
            return not set(read).isdisjoint(found)
        return any(HOLDS[function.word](one, read[0]) for one in found)

    def passes(self, part: Part, node: int) -> bool:
        """Whether a node passes a filter."""
        if not part.joint:
            passed = self.holds(part.atom, node)
        else:
            passed = (any if part.joint == "or" else all)(self.passes(below, node) for below in part.parts)
        return passed != (part.nots % 2 == 1)

    def root(self, function: Function) -> list[int]:
        """The nodes of a root, ascending: those that are named, or those of a variable or with something there where it holds."""
        if function.word == "uid":
            return sorted(self.named(function.values))
        if isinstance(function.of, Val):
            return [node for node in sorted(self.variables[function.of.name].nodes) if self.holds(function, node)]
        of = function.of.edge if isinstance(function.of, Count) else function.of
        edge = of if isinstance(of, Edge) else Edge(False, of)  # type: ignore[arg-type]
        ends = {posting.key if edge.back else subject for subject, posting in self.triples(edge.predicate)}
        return [node for node in sorted(ends) if self.holds(function, node)]  # type: ignore[arg-type, type-var]

    def nodes_of(self, block: Block) -> list[int]:
        """The list of a block."""
        assert block.function is not None
        return listed(self, block.arguments, block.directives, self.root(block.function))

    # ---- answers

    def shown(self, name: str, node: int) -> Optional[str]:
        """What is shown of a predicate at a node, if anything is."""
        values = [json_text(posting) for posting in sorted(self.objects(name, node)) if posting.rank != NODE]
        if not values:
            return None
        return f"[{','.join(values)}]" if self.schema[name].is_list else values[0]

    def objects_of(self, block: Block) -> Iterator[str]:
        """The objects of a block's array."""
        if block.function is None:
            return aggregate_objects(self, block)
        if asks(block.directives, "recurse"):
            return Unfolding(self, block).objects(self.nodes_of(block))
        return block_objects(self, block)

    def block(self, block: Block) -> str:
        return f'"{block.name}":[{by_commas(self.objects_of(block))}]'

    def answer(self, blocks: list[Block]) -> str:
        return f'{{"data":{{{",".join(self.block(block) for block in blocks if block.name != "var")}}}}}'


def refused_as(read: Callable[[], Said]) -> Said:
    """What is read; else a refusal."""
    try:
        return read()
    except Fault as fault:
        raise Refusal(*REFUSALS[fault.letter], fault.offset) from None


def view_of(graph: Graph, schema: Schema, blocks: list[Block]) -> View:
    """A graph with the variables of a query, which passes the checks."""
    view = View(graph, schema, kinds_of(schema, [place for block in blocks for place in places_of(block)]))
    find_variables(view, blocks)
    return view


def answer_of(graph: Graph, schema: Schema, text: str) -> str:
    """The answer to a query over a graph under a schema; else a refusal."""
    blocks = refused_as(lambda: read_query(text))
    check(schema, blocks)
    view = view_of(graph, schema, blocks)
    refuse_overflow(view, blocks)
    answer = view.answer(blocks)
    if len(answer.encode()) > LONGEST_ANSWER:
        raise Refusal(17, "AnswerTooLarge")
    return answer
