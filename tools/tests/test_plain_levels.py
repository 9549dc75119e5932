"""What cascade and normalize leave, by whole trees and by fields: the two agree over random graphs."""

from __future__ import annotations

import random
import unittest
from collections import Counter
from typing import Optional

import rows_levels as rows
import rows_variables
from plain_answers import View, view_of
from plain_levels import along, block_objects, listed
from plain_queries import Block, Count, CountUid, Directive, Edge, Field, Followed, Uid, Val, read_query
from plain_tokens import Refusal
from plain_values import json_text

# Texts under their keys, in order.
Object = list[tuple[str, str]]


def text_of(fields: Object) -> str:
    return "{" + ",".join(f'"{key}":{text}' for key, text in fields) + "}"


def key_of(field: Field) -> str:
    """The alias, or else the item as it is written."""
    item = field.item
    if isinstance(item, (Count, Followed)):
        said = ("~" if item.edge.back else "") + item.edge.predicate
        return field.alias or (said if isinstance(item, Followed) else f"count({said})")
    if isinstance(item, Val):
        return field.alias or f"val({item.name})"
    return field.alias or {Uid: "uid", CountUid: "count"}[type(item)]


def drops(above: bool, directives: list[Directive]) -> bool:
    """Whether nodes are dropped from a list: it asks for that, or one above it does."""
    return above or "cascade" in [directive.word for directive in directives]


class ByFields:
    """What each field shows at a node, by what stands in its braces and without whole trees: the definition that the proofs have."""

    def __init__(self, view: View) -> None:
        self.view = view

    def leads_to(self, edge: Edge) -> str:
        """To nothing, to values, to a node, or to nodes."""
        definition = self.view.schema.get(edge.predicate)
        if definition is None:
            return "nothing"
        if edge.back:
            return "nodes"
        if definition.kind != "uid":
            return "values"
        return "nodes" if definition.is_list else "node"

    def children(self, item: Followed, node: int) -> list[int]:
        """The list of an edge at a node: filtered, in order, and cut."""
        return listed(self.view, item.arguments or [], item.directives, along(self.view, item.edge, node))

    # ---- cascade

    def is_there(self, field: Field, node: int) -> bool:
        """Whether a field isn't missing at a node."""
        item = field.item
        if isinstance(item, Val):
            return node in self.view.variables[item.name].values
        if not isinstance(item, Followed):
            return True
        sort = self.leads_to(item.edge)
        if sort in ("nothing", "values"):
            return sort == "values" and self.view.shown(item.edge.predicate, node) is not None
        return any(self.is_whole(item.fields or [], child) for child in self.children(item, node))

    def is_whole(self, fields: list[Field], node: int) -> bool:
        return all(self.is_there(field, node) for field in fields)

    def left(self, item: Followed, cascade: bool, node: int) -> list[int]:
        """The nodes of an edge that remain."""
        nodes = self.children(item, node)
        return [child for child in nodes if self.is_whole(item.fields or [], child)] if drops(cascade, item.directives) else nodes

    # ---- what is shown

    def at(self, field: Field, cascade: bool, node: int) -> Object:
        """What a field shows at a node."""
        text = self.text_at(field, cascade, node)
        return [] if text is None else [(key_of(field), text)]

    def text_at(self, field: Field, cascade: bool, node: int) -> Optional[str]:
        item = field.item
        if isinstance(item, Uid):
            return f'"{node:#x}"'
        if isinstance(item, Count):
            return str(self.view.ends(item.edge, node))
        if isinstance(item, Val):
            values = self.view.variables[item.name].values
            return json_text(values[node]) if node in values else None
        if not isinstance(item, Followed):
            return None
        sort = self.leads_to(item.edge)
        if sort in ("nothing", "values"):
            return self.view.shown(item.edge.predicate, node) if sort == "values" else None
        trees = self.trees(item.fields or [], drops(cascade, item.directives), self.left(item, cascade, node))
        if sort == "node" and not any(isinstance(field.item, CountUid) for field in item.fields or []):
            return trees[0] if trees else None
        return f"[{','.join(trees)}]" if trees else None

    def shown(self, fields: list[Field], cascade: bool, node: int) -> Object:
        return [pair for field in fields for pair in self.at(field, cascade, node)]

    def trees(self, fields: list[Field], cascade: bool, nodes: list[int]) -> list[str]:
        """The objects of a list: its number under each key that asks it, then its nodes that show something."""
        numbers = [text_of([(key_of(field), str(len(nodes)))]) for field in fields if isinstance(field.item, CountUid)]
        return numbers + [text_of(pairs) for node in nodes if (pairs := self.shown(fields, cascade, node))]

    # ---- normalize

    def behind(self, field: Field, cascade: bool, node: int, objects: list[Object]) -> list[Object]:
        """The objects behind a field, from those in front of it."""
        item = field.item
        if isinstance(item, Followed) and self.leads_to(item.edge) in ("node", "nodes"):
            below = drops(cascade, item.directives)
            flats = [one for child in self.left(item, cascade, node) for one in self.flats(item.fields or [], below, child)]
            return [joined(one, other) for one in objects for other in flats] if flats else objects
        pairs = self.at(field, cascade, node) if field.alias else []
        return [joined(one, pairs) for one in objects]

    def flats(self, fields: list[Field], cascade: bool, node: int) -> list[Object]:
        """The flat objects of a node that have a pair."""
        objects: list[Object] = [[]]
        for field in fields:
            objects = self.behind(field, cascade, node, objects)
        return [one for one in objects if one]

    # ---- blocks

    def objects_of(self, block: Block) -> list[str]:
        """The objects of a block's array."""
        assert block.function is not None
        nodes = listed(self.view, block.arguments, block.directives, self.view.root(block.function))
        cascade = drops(False, block.directives)
        if cascade:
            nodes = [node for node in nodes if self.is_whole(block.fields, node)]
        if any(directive.word == "normalize" for directive in block.directives):
            return [text_of(one) for node in nodes for one in self.flats(block.fields, cascade, node)]
        return self.trees(block.fields, cascade, nodes)


def joined(one: Object, more: Object) -> Object:
    """An object with the pairs of another whose keys it doesn't have."""
    made = list(one)
    for key, text in more:
        if key not in [before for before, _ in made]:
            made.append((key, text))
    return made


class Agreement(unittest.TestCase):
    """By fields and by whole trees the same is answered."""

    GRAPHS = 400
    QUERIES = 10

    def test_over_random_graphs(self) -> None:
        drawn = random.getstate()
        random.seed(77)
        met: Counter[str] = Counter()
        for _ in range(self.GRAPHS):
            view = View(rows.graph_of(rows.random_triples()), rows.SCHEMA)
            for _ in range(self.QUERIES):
                self.compare(view, rows.random_query(), met)
        random.setstate(drawn)
        for kind in ("cascade", "normalize", "cascade normalize", "below", "nothing"):
            self.assertGreater(met[kind], 100, (kind, met))

    def test_over_random_blocks_that_build_on_each_other(self) -> None:
        drawn = random.getstate()
        random.seed(79)
        met: Counter[str] = Counter()
        for _ in range(self.GRAPHS // 10):
            graph = rows.graph_of(rows.random_triples())
            for _ in range(self.QUERIES):
                blocks = read_query(rows_variables.random_query())
                view = view_of(graph, rows.SCHEMA, blocks)
                for block in blocks:
                    if block.function is not None:
                        by_trees = list(block_objects(view, block))
                        self.assertEqual(by_trees, ByFields(view).objects_of(block), block)
                        met["shown" if by_trees else "nothing"] += 1
                        met["values"] += '"val(' in "".join(by_trees)
        random.setstate(drawn)
        for kind in ("shown", "nothing", "values"):
            self.assertGreater(met[kind], 100, (kind, met))

    def compare(self, view: View, text: str, met: Counter[str]) -> None:
        block = read_query(text)[0]
        try:
            by_trees = list(block_objects(view, block))
        except Refusal:
            met["refused"] += 1
            return
        self.assertEqual(by_trees, ByFields(view).objects_of(block), text)
        words = sorted({directive.word for directive in block.directives} - {"filter"})
        met[" ".join(words)] += 1
        met["below"] += "@cascade" in text and "cascade" not in words
        met["nothing"] += not by_trees and bool(words)


if __name__ == "__main__":
    unittest.main()
