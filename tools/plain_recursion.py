"""What `@recurse` shows of nodes: one list of fields, at each node along the edges among them, to a depth.

What is shown of a node depends on how many more edges may be followed, and without loops on the nodes of the way to it. With loops it
is made once by the node and that number. Without them a way is followed only where something is shown at its end: where a node that
shows something of itself can be reached off the way. So nothing is made that isn't a part of the answer.
"""

from __future__ import annotations

from collections.abc import Iterator
from typing import TYPE_CHECKING, Optional

from plain_levels import NODES, ONE, along, by_commas, json_key, key_of, listed, own_text, sort_of
from plain_queries import Block, Field, Followed

if TYPE_CHECKING:
    from plain_answers import View

Way = tuple[int, ...]


class Unfolding:
    """The fields of a block with `@recurse` over a graph, and what was found of nodes before."""

    def __init__(self, view: View, block: Block) -> None:
        options = next(dict(directive.options or []) for directive in block.directives if directive.word == "recurse")
        self.view = view
        self.fields = block.fields
        self.depth = int(options["depth"])
        self.has_loops = options.get("loop") == "true"
        self.lists: dict[tuple[str, int], list[int]] = {}
        self.own_texts: dict[tuple[str, int], Optional[str]] = {}
        self.made: dict[tuple[int, int], str] = {}

    # ---- what is there at a node

    def is_edge(self, field: Field) -> bool:
        """Whether a field leads to nodes; each other one is of the node itself."""
        return isinstance(field.item, Followed) and sort_of(self.view, field.item.edge) in (NODES, ONE)

    def list_of(self, field: Field, node: int) -> list[int]:
        """The list of an edge at a node, also with the nodes of the way there: they count for the page."""
        key = (key_of(field), node)
        if key not in self.lists:
            item = field.item
            assert isinstance(item, Followed)
            self.lists[key] = listed(self.view, item.arguments or [], item.directives, along(self.view, item.edge, node))
        return self.lists[key]

    def own_of(self, field: Field, node: int) -> Optional[str]:
        """What a field shows of the node itself."""
        key = (key_of(field), node)
        if key not in self.own_texts:
            self.own_texts[key] = own_text(self.view, field.item, node)
        return self.own_texts[key]

    def shows_itself(self, node: int) -> bool:
        return any(self.own_of(field, node) is not None for field in self.fields if not self.is_edge(field))

    def next_from(self, field: Field, node: int, way: Way) -> list[int]:
        """The nodes that are shown next along an edge: without loops not those of the way."""
        return [child for child in self.list_of(field, node) if self.has_loops or child not in way]

    def leads_to_something(self, left: int, way: Way) -> bool:
        """Whether something is shown of the last node of a way: a shortest way on to a node that shows itself meets no node twice."""
        nodes, seen = {way[-1]}, set(way)
        for _ in range(left + 1):
            if any(self.shows_itself(node) for node in nodes):
                return True
            edges = [field for field in self.fields if self.is_edge(field)]
            nodes = {child for node in nodes for field in edges for child in self.list_of(field, node)} - seen
            seen |= nodes
        return False

    # ---- what is shown

    def text(self, left: int, way: Way) -> str:
        """What is shown of the last node of a way, from which so many more edges may be followed."""
        if not self.has_loops:
            return self.made_text(left, way) if self.leads_to_something(left, way) else ""
        key = (left, way[-1])
        if key not in self.made:
            self.made[key] = self.made_text(left, way)
        return self.made[key]

    def made_text(self, left: int, way: Way) -> str:
        return by_commas(self.field_texts(left, way))

    def field_texts(self, left: int, way: Way) -> Iterator[str]:
        """The fields that are shown of the last node of a way."""
        for field in self.fields:
            text = self.below(field, left, way) if self.is_edge(field) else self.own_of(field, way[-1])
            if text:
                yield f"{json_key(key_of(field))}:{text}"

    def below(self, field: Field, left: int, way: Way) -> str:
        """What is shown under an edge."""
        if left == 0:
            return ""
        trees = self.trees(left - 1, way, self.next_from(field, way[-1], way))
        assert isinstance(field.item, Followed)
        if sort_of(self.view, field.item.edge) == ONE:
            return next(trees, "")
        objects = by_commas(trees)
        return f"[{objects}]" if objects else ""

    def trees(self, left: int, way: Way, nodes: list[int]) -> Iterator[str]:
        """The objects of the nodes of which something is shown."""
        yield from (f"{{{text}}}" for node in nodes if (text := self.text(left, (*way, node))))

    def objects(self, nodes: list[int]) -> Iterator[str]:
        """The objects of the block's array."""
        yield from self.trees(self.depth - 1, (), nodes)
