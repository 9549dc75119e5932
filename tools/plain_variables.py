"""What the variables of a query stand for, block by block, and what is made of their values.

A variable of an edge stands for the nodes of the edge's lists, from all nodes of the list above, also of those that a cascade drops.
"""

from __future__ import annotations

from collections.abc import Iterator
from typing import TYPE_CHECKING, NamedTuple, Optional

from plain_checks import run_order
from plain_levels import NODES, ONE, VALUES, along, json_key, key_of, least, listed, sort_of
from plain_queries import Aggregate, Block, Count, Field, Followed, Uid
from plain_tokens import Refusal
from plain_values import INT, Posting, json_text

if TYPE_CHECKING:
    from plain_answers import View

LEAST_NUMBER, GREATEST_NUMBER = -(2**63), 2**63 - 1


class Variable(NamedTuple):
    """Nodes, and the value of each where they have values."""

    nodes: frozenset[int]
    values: dict[int, Posting]


def of_nodes(nodes: list[int]) -> Variable:
    return Variable(frozenset(nodes), {})


def of_values(values: dict[int, Posting]) -> Variable:
    return Variable(frozenset(values), values)


# ---------------------------------------------------------------------------------------------------
# What they stand for
# ---------------------------------------------------------------------------------------------------


def below(view: View, item: Followed, nodes: list[int]) -> list[int]:
    """The nodes of the lists to which an edge leads from nodes; none where it leads to values, or nothing is declared."""
    if sort_of(view, item.edge) not in (NODES, ONE):
        return []
    lists = (listed(view, item.arguments or [], item.directives, along(view, item.edge, node)) for node in nodes)
    return sorted({node for found in lists for node in found})


def found_at(view: View, item: object, nodes: list[int]) -> Variable:
    """What the variable of an item stands for, over the nodes of a list."""
    if isinstance(item, Uid):
        return of_nodes(nodes)
    if isinstance(item, Count):
        return of_values({node: Posting(INT, view.ends(item.edge, node)) for node in nodes})
    assert isinstance(item, Followed)
    if sort_of(view, item.edge) == VALUES:
        values = {node: least(view, item.edge.predicate, node) for node in nodes}
        return of_values({node: value for node, value in values.items() if value is not None})
    return of_nodes(below(view, item, nodes))


def are_defining(fields: Optional[list[Field]]) -> bool:
    """Whether fields define a variable, to any depth."""
    return any(
        field.variable or isinstance(field.item, Followed) and are_defining(field.item.fields) for field in fields or []
    )


def run_fields(view: View, fields: list[Field], nodes: list[int]) -> None:
    """Finds the variables of fields over the nodes of a list."""
    for variable, _, item in fields:
        if variable:
            view.variables[variable] = found_at(view, item, nodes)
        if isinstance(item, Followed) and are_defining(item.fields):
            run_fields(view, item.fields or [], below(view, item, nodes))


def run_block(view: View, block: Block) -> None:
    """Finds the variables of a block."""
    if not block.variable and not are_defining(block.fields):
        return
    nodes = view.nodes_of(block)
    if block.variable:
        view.variables[block.variable] = of_nodes(nodes)
    run_fields(view, block.fields, nodes)


def find_variables(view: View, blocks: list[Block]) -> None:
    """Finds all variables of a query."""
    for at in run_order(blocks):
        run_block(view, blocks[at])


# ---------------------------------------------------------------------------------------------------
# Aggregates
# ---------------------------------------------------------------------------------------------------


def values_of(view: View, name: str) -> list[Posting]:
    return list(view.variables[name].values.values())


def sum_of(view: View, name: str) -> int:
    """The sum of a variable's numbers, however great."""
    return sum(posting.key for posting in values_of(view, name))  # type: ignore[misc]


def aggregated(view: View, item: Aggregate) -> Optional[str]:
    """The least or the greatest value of a variable, or the sum; nothing of no values."""
    values = values_of(view, item.name)
    if not values:
        return None
    if item.word == "sum":
        return str(sum_of(view, item.name))
    return json_text(min(values) if item.word == "min" else max(values))


def aggregate_objects(view: View, block: Block) -> Iterator[str]:
    """The objects of a block without a function: one for each aggregate of what has values."""
    for field in block.fields:
        assert isinstance(field.item, Aggregate)
        value = aggregated(view, field.item)
        if value is not None:
            yield f"{{{json_key(key_of(field))}:{value}}}"


def refuse_overflow(view: View, blocks: list[Block]) -> None:
    """Refuses the first sum of the text that is no number of 64 bits, also in a block that isn't shown."""
    for item in (field.item for block in blocks for field in block.fields):
        if isinstance(item, Aggregate) and item.word == "sum":
            if not LEAST_NUMBER <= sum_of(view, item.name) <= GREATEST_NUMBER:
                raise Refusal(16, "SumOverflow", item.name)
