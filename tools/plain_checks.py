"""What is wrong with a query: each check looks at all places of the text, in their order, before the next one does.

A place is what a check looks at. `check` refuses the first fault; `run_order` tells in which order the blocks of a query
that has no fault are run.
"""

from __future__ import annotations

from collections.abc import Iterable, Iterator
from typing import NamedTuple, Optional, Union

from plain_graph import Definition
from plain_patterns import BadPattern, pattern_of
from plain_queries import (
    COMPARISONS,
    TERMS,
    Aggregate,
    Argument,
    Block,
    Count,
    Directive,
    Edge,
    Field,
    Followed,
    Function,
    Part,
    Val,
)
from plain_tokens import Refusal
from plain_values import read_posting

Schema = dict[str, Definition]
Options = list[tuple[str, Union[int, str]]]
# The indexes that serve each function at a root.
SORTABLE = {"exact", "int", "year", "month", "day", "hour"}
SERVING = {
    **dict.fromkeys((*COMPARISONS, "between"), SORTABLE),
    "eq": SORTABLE | {"hash", "term", "bool"},
    **dict.fromkeys(TERMS, {"term"}),
    "regexp": {"trigram"},
}
DEEPEST = 32


# ---------------------------------------------------------------------------------------------------
# Places
# ---------------------------------------------------------------------------------------------------


class Defined(NamedTuple):
    """A variable that is defined: by an item, or by a block."""

    name: str
    item: object = None


class Asked(NamedTuple):
    """A place of a query that is checked: a variable that is defined, a function, at a root or not, the arguments of a list,
    the options of a recursion, an edge, or a variable whose value or values are shown."""

    function: Optional[Function] = None
    root: bool = False
    edge: Optional[Edge] = None
    arguments: Optional[list[Argument]] = None
    defined: Optional[Defined] = None
    options: Optional[Options] = None
    shown: Union[Val, Aggregate, None] = None


def functions_in(part: Part) -> Iterator[Function]:
    """The functions of a filter, in the order of the text."""
    if not part.joint:
        yield part.atom
    for below in part.parts:
        yield from functions_in(below)


def places_of_list(arguments: Optional[list[Argument]], directives: list[Directive]) -> Iterator[Asked]:
    """The places of the arguments and the directives of a list."""
    yield Asked(arguments=arguments or [])
    for directive in directives:
        if directive.filter is not None:
            yield from (Asked(function) for function in functions_in(directive.filter))
        if directive.word == "recurse":
            yield Asked(options=directive.options or [])


def places_of_fields(fields: Optional[list[Field]]) -> Iterator[Asked]:
    """The places of fields."""
    for variable, _, item in fields or []:
        if variable:
            yield Asked(defined=Defined(variable, item))
        if isinstance(item, (Val, Aggregate)):
            yield Asked(shown=item)
        if isinstance(item, (Count, Followed)):
            yield Asked(edge=item.edge)
        if isinstance(item, Followed):
            yield from places_of_list(item.arguments, item.directives)
            yield from places_of_fields(item.fields)


def places_of(block: Block) -> Iterator[Asked]:
    """The places of a block."""
    if block.variable:
        yield Asked(defined=Defined(block.variable))
    if block.function is not None:
        yield Asked(block.function, True)
    yield from places_of_list(block.arguments, block.directives)
    yield from places_of_fields(block.fields)


# ---------------------------------------------------------------------------------------------------
# Variables
# ---------------------------------------------------------------------------------------------------


class Use(NamedTuple):
    """A variable that is used, and whether values are needed; nodes have all variables."""

    name: str
    of_values: bool


class Sort(NamedTuple):
    """What a variable has: whether it has values, and the kind of these, if they are of one."""

    has_values: bool
    kind: Optional[str]


def uses_at(place: Asked) -> Iterator[Use]:
    """The variables that are used at a place."""
    if place.function is not None:
        if isinstance(place.function.of, Val):
            yield Use(place.function.of.name, True)
        if place.function.word in ("uid", "uid_in"):
            yield from (Use(name, False) for name in place.function.values if isinstance(name, str))
    for argument in place.arguments or []:
        if isinstance(argument.value, Val):
            yield Use(argument.value.name, True)
    if place.shown is not None:
        yield Use(place.shown.name, True)


def sort_of(schema: Schema, item: object) -> Sort:
    """What a variable has that is defined by an item, or by a block."""
    if isinstance(item, Count):
        return Sort(True, "int")
    if not isinstance(item, Followed):
        return Sort(False, None)
    definition = schema.get(item.edge.predicate)
    if definition is None:
        return Sort(True, None)
    if item.edge.back or definition.kind == "uid":
        return Sort(False, None)
    return Sort(True, definition.kind)


def defined_in(places: Iterable[Asked]) -> list[Defined]:
    return [place.defined for place in places if place.defined is not None]


def kinds_of(schema: Schema, places: Iterable[Asked]) -> dict[str, Optional[str]]:
    """The kind of the values of each variable."""
    return {name: sort_of(schema, item).kind for name, item in reversed(defined_in(places))}


def unknown_variable(schema: Schema, places: list[Asked], behind: Iterable[Use]) -> Optional[Refusal]:
    """The refusal of the first variable that nothing of the sort needed defines, in a query or behind it."""
    defined = {(name, needs) for name, item in defined_in(places) for needs in (False, sort_of(schema, item).has_values)}
    uses = (use for place in places for use in uses_at(place))
    return next((Refusal(6, "UnknownVariable", use.name) for use in (*uses, *behind) if use not in defined), None)


def variable_twice(places: list[Asked]) -> Optional[Refusal]:
    """The refusal of the first variable that is defined a second time."""
    seen: set[str] = set()
    for name, _ in defined_in(places):
        if name in seen:
            return Refusal(7, "VariableTwice", name)
        seen.add(name)
    return None


def used_in(block: Block) -> set[str]:
    return {use.name for place in places_of(block) for use in uses_at(place)}


def names_in(block: Block) -> list[str]:
    """The variables that a block defines."""
    return [defined.name for defined in defined_in(places_of(block))]


def needed_by(uses: list[set[str]], definer: dict[str, int], block: int) -> set[str]:
    """The variables that are used in a block or in one on which it depends, however far."""
    reached, waiting = {block}, [block]
    while waiting:
        needed = {definer[name] for name in uses[waiting.pop()]} - reached
        reached |= needed
        waiting += needed
    return set().union(*(uses[at] for at in reached))


def variable_cycle(blocks: list[Block]) -> Optional[Refusal]:
    """The refusal of the least variable that is used in a block on which the one depends that defines it."""
    uses = [used_in(block) for block in blocks]
    definer = {name: at for at, block in enumerate(blocks) for name in names_in(block)}
    defining = set(definer.values())
    needed = {at: needed_by(uses, definer, at) for at in defining}
    circular = [name for name, at in definer.items() if name in needed[at]]
    return Refusal(8, "VariableCycle", min(circular)) if circular else None


def run_order(blocks: list[Block]) -> list[int]:
    """The places of blocks in the order in which they are run: again and again the first of the text whose variables are known."""
    order: list[int] = []
    known: set[str] = set()
    while len(order) < len(blocks):
        at = next(at for at, block in enumerate(blocks) if at not in order and used_in(block) <= known)
        order.append(at)
        known.update(names_in(blocks[at]))
    return order


# ---------------------------------------------------------------------------------------------------
# What predicates and literals are asked
# ---------------------------------------------------------------------------------------------------


def not_indexed(schema: Schema, function: Function, root: bool) -> Optional[Refusal]:
    """The refusal of a function that needs what its predicate wasn't declared with."""
    of = function.of
    edge = of.edge if isinstance(of, Count) else of
    name = edge.predicate if isinstance(edge, Edge) else edge
    definition = schema.get(name) if isinstance(name, str) else None
    if definition is None:
        return None
    if isinstance(edge, Edge):
        if root and isinstance(of, Count) and not definition.has_count:
            return Refusal(9, "NotIndexed", name, "count")
        return Refusal(9, "NotIndexed", name, "~") if edge.back and not definition.has_reverse else None
    if root and not SERVING[function.word].intersection(definition.tokenizers):
        return Refusal(9, "NotIndexed", name, function.word)
    return None


def back_not_indexed(schema: Schema, edge: Edge) -> Optional[Refusal]:
    """The refusal of an edge that is followed backwards and wasn't declared for it."""
    definition = schema.get(edge.predicate)
    if edge.back and definition is not None and not definition.has_reverse:
        return Refusal(9, "NotIndexed", edge.predicate, "~")
    return None


def index_fault(schema: Schema, place: Asked) -> Optional[Refusal]:
    if place.edge is not None:
        return back_not_indexed(schema, place.edge)
    return None if place.function is None else not_indexed(schema, place.function, place.root)


def kind_asked(schema: Schema, kinds: dict[str, Optional[str]], function: Function) -> Optional[str]:
    """The kind as which the literals of a comparison are read, if there is one."""
    if isinstance(function.of, Count):
        return "int"
    if isinstance(function.of, Val):
        return kinds[function.of.name]
    return schema[function.of].kind if function.of in schema else None  # type: ignore[index]


def name_asked(function: Function) -> str:
    """The predicate or the variable of which a function is asked."""
    of = function.of
    if isinstance(of, Count):
        return of.edge.predicate
    return of.name if isinstance(of, Val) else of  # type: ignore[return-value]


def bad_literal(schema: Schema, kinds: dict[str, Optional[str]], function: Function) -> Optional[Refusal]:
    """The refusal of a literal that doesn't read, or of a pattern."""
    if function.word == "regexp":
        try:
            pattern_of(function.values[0], function.folds)
        except BadPattern:
            return Refusal(10, "BadLiteral", function.of)
        return None
    if function.word not in COMPARISONS and function.word != "between":
        return None
    kind = kind_asked(schema, kinds, function)
    if kind is None or all(read_posting(kind, text) is not None for text in function.values):
        return None
    return Refusal(10, "BadLiteral", name_asked(function))


def literal_fault(schema: Schema, kinds: dict[str, Optional[str]], place: Asked) -> Optional[Refusal]:
    """The refusal of a literal, of a pattern, or of a sum of what are no numbers."""
    if place.function is not None:
        return bad_literal(schema, kinds, place.function)
    shown = place.shown
    if isinstance(shown, Aggregate) and shown.word == "sum" and kinds[shown.name] != "int":
        return Refusal(10, "BadLiteral", shown.name)
    return None


# ---------------------------------------------------------------------------------------------------
# Arguments and depths
# ---------------------------------------------------------------------------------------------------


def bad_page(arguments: list[Argument]) -> Optional[Refusal]:
    """The refusal of the first argument that can't stand where it does."""
    has_order = any(argument.word.startswith("order") for argument in arguments)
    seen: set[str] = set()
    for word, value in arguments:
        twice = word in seen and not word.startswith("order")
        seen.add(word)
        below = word == "offset" and value < 0 or word == "first" and has_order and value < 0  # type: ignore[operator]
        if twice or below or word == "after" and has_order:
            return Refusal(11, "BadPage", word)
    return None


def bad_depth(options: Options) -> Optional[Refusal]:
    """The refusal of a depth that is too small or too great, or missing."""
    depth = dict(options).get("depth", 0)
    return None if depth in range(1, DEEPEST + 1) else Refusal(12, "BadDepth", depth)


# ---------------------------------------------------------------------------------------------------
# All of them
# ---------------------------------------------------------------------------------------------------


def faults(schema: Schema, blocks: list[Block], behind: Iterable[Use]) -> Iterator[Optional[Refusal]]:
    """What each check finds at each place, in the order of the checks and of the text; a check needs what those before it found
    to be sound."""
    places = [place for block in blocks for place in places_of(block)]
    yield unknown_variable(schema, places, behind)
    yield variable_twice(places)
    yield variable_cycle(blocks)
    kinds = kinds_of(schema, places)
    yield from (index_fault(schema, place) for place in places)
    yield from (literal_fault(schema, kinds, place) for place in places)
    yield from (bad_page(place.arguments) for place in places if place.arguments is not None)
    yield from (bad_depth(place.options) for place in places if place.options is not None)


def check(schema: Schema, blocks: list[Block], behind: Iterable[Use] = ()) -> None:
    """Refuses the first fault of the text, of which the mutations of an upsert block use variables behind the query."""
    refusal = next((fault for fault in faults(schema, blocks, behind) if fault is not None), None)
    if refusal is not None:
        raise refusal
