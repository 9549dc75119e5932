"""What fields show of nodes, node by node: whole trees first, then what `@cascade` and `@normalize` leave of them, and last
what is shown.

A whole tree has each node of a list, also one of which nothing is shown. `View` of `plain_answers.py` looks at the graph. The tree
of a node under an edge of the query is made once, and so is what is found out of it, however many edges lead there. Nothing is made
that is longer than an answer may be.
"""

from __future__ import annotations

from collections.abc import Callable, Iterable, Iterator
from typing import TYPE_CHECKING, Any, Optional, TypeVar, Union

from plain_queries import Aggregate, Argument, Block, Count, CountUid, Directive, Edge, Field, Followed, Uid, Val
from plain_tokens import Refusal
from plain_values import NODE, Posting, json_text

if TYPE_CHECKING:
    from plain_answers import View

LONGEST_ANSWER = 16_777_216
NODES, ONE, VALUES = "nodes", "one", "values"
Found = TypeVar("Found")


class Tree:
    """A node with what stands under its keys: a text as it is shown, one node, or nodes; and what was found out of it."""

    def __init__(self, under: dict[str, Union[str, "Tree", list["Tree"]]]) -> None:
        self.under = under
        self.known: dict[str, Any] = {}


# Trees by the edge of a query under which they stand (its identity), and by their nodes.
Made = dict[tuple[int, int], Tree]


def once(find: Callable[[list[Field], Tree], Found]) -> Callable[[list[Field], Tree], Found]:
    """What is found out of a tree, kept with it: a tree always stands under the same fields."""

    def found(fields: list[Field], tree: Tree) -> Found:
        if find.__name__ not in tree.known:
            tree.known[find.__name__] = find(fields, tree)
        return tree.known[find.__name__]

    return found


# ---------------------------------------------------------------------------------------------------
# Lists of nodes
# ---------------------------------------------------------------------------------------------------


def sort_of(view: View, edge: Edge) -> Optional[str]:
    """What an edge leads to: nodes, one node, or values; None where its predicate isn't declared."""
    definition = view.schema.get(edge.predicate)
    if definition is None:
        return None
    if definition.kind != "uid":
        return VALUES
    return NODES if edge.back or definition.is_list else ONE


def along(view: View, edge: Edge, node: int) -> list[int]:
    """The nodes at the other end of an edge, ascending."""
    if edge.back:
        return sorted({subject for subject, posting in view.triples(edge.predicate) if posting == Posting(NODE, node)})
    return sorted(posting.key for posting in view.objects(edge.predicate, node) if posting.rank == NODE)  # type: ignore[misc]


def least(view: View, name: str, node: int) -> Optional[Posting]:
    """The least value of a node."""
    return min((posting for posting in view.objects(name, node) if posting.rank != NODE), default=None)


def ranked_by(view: View, key: Union[int, str, Val], node: int) -> Optional[Posting]:
    """The value by which a node is ordered: its least of a predicate, or that of a variable."""
    if isinstance(key, Val):
        return view.variables[key.name].values.get(node)
    assert isinstance(key, str)
    return least(view, key, node)


def ordered(view: View, arguments: Iterable[Argument], nodes: list[int]) -> list[int]:
    """Nodes in the order that arguments ask for; those without a value come last, and the number decides at the end."""
    nodes = sorted(nodes)
    keys = [argument for argument in arguments if argument.word.startswith("order")]
    for key in reversed(keys):
        values = {node: ranked_by(view, key.value, node) for node in nodes}
        there = [node for node in nodes if values[node] is not None]
        there.sort(key=lambda node: values[node], reverse=key.word == "orderdesc")  # type: ignore[arg-type, return-value]
        nodes = there + [node for node in nodes if values[node] is None]
    return nodes


def paged(arguments: Iterable[Argument], nodes: list[int]) -> list[int]:
    """The page of a list that arguments ask for."""
    said = {argument.word: argument.value for argument in reversed(list(arguments))}
    if "after" in said:
        nodes = [node for node in nodes if node > said["after"]]  # type: ignore[operator]
    nodes = nodes[max(said.get("offset", 0), 0) :]  # type: ignore[call-overload, misc]
    if "first" in said:
        first = said["first"]
        nodes = nodes[:first] if first >= 0 else nodes[first:]  # type: ignore[misc, operator]
    return nodes


def listed(view: View, arguments: Iterable[Argument], directives: Iterable[Directive], nodes: list[int]) -> list[int]:
    """A list of nodes: those that pass the filters, in order, and of them the page."""
    filters = [directive.filter for directive in directives if directive.filter is not None]
    passed = [node for node in nodes if all(view.passes(part, node) for part in filters)]
    return paged(arguments, ordered(view, arguments, passed))


# ---------------------------------------------------------------------------------------------------
# Whole trees
# ---------------------------------------------------------------------------------------------------


def key_of(field: Field) -> str:
    """The key under which a field is shown."""
    item = field.item
    if field.alias:
        return field.alias
    if isinstance(item, Uid):
        return "uid"
    if isinstance(item, CountUid):
        return "count"
    if isinstance(item, Val):
        return f"val({item.name})"
    if isinstance(item, Aggregate):
        return f"{item.word}(val({item.name}))"
    assert isinstance(item, (Count, Followed))
    edge = ("~" if item.edge.back else "") + item.edge.predicate
    return f"count({edge})" if isinstance(item, Count) else edge


def asks(directives: Iterable[Directive], word: str) -> bool:
    return any(directive.word == word for directive in directives)


def counts_in(fields: Optional[list[Field]]) -> list[str]:
    """The keys under which the number of nodes of a list is asked."""
    return [key_of(field) for field in fields or [] if isinstance(field.item, CountUid)]


def own_text(view: View, item: object, node: int) -> Optional[str]:
    """What an item shows of a node itself, where it doesn't lead to nodes."""
    if isinstance(item, Uid):
        return f'"{hex(node)}"'
    if isinstance(item, Count):
        return str(view.ends(item.edge, node))
    if isinstance(item, Val):
        value = view.variables[item.name].values.get(node)
        return None if value is None else json_text(value)
    if isinstance(item, Followed) and sort_of(view, item.edge) == VALUES:
        return view.shown(item.edge.predicate, node)
    return None


def under_edge(view: View, item: Followed, node: int, made: Made) -> Union[Tree, list[Tree], None]:
    """What stands under an edge of a node that leads to nodes."""
    sort = sort_of(view, item.edge)
    nodes = listed(view, item.arguments or [], item.directives, along(view, item.edge, node))
    for child in nodes:
        if (id(item), child) not in made:
            made[id(item), child] = whole(view, item.fields or [], child, made)
    trees = [made[id(item), child] for child in nodes]
    if asks(item.directives, "cascade"):
        trees = remaining(item.fields or [], trees)
    if sort == ONE and not counts_in(item.fields):
        return trees[0] if trees else None
    return trees


def whole(view: View, fields: list[Field], node: int, made: Made) -> Tree:
    """The whole tree of a node, by the trees below it that were made before."""
    under: dict[str, Union[str, Tree, list[Tree]]] = {}
    for field in fields:
        item = field.item
        found: Union[str, Tree, list[Tree], None]
        if isinstance(item, Followed) and sort_of(view, item.edge) in (NODES, ONE):
            found = under_edge(view, item, node, made)
        else:
            found = own_text(view, item, node)
        if found is not None:
            under[key_of(field)] = found
    return Tree(under)


# ---------------------------------------------------------------------------------------------------
# What is left of them, and what is shown
# ---------------------------------------------------------------------------------------------------


def remaining(fields: list[Field], trees: Iterable[Tree]) -> list[Tree]:
    """What a cascade leaves of nodes."""
    return [tree for tree in (cascaded(fields, tree) for tree in trees) if tree is not None]


@once
def cascaded(fields: list[Field], tree: Tree) -> Optional[Tree]:
    """A node without the nodes below it that lack something; None where it lacks something itself."""
    under: dict[str, Union[str, Tree, list[Tree]]] = {}
    for field in fields:
        if isinstance(field.item, CountUid):
            continue
        found: Union[str, Tree, list[Tree], None] = tree.under.get(key_of(field))
        if isinstance(field.item, Followed) and found is not None and not isinstance(found, str):
            inner = field.item.fields or []
            left = remaining(inner, [found] if isinstance(found, Tree) else found)
            found = (left[0] if isinstance(found, Tree) else left) if left else None
        if found is None:
            return None
        under[key_of(field)] = found
    return Tree(under)


@once
def shown(fields: list[Field], tree: Tree) -> list[str]:
    """The texts of the fields of a node that are shown."""
    texts = []
    for field in fields:
        found = tree.under.get(key_of(field))
        if isinstance(field.item, CountUid) or found is None:
            continue
        if isinstance(field.item, Followed) and not isinstance(found, str):
            inner = field.item.fields or []
            if isinstance(found, Tree):
                below = by_commas(shown(inner, found))
                found = f"{{{below}}}" if below else ""
            else:
                objects = by_commas(array(inner, found))
                found = f"[{objects}]" if objects else ""
        if found:
            texts.append(f"{json_key(key_of(field))}:{found}")
    return texts


def json_key(key: str) -> str:
    return f'"{key}"'


def by_commas(texts: Iterable[str]) -> str:
    """Texts that all stand in the answer, with commas between them; refused as soon as no answer is so long."""
    taken: list[str] = []
    length = 0
    for text in texts:
        taken.append(text)
        length += len(text)
        if length > LONGEST_ANSWER:
            raise Refusal(17, "AnswerTooLarge")
    return ",".join(taken)


def array(fields: list[Field], trees: list[Tree]) -> Iterator[str]:
    """The objects of a list: the number of its nodes under each key that asks it, then the nodes that show something."""
    yield from (f"{{{json_key(key)}:{len(trees)}}}" for key in counts_in(fields))
    yield from (f"{{{by_commas(texts)}}}" for tree in trees if (texts := shown(fields, tree)))


Pairs = dict[str, str]
# The least bytes that a pair has in an answer.
SHORTEST = len('"k":0,')


def refuse_more(pairs: int) -> None:
    """Refuses more pairs than an answer has. Each object stands in one of the block at least, with its keys and maybe other values."""
    if pairs * SHORTEST > LONGEST_ANSWER:
        raise Refusal(17, "AnswerTooLarge")


def pairs_in(objects: list[Pairs]) -> int:
    return sum(map(len, objects))


def product(objects: list[Pairs], others: list[Pairs]) -> list[Pairs]:
    """Each object followed by each of the others; the objects alone where there are no others."""
    if not others:
        return objects
    refuse_more(max(len(others) * pairs_in(objects), len(objects) * pairs_in(others)))
    return [joined(one, other) for one in objects for other in others]


def joined(one: Pairs, more: Pairs) -> Pairs:
    """An object with the pairs of another of which it doesn't have the key."""
    return {**one, **{key: text for key, text in more.items() if key not in one}} if one else more


def flats(fields: list[Field], trees: list[Tree]) -> list[Pairs]:
    """The flat objects of nodes, in order."""
    objects: list[Pairs] = []
    pairs = 0
    for tree in trees:
        pairs += pairs_in(flat(fields, tree))
        refuse_more(pairs)
        objects += flat(fields, tree)
    return objects


@once
def flat(fields: list[Field], tree: Tree) -> list[Pairs]:
    """The flat objects of a node, of the fields with an alias."""
    objects: list[Pairs] = [{}]
    for field in fields:
        found = tree.under.get(key_of(field))
        if isinstance(field.item, CountUid) or found is None:
            continue
        if isinstance(found, str):
            pairs = {field.alias: found} if field.alias else {}
            objects = [joined(one, pairs) for one in objects]
            continue
        assert isinstance(field.item, Followed)
        children = [found] if isinstance(found, Tree) else found
        objects = product(objects, flats(field.item.fields or [], children))
    return [one for one in objects if one]


def block_objects(view: View, block: Block) -> Iterator[str]:
    """The objects of a block's array."""
    made: Made = {}
    trees = [whole(view, block.fields, node, made) for node in view.nodes_of(block)]
    if asks(block.directives, "cascade"):
        trees = remaining(block.fields, trees)
    if asks(block.directives, "normalize"):
        for pairs in flats(block.fields, trees):
            yield f"{{{','.join(f'{json_key(key)}:{text}' for key, text in pairs.items())}}}"
    else:
        yield from array(block.fields, trees)
