"""Graphs, index tokens and the keys by which commits conflict, written plainly.

A graph is what a list of changes leads to. The keys of a list of changes are made from the changes as they were asked
for, one after the other from the graph at the start, by what their predicates' definitions say. Whether a character is
of a term, and how it folds, is asked of Python's `unicodedata`; characters that Unicode has had for less long than
this Python count as characters of no term.
"""

from __future__ import annotations

import unicodedata
from collections.abc import Iterable, Iterator
from typing import NamedTuple

from plain_values import BOOL, EPOCH, INT, NODE, TEXT, TIME, Moment, Posting, civil, days_before, json_text

# ---------------------------------------------------------------------------------------------------
# Tokens of values
# ---------------------------------------------------------------------------------------------------

# The kind of each tokenizer. Tokens are ordered by the place of their tokenizer here, and then by value.
TOKENIZERS = {
    **dict.fromkeys(("exact", "hash", "term", "trigram"), "string"),
    "int": "int",
    "bool": "bool",
    **dict.fromkeys(("year", "month", "day", "hour"), "dateTime"),
}
TOKENIZER_NAMES = list(TOKENIZERS)
# The categories of the characters of terms. Of the alphabetic characters only Latin letters in circles and squares,
# which are symbols, have another one.
OF_TERMS = {"Lu", "Ll", "Lt", "Lm", "Lo", "Mn", "Mc", "Nd", "Nl", "No"}
FRAMED_LETTERS = [range(0x24B6, 0x24EA), range(0x1F130, 0x1F14A), range(0x1F150, 0x1F16A), range(0x1F170, 0x1F18A)]
# Simple foldings that Unicode has had since version 15.1, of characters that are older.
LATER_FOLDINGS = {"\u1fd3": "\u0390", "\u1fe3": "\u03b0", "\ufb05": "\ufb06"}


class IndexToken(NamedTuple):
    """A token of a value: the place of its tokenizer, and what it says."""

    tokenizer: int
    value: Posting


def is_of_term(character: str) -> bool:
    code = ord(character)
    return unicodedata.category(character) in OF_TERMS or any(code in letters for letters in FRAMED_LETTERS)


def folded(character: str) -> str:
    """The one character that stands for all that differ from it by case alone."""
    if character in LATER_FOLDINGS:
        return LATER_FOLDINGS[character]
    # The full folding may be several characters; the simple one is then the small letter, where that is one.
    return next((one for one in (character.casefold(), character.lower()) if len(one) == 1), character)


def terms(text: str) -> Iterator[str]:
    """The longest runs of characters of terms, folded."""
    run = ""
    for character in text:
        if is_of_term(character):
            run += folded(character)
        elif run:
            yield run
            run = ""
    if run:
        yield run


def trigrams(text: str) -> Iterator[str]:
    """The runs of three characters."""
    for at in range(len(text) - 2):
        yield text[at : at + 3]


def truncated(moment: Moment, part: str) -> Moment:
    """The first moment of the year, month, day or hour in which a moment lies."""
    year, month, day, rest = civil(moment)
    if part == "year":
        month = 1
    if part in ("year", "month"):
        day = 1
    hours = rest // 3600 if part == "hour" else 0
    return Moment((days_before(year, month, day) - EPOCH) * 86400 + hours * 3600, 0)


def said_by(name: str, posting: Posting) -> Iterable[Posting]:
    """What the tokens of a value by a tokenizer of its kind say, in any order."""
    key = posting.key
    if name in ("term", "trigram"):
        assert isinstance(key, bytes)
        runs = (terms if name == "term" else trigrams)(key.decode())
        return (Posting(TEXT, run.encode()) for run in runs)
    if TOKENIZERS[name] == "dateTime":
        assert isinstance(key, Moment)
        return [Posting(TIME, truncated(key, name))]
    return [posting]


def tokens_of(names: Iterable[str], posting: Posting) -> set[IndexToken]:
    """The tokens of a value by tokenizers of its kind."""
    return {IndexToken(TOKENIZER_NAMES.index(name), said) for name in names for said in said_by(name, posting)}


# ---------------------------------------------------------------------------------------------------
# Graphs
# ---------------------------------------------------------------------------------------------------


class Definition(NamedTuple):
    """What is declared of a predicate."""

    kind: str
    is_list: bool
    tokenizers: tuple[str, ...] = ()
    has_reverse: bool = False
    has_count: bool = False
    has_upsert: bool = False

    @property
    def shape(self) -> tuple[str, bool]:
        """What can't change while there is data."""
        return self.kind, self.is_list


class Change(NamedTuple):
    """A triple that is set or deleted, under a definition of its predicate."""

    deletes: bool
    subject: int
    predicate: str
    object: Posting
    definition: Definition


Graph = dict[tuple[str, int], frozenset[Posting]]


def objects_of(graph: Graph, change: Change) -> frozenset[Posting]:
    """The objects that the subject of a change has."""
    return graph.get((change.predicate, change.subject), frozenset())


def removed_by(graph: Graph, change: Change) -> frozenset[Posting]:
    """What a change takes from its subject before it adds its object, if it adds one."""
    if change.deletes:
        return frozenset({change.object})
    return frozenset() if change.definition.is_list else objects_of(graph, change)


def apply(graph: Graph, changes: Iterable[Change]) -> None:
    """Makes the changes, one after the other."""
    for change in changes:
        left = objects_of(graph, change) - removed_by(graph, change)
        graph[change.predicate, change.subject] = left if change.deletes else left | {change.object}


# ---------------------------------------------------------------------------------------------------
# Conflict keys
# ---------------------------------------------------------------------------------------------------

DATA, INDEX, COUNT, RCOUNT = range(4)


class ConflictKey(NamedTuple):
    """What two commits must not both name. Keys are ordered by kind, predicate, the token where there is one, the node,
    and the object where there is one; no node and no object come before any."""

    kind: int
    predicate: str
    token: tuple[IndexToken, ...]
    node: tuple[int, ...]
    object: tuple[Posting, ...]

    def text(self) -> str:
        words = [("data", "index", "count", "rcount")[self.kind], self.predicate]
        for token in self.token:
            words += [TOKENIZER_NAMES[token.tokenizer], posting_text(token.value)]
        words += [hex(node) for node in self.node]
        words += [posting_text(posting) for posting in self.object]
        return " ".join(words)


def posting_text(posting: Posting) -> str:
    """A node, or a value, as a key shows it."""
    if posting.rank == NODE:
        assert isinstance(posting.key, int)
        return hex(posting.key)
    assert posting.rank in (INT, TEXT, BOOL, TIME)
    return json_text(posting)


def keys_of(graph: Graph, change: Change) -> Iterator[ConflictKey]:
    """The conflict keys of a change that is made to a graph."""
    name, subject, definition = change.predicate, change.subject, change.definition
    yield ConflictKey(DATA, name, (), (subject,), (change.object,) if definition.is_list else ())
    touched = removed_by(graph, change) | {change.object}
    for token in (token for posting in touched for token in tokens_of(definition.tokenizers, posting)):
        yield ConflictKey(INDEX, name, (token,), (subject,), ())
        if definition.has_upsert:
            yield ConflictKey(INDEX, name, (token,), (), ())
    if definition.has_count:
        yield ConflictKey(COUNT, name, (), (subject,), ())
    if definition.has_count and definition.has_reverse:
        for posting in touched:
            assert isinstance(posting.key, int)
            yield ConflictKey(RCOUNT, name, (), (posting.key,), ())


def conflict_keys(start: Graph, changes: Iterable[Change]) -> set[ConflictKey]:
    """The conflict keys of changes that are made, one after the other, from a graph on."""
    graph = dict(start)
    keys: set[ConflictKey] = set()
    for change in changes:
        keys.update(keys_of(graph, change))
        apply(graph, [change])
    return keys
