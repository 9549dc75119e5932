#!/usr/bin/env python3
"""The answers that the rows of the section `queries` of crates/table_checks want, by the grammar and not by the program.

    rows_queries.py <crates/table_checks/stdin

They stand in its stdout behind those of checks. Tokens are read by plain_tokens.py, queries, their depth and the cases beside
the grammar by plain_queries.py, upsert blocks by plain_upserts.py, and their statements by plain_mutations.py. What is read of
a query or an upsert block is its printed form: its words, with a blank behind each. No line of it was taken from the crates or
from what they print. It needs Python 3.9 or later.
"""

from __future__ import annotations

import sys
from collections.abc import Callable, Iterator
from typing import Any, Optional, Union

from plain_mutations import Literal, Node, NodesOf, Object, Statement, ValueOf
from plain_queries import (
    Aggregate,
    Argument,
    Block,
    Count,
    CountUid,
    Directive,
    Edge,
    Fault,
    Field,
    Followed,
    Function,
    Part,
    Uid,
    Val,
    read_query,
)
from plain_upserts import Length, Mutation, Upsert, read_upsert
from rows_printed import in_section
from rows_text import TYPES, of_field, shown

MOST = 1_048_576
ESCAPES = {'"': '\\"', "\\": "\\\\", "\n": "\\n", "\r": "\\r"}


# ---------------------------------------------------------------------------------------------------
# What was read, printed
# ---------------------------------------------------------------------------------------------------


def words(*each: str) -> str:
    """Words, with a blank behind each."""
    return "".join(f"{word} " for word in each)


def by_commas(each: list[str]) -> str:
    """Printed parts, with commas between."""
    return words(",").join(each)


def quoted(text: str) -> str:
    return words('"' + "".join(ESCAPES.get(c, c) for c in text) + '"')


def in_round(inner: str) -> str:
    return words("(") + inner + words(")")


def in_curly(inner: str) -> str:
    return words("{") + inner + words("}")


def filter_words(part: Part, around: str, atom: Callable[[Any], str]) -> str:
    """A filter or a condition in brackets, in an `or` or in an `and`, with no more brackets than it needs."""
    nots = words("not") * part.nots
    if not part.joint:
        return nots + atom(part.atom)
    inner = words(part.joint).join(filter_words(below, part.joint, atom) for below in part.parts)
    needs_none = ("(",) if part.joint == "or" else ("(", "or")
    return inner if around in needs_none and not part.nots else nots + in_round(inner)


def edge_words(edge: Edge) -> str:
    return words(*(["~"] if edge.back else []), edge.predicate)


def val_words(name: str) -> str:
    return words("val") + in_round(words(name))


def of_words(of: Union[str, Edge, Count, Val]) -> str:
    """What a function is asked of, or an order."""
    if isinstance(of, Edge):
        return edge_words(of)
    if isinstance(of, Count):
        return words("count") + in_round(edge_words(of.edge))
    return val_words(of.name) if isinstance(of, Val) else words(of)


def function_words(function: Function) -> str:
    word, of, values, folds = function
    if word in ("uid", "uid_in"):
        said = [words(hex(node) if isinstance(node, int) else node) for node in values]
    elif word == "regexp":
        said = [words("/" + values[0].replace("/", "\\/") + ("/i" if folds else "/"))]
    else:
        said = [quoted(text) for text in values]
    return words(word) + in_round(by_commas(([] if of is None else [of_words(of)]) + said))


def argument_words(argument: Argument) -> str:
    word, value = argument
    if isinstance(value, int):
        return words(word, ":", hex(value) if word == "after" else str(value))
    return words(word, ":") + of_words(value)


def directive_words(directive: Directive) -> str:
    said = words("@" + directive.word)
    if directive.filter is not None:
        said += in_round(filter_words(directive.filter, "(", function_words))
    if directive.options is not None:
        said += in_round(by_commas([words(word, ":", str(value)) for word, value in directive.options]))
    return said


def item_words(item: Any) -> str:
    if isinstance(item, Uid):
        return words("uid")
    if isinstance(item, CountUid):
        return words("count") + in_round(words("uid"))
    if isinstance(item, Aggregate):
        return words(item.word) + in_round(val_words(item.name))
    if not isinstance(item, Followed):
        return of_words(item)
    said = edge_words(item.edge)
    if item.arguments:
        said += in_round(by_commas([argument_words(argument) for argument in item.arguments]))
    said += "".join(directive_words(directive) for directive in item.directives)
    return said if item.fields is None else said + fields_words(item.fields)


def named_words(name: str, mark: str) -> str:
    """A name before a mark, where there is one."""
    return words(name, mark) if name else ""


def fields_words(fields: list[Field]) -> str:
    each = (named_words(f.variable, "as") + named_words(f.alias, ":") + item_words(f.item) for f in fields)
    return in_curly("".join(one + words(",") for one in each))


def block_words(block: Block) -> str:
    head = ""
    if block.function is not None:
        arguments = [argument_words(argument) for argument in block.arguments]
        head = words("func", ":") + by_commas([function_words(block.function), *arguments])
    directives = "".join(directive_words(directive) for directive in block.directives)
    front = named_words(block.variable, "as") + words(block.name)
    return front + in_round(head) + directives + fields_words(block.fields)


def blocks_words(blocks: list[Block]) -> str:
    return in_curly("".join(block_words(block) for block in blocks))


# ---------------------------------------------------------------------------------------------------
# Upsert blocks
# ---------------------------------------------------------------------------------------------------


def length_words(length: Length) -> str:
    return words(length.word) + in_round(words("len") + in_round(words(length.name)) + words(",", str(length.number)))


def node_words(node: Union[Node, NodesOf]) -> str:
    if isinstance(node, NodesOf):
        return words("uid") + in_round(words(node.name))
    return words(f"_:{node.name}" if node.name else f"<{hex(node.uid)}>")


def object_words(said: Object) -> str:
    if said is None:
        return words("*")
    if isinstance(said, ValueOf):
        return val_words(said.name)
    if isinstance(said, Literal):
        return quoted(said.text) + (words("^^", f"<xs:{TYPES[said.kind]}>") if said.kind else "")
    return node_words(said)


def statement_words(statement: Statement) -> str:
    """A statement in a group of its own."""
    deletes, subject, predicate, said = statement
    inner = node_words(subject) + words(f"<{predicate}>") + object_words(said) + words(".")
    return words("delete" if deletes else "set") + in_curly(inner)


def mutation_words(mutation: Mutation) -> str:
    said = words("mutation")
    if mutation.condition is not None:
        said += words("@if") + in_round(filter_words(mutation.condition, "(", length_words))
    return said + in_curly("".join(statement_words(statement) for statement in mutation.statements))


def upsert_words(upsert: Upsert) -> str:
    mutations = "".join(mutation_words(mutation) for mutation in upsert.mutations)
    return words("upsert") + in_curly(words("query") + blocks_words(upsert.blocks) + mutations)


def read(text: str, upsert: bool) -> str:
    """What a text says; a fault at the first token that a case or the grammar refuses."""
    return upsert_words(read_upsert(text)) if upsert else blocks_words(read_query(text))


# ---------------------------------------------------------------------------------------------------
# Rows
# ---------------------------------------------------------------------------------------------------


SENTENCES = {
    "T": "no token starts at byte ",
    "D": "too many brackets are open at byte ",
    "S": "no query by byte ",
}


def row_text(text: str, upsert: bool) -> str:
    try:
        return shown(read(text, upsert))
    except Fault as fault:
        return f"{SENTENCES[fault.letter]}{fault.offset}"


def short(text: bytes) -> str:
    try:
        read(text.decode(), False)
    except UnicodeDecodeError:
        return "-"
    except Fault as fault:
        return f"{fault.letter}{fault.offset}"
    return "read"


def row_cut(text: str) -> str:
    body = text.encode()
    return " ".join([*(short(body[:end]) for end in range(1, len(body))), "end"])


def row_changed(text: str) -> str:
    """What is said of a text of ASCII with each byte from 1 to 127 at each place in turn."""
    body = text.encode()
    said = (short(body[:at] + bytes([byte]) + body[at + 1 :]) for at in range(len(body)) for byte in range(1, 128))
    counts = {"r": 0, "T": 0, "D": 0, "S": 0}
    texts = total = 0
    for word in said:
        texts += 1
        counts[word[0]] += 1
        if word != "read":
            total = (total + texts * int(word[1:])) % 1_000_000_007
    return f"{texts} texts, {counts['r']} read, T{counts['T']} D{counts['D']} S{counts['S']}, sum {total}"


def row_repeat(fields: str) -> Optional[str]:
    front, piece, count, back = fields.split("\t")
    text = (of_field(front) + of_field(piece) * int(count) + of_field(back)).encode()
    if len(text) > MOST:
        return None
    try:
        printed = read(text.decode(), False)
    except Fault as fault:
        return f"{fault.letter}{fault.offset} of {len(text)}"
    return f"read of {len(text)}, printed in {len(printed.encode())}"


def answer(table: str, fields: str) -> Optional[str]:
    if table == "repeat":
        return row_repeat(fields)
    text = of_field(fields)
    tables = {
        "query": lambda: row_text(text, False),
        "upsert": lambda: row_text(text, True),
        "cut": lambda: row_cut(text),
        "changed": lambda: row_changed(text),
    }
    return tables[table]() if table in tables else None


def answers(rows: Iterator[str]) -> Iterator[str]:
    """The line that is wanted for each row; empty lines and comments have none."""
    for row in rows:
        if row and not row.startswith("#"):
            table, _, fields = row.partition("\t")
            said = answer(table, fields)
            yield f"? {row}" if said is None else f"{row} => {said}"


def main() -> None:
    sys.setrecursionlimit(10_000)
    text = sys.stdin.buffer.read().decode()
    for line in answers(in_section(text.split("\n"), "queries", "checks")):
        sys.stdout.buffer.write(f"{line}\n".encode())


if __name__ == "__main__":
    main()
