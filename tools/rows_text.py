#!/usr/bin/env python3
"""The answers that the rows of crates/table_text want, by the grammars and not by the program.

    rows_text.py <crates/table_text/stdin >crates/table_text/stdout

Tokens, schemas and mutations are read by plain_machine.py, which was written from the meaning of the
languages; definitions, joined schemas, answer trees and the texts of faults are written plainly here.
No line of it was taken from the crates or from what they print. It needs Python 3.9 or later.
"""

from __future__ import annotations

import itertools
import json
import re
import sys
from collections.abc import Callable, Iterator
from typing import NamedTuple, Optional, Union

import plain_machine as plain
import plain_mutations
import plain_tokens

LONGEST_ANSWER = 16_777_216

# The most bytes of a text that is read.
LONGEST_TEXT = 1_048_576
TYPES = {"int": "int", "string": "string", "bool": "boolean", "dateTime": "dateTime"}
ESCAPES = str.maketrans({'"': '\\"', "\\": "\\\\", "\n": "\\n", "\r": "\\r"})
KINDS = {"default": "Default", "int": "Int", "string": "Text", "bool": "Bool", "dateTime": "Time", "uid": "Uid"}


class Unreadable(Exception):
    """A row that names no table or call, or hasn't the fields that it wants."""


# ---------------------------------------------------------------------------------------------------
# Pictures
# ---------------------------------------------------------------------------------------------------


PICTURES = {**{code: chr(0x2400 + code) for code in range(32)}, 127: "␡"}
PLAIN = {**{ord(picture): chr(code) for code, picture in PICTURES.items()}, ord("␠"): " "}


def of_field(field: str) -> str:
    """The text that stands in a field, with pictures for its control characters and blanks."""
    return field.translate(PLAIN)


def shown(text: str) -> str:
    return text.translate(PICTURES)


def listed(parts: list[str], between: str = ", ") -> str:
    return between.join(parts) or "none"


# ---------------------------------------------------------------------------------------------------
# Tokens
# ---------------------------------------------------------------------------------------------------


class Spelled(NamedTuple):
    """A token with its characters; of an Iri those between its brackets."""

    kind: str
    start: int
    end: int
    text: str


def place(text: str, at: int) -> int:
    """The byte at which a character stands."""
    return len(text[:at].encode())


def end_of(text: str, token: plain.Token) -> int:
    """Where the characters of a token of the text end."""
    at = len(text.encode()[: token.offset].decode())
    form = dict(plain_tokens.FORMS).get(token.kind)
    found = form.match(text, at) if form else None
    return found.end() if found else at + 1


def tokens(text: str) -> tuple[list[Spelled], Optional[int]]:
    """The tokens of a text, up to the byte at which none starts, if there is one."""
    found, stop = plain.lex(text)
    spelled = []
    for token in found:
        end = end_of(text, token)
        start = len(text.encode()[: token.offset].decode())
        chars = text[start + 1 : end - 1] if token.kind == "iri" else text[start:end]
        kind = token.kind.capitalize() if token.kind.isalpha() else token.kind
        spelled.append(Spelled(kind, token.offset, place(text, end), chars))
    return spelled, stop


def no_token(offset: int) -> str:
    return f"no token starts at byte {offset}"


def spans(found: list[Spelled]) -> str:
    return listed([f"{token.kind} {token.start}..{token.end}" for token in found])


def row_tokens(text: str) -> str:
    found, stop = tokens(text)
    return spans(found) if stop is None else no_token(stop)


def row_front(text: str) -> str:
    found, stop = tokens(text)
    return f"{spans(found)} | end {len(text.encode()) if stop is None else stop}"


def row_pieces(text: str) -> str:
    found, stop = tokens(text)
    if stop is not None:
        return no_token(stop)
    return listed([f"{token.kind} at {token.start} {shown(token.text)}" for token in found])


def row_says(text: str) -> str:
    found, stop = plain.lex(text)
    if stop is not None:
        return no_token(stop)
    if [token.kind for token in found] != ["quoted"]:
        raise Unreadable
    return f'"{shown(found[0].says)}"'


def row_unquoted(inner: str) -> str:
    said = plain_tokens.unescape(inner)
    if said is None:
        raise Unreadable
    return f'"{shown(said)}"'


def row_name(fields: str) -> str:
    start, text = fields.split("\t")
    found = plain.NAME.match(of_field(text)[int(start) :])
    return f"{len(found[0]) if found else 0} bytes"


def truth(holds: bool) -> str:
    return str(holds).lower()


def row_next(fields: str) -> str:
    number, sign, text = fields.split("\t")
    found, stop = tokens(of_field(text))
    if stop is not None:
        raise Unreadable
    at = int(number)
    token = found[at] if at < len(found) else None
    tests = {name: truth(token is not None and token.kind == name.capitalize()) for name in ("name", "iri", "at")}
    is_sign = truth(token is not None and token.kind == sign)
    seen = "the end"
    if token is not None:
        words = " ".join(f"{name} {holds}" for name, holds in tests.items())
        seen = f"{token.kind} {token.text}, {words} sign {is_sign}"
    left = max(0, len(found) - at)
    after = f"past it at {at + 1}" if is_sign == "true" else f"fault with {left} left"
    return f"{seen}; next name {tests['name']} at {tests['at']} sign {is_sign}; left {left}; {after}"


RESERVED = ("uid", "count", "val", "min", "max", "sum", "as", "expand")


def said(token: Optional[Spelled]) -> str:
    """The node, the number or the predicate that a token says."""
    if token is None:
        return "the end"
    if token.kind == "Uid":
        return f"node {hex(int(token.text, 16))}"
    if token.kind == "Int":
        number = int(token.text)
        return f"number {number}" if -(2**63) <= number < 2**63 else "a wide number"
    if token.kind == "Name" or (token.kind == "Iri" and plain.is_whole(plain.NAME, token.text)):
        return f"predicate {token.text}"
    return "none of these"


def row_word(fields: str) -> str:
    number, word, text = fields.split("\t")
    found, stop = tokens(of_field(text))
    if stop is not None:
        raise Unreadable
    here, behind = (found[at] if at < len(found) else None for at in (int(number), int(number) + 1))
    name = here.text if here is not None and here.kind == "Name" else None
    tests = {
        "word": name == word,
        "any case": name is not None and name.lower() == word.lower(),
        "reserved": name in RESERVED,
        "before it": name is not None and behind is not None and (behind.kind, behind.text) == ("Name", word),
        "before :": name is not None and behind is not None and behind.kind == ":",
    }
    return " ".join(f"{test} {truth(holds)}" for test, holds in tests.items()) + f"; {said(here)}"


def row_deep(fields: str) -> str:
    most, text = fields.split("\t")
    found, stop = tokens(of_field(text))
    if stop is not None:
        raise Unreadable
    opened = closed = 0
    for token in found:
        opened += token.kind in ("{", "(", "[")
        closed += token.kind in ("}", ")", "]")
        if opened - closed > int(most):
            return f"too deep at byte {token.start}"
    return "nowhere"


# ---------------------------------------------------------------------------------------------------
# Schemas
# ---------------------------------------------------------------------------------------------------


class Declared(NamedTuple):
    """A predicate's definition, with its tokenizers in their order and the words of its other directives."""

    name: str
    kind: str
    is_list: bool
    tokenizers: list[str]
    words: list[str]

    def text(self) -> str:
        flags = "".join(f" {word}" for word in ("reverse", "count", "upsert") if word in self.words)
        listing = ", ".join(word.capitalize() for word in self.tokenizers)
        return f"{self.name} {KINDS[self.kind]}{' list' * self.is_list} [{listing}]{flags}"

    def line(self) -> str:
        kind = f"[{self.kind}]" if self.is_list else self.kind
        index = f" @index({', '.join(self.tokenizers)})" if self.tokenizers else ""
        flags = "".join(f" @{word}" for word in ("reverse", "count", "upsert") if word in self.words)
        return f"{self.name}: {kind}{index}{flags} .\n"


class WholeSchemaReader(plain.SchemaReader):
    """Reads definitions with their directives."""

    def index(self, kind: str) -> list[str]:
        self.tokenizers = super().index(kind)
        return self.tokenizers

    def definitions(self) -> dict[str, Declared]:
        found: dict[str, Declared] = {}
        while self.next().kind != "end":
            name = self.take()
            if name.kind not in ("name", "iri") or not plain.is_whole(plain.NAME, name.says):
                raise self.refuse(name)
            self.want(":")
            definition = self.type()
            self.tokenizers: list[str] = []
            words, fit = self.directives(definition.kind)
            self.want(".")
            if name.says in plain.RESERVED or name.says in found or not fit:
                raise self.refuse(name)
            found[name.says] = Declared(name.says, *definition, self.tokenizers, words)
        return found


Schema = dict[str, Declared]


def definitions(text: str) -> Union[Schema, str]:
    """The definitions of a text, or what is said of its fault."""
    try:
        return WholeSchemaReader(text).definitions()
    except plain.Refusal as refusal:
        return f"no schema by line {refusal.line.split()[-1]}"


def declared(schema: Schema) -> str:
    return "".join(f"{one.text()};" for one in schema.values()) or "none"


def lines(schema: Schema) -> str:
    return shown("".join(schema[name].line() for name in sorted(schema, key=str.encode))) or "nothing"


def row_schema(text: str) -> str:
    read = definitions(text)
    return read if isinstance(read, str) else declared(read)


def row_printed(text: str) -> str:
    read = definitions(text)
    return read if isinstance(read, str) else lines(read)


class Held:
    """The schema that calls are made on, and one that was laid aside."""

    def __init__(self) -> None:
        self.schema: Schema = {}
        self.aside: Schema = {}

    def change(self, call: str, argument: str) -> None:
        read = definitions(of_field(argument))
        if isinstance(read, str):
            raise Unreadable
        if call == "new":
            self.schema = {}
        elif call == "with":
            self.schema = {**self.schema, **read}
        elif call == "single" and read:
            name = min(read, key=str.encode)
            self.schema = {name: read[name]}
        elif call == "lay aside":
            self.aside, self.schema = self.schema, {}
        elif call == "put on aside":
            self.schema = {**self.aside, **self.schema}
        elif call != "copy":
            raise Unreadable

    def row(self, fields: str) -> str:
        call, _, argument = fields.partition("\t")
        if call in ("lookup", "lookup aside"):
            schema = self.schema if call == "lookup" else self.aside
            return schema[argument].text() if argument in schema else "none"
        if call == "text_of":
            return lines(self.schema)
        self.change(call, argument)
        return declared(self.schema)


# ---------------------------------------------------------------------------------------------------
# Mutations
# ---------------------------------------------------------------------------------------------------


def node(said: plain_mutations.Node) -> str:
    return f"_:{said.name}" if said.name else hex(said.uid)


def statement(said: plain_mutations.Statement) -> str:
    verb = "delete" if said.deletes else "set"
    if said.object is None:
        target = "*"
    elif isinstance(said.object, plain_mutations.Node):
        target = node(said.object)
    else:
        tag = f"^^{KINDS[said.object.kind]}" if said.object.kind else ""
        target = f'"{said.object.text}"{tag}'
    return f"{verb} {node(said.subject)} {said.predicate} {target}."


def no_mutation(refusal: plain.Refusal) -> str:
    _, number, _, offset = refusal.line.split()
    return no_token(int(offset)) if number == "3" else f"no mutation by byte {offset}"


def row_mutation(text: str) -> str:
    try:
        return shown(listed([statement(said) for said in plain_mutations.MutationReader(text).read()], " "))
    except plain.Refusal as refusal:
        return no_mutation(refusal)


def written_node(said: plain_mutations.Node) -> str:
    return f"_:{said.name}" if said.name else f"<{hex(said.uid)}>"


def written_object(said: Union[plain_mutations.Node, plain_mutations.Literal, None]) -> str:
    if said is None:
        return "*"
    if isinstance(said, plain_mutations.Node):
        return written_node(said)
    tag = f" ^^ <xs:{TYPES[said.kind]}>" if said.kind else ""
    return f'"{said.text.translate(ESCAPES)}"{tag}'


def printed_text(text: str) -> str:
    """The printed text of what a text says: a group for each statement, and a blank behind each word."""
    groups = [
        f"{'delete' if said.deletes else 'set'} {{ {written_node(said.subject)} <{said.predicate}> {written_object(said.object)} . }} "
        for said in plain_mutations.MutationReader(text).read()
    ]
    return f"{{ {''.join(groups)}}} "


def row_written(text: str) -> str:
    try:
        return shown(f"{printed_text(text)}end")
    except plain.Refusal as refusal:
        return no_mutation(refusal)


def row_repeat(fields: str) -> str:
    front, piece, count, back = fields.split("\t")
    text = of_field(front) + of_field(piece) * int(count) + of_field(back)
    size = len(text.encode())
    if size > LONGEST_TEXT:
        raise Unreadable
    try:
        return f"read of {size}, printed in {len(printed_text(text).encode())}"
    except plain.Refusal as refusal:
        return no_mutation(refusal)


def front(text: bytes) -> str:
    try:
        plain_mutations.MutationReader(text.decode()).read()
    except UnicodeDecodeError:
        return "-"
    except plain.Refusal as refusal:
        _, number, _, offset = refusal.line.split()
        return f"{'T' if number == '3' else 'S'}{offset}"
    return "read"


def row_cut(text: str) -> str:
    body = text.encode()
    return " ".join([*(front(body[:end]) for end in range(1, len(body))), "end"])


# ---------------------------------------------------------------------------------------------------
# Trees
# ---------------------------------------------------------------------------------------------------


def last(parts: list[str], count: str) -> list[str]:
    """Takes the last parts, of which so many are asked for."""
    if not count.isdecimal() or int(count) > len(parts):
        raise Unreadable
    taken = parts[len(parts) - int(count) :]
    del parts[len(parts) - int(count) :]
    return taken


def leaf(word: str, said: str) -> str:
    if word in ("true", "false"):
        return word
    if word == "int" and re.fullmatch("-?[0-9]+", said):
        return said
    if word == "text":
        return json.dumps(said, ensure_ascii=False)
    if word == "long":
        return f'"{"x" * int(said)}"'
    raise Unreadable


def answer(steps: str) -> str:
    """The text of the answer that steps make, which is JSON without blanks."""
    trees: list[str] = []
    fields: list[str] = []
    for step in steps.split("\t"):
        word, _, said = step.partition(" ")
        said = of_field(said)
        if word == "array":
            trees.append(f"[{','.join(last(trees, said))}]")
        elif word == "node":
            trees.append(f"{{{','.join(last(fields, said))}}}")
        elif word == "deep":
            (tree,) = last(trees, "1")
            trees.append("[" * int(said) + tree + "]" * int(said))
        elif word == "field":
            (tree,) = last(trees, "1")
            fields.append(f"{json.dumps(said, ensure_ascii=False)}:{tree}")
        elif word != "nothing":
            trees.append(leaf(word, said))
    if trees:
        raise Unreadable
    return f'{{"data":{{{",".join(fields)}}}}}'


def row_tree(steps: str) -> str:
    text = answer(steps)
    return shown(text) if len(text.encode()) <= LONGEST_ANSWER else "the answer is too large"


def row_size(steps: str) -> str:
    size = len(answer(steps).encode())
    return f"{size} bytes" if size <= LONGEST_ANSWER else "the answer is too large"


# ---------------------------------------------------------------------------------------------------
# Rows
# ---------------------------------------------------------------------------------------------------

# The texts of the faults, those with a place at 7.
FAULTS = {
    "LexFault::OutOfMemory": "out of memory",
    "LexFault::BadToken": "no token starts at byte 7",
    "SchemaFault::OutOfMemory": "out of memory",
    "SchemaFault::SchemaSyntax": "no schema by line 7",
    "NquadFault::OutOfMemory": "out of memory",
    "NquadFault::BadToken": "no token starts at byte 7",
    "NquadFault::BadSyntax": "no mutation by byte 7",
    "TreeFault::TooLarge": "the answer is too large",
    "TreeFault from OutOfMemory": "out of memory",
}

# What the statements of an upsert block say, by hand.
UPSERTS = {
    'uid(v) p val(x) . _:a q uid ( a.b ) . <0x1> uid "a" .': 'set uid(v) p val(x). set _:a q uid(a.b). set 0x1 uid "a".',
    'uid(<v>) p "a" .': "fault with 5 left",
}

# The tables whose one field is a text.
TEXTS: dict[str, Callable[[str], str]] = {
    "tokens": row_tokens,
    "front": row_front,
    "pieces": row_pieces,
    "says": row_says,
    "unquoted": row_unquoted,
    "schema": row_schema,
    "printed": row_printed,
    "mutation": row_mutation,
    "written": row_written,
    "cut": row_cut,
}


# The statements of the benchmark's bodies, by their numbers.
BODIES: dict[str, Callable[[int], str]] = {
    "names": lambda number: f'_:b{number} <name> "n{number}" .\n',
    "friends": lambda number: f"<{hex(number)}> <friend> <{hex(number // 2 + 1)}> .\n",
}


def section_bench() -> Iterator[str]:
    """The lines of the benchmark: how many statements each body has, as many as fit, and how many bytes."""
    for count in (1_000, 10_000, 100_000):
        for named, statement_of in BODIES.items():
            ends = itertools.accumulate(len(statement_of(number)) for number in range(1, count + 1))
            fitting = [end for end in ends if end <= LONGEST_TEXT]
            yield f"{len(fitting)} {named} in {fitting[-1]} bytes"


def tables() -> dict[str, Callable[[str], str]]:
    others = {"name": row_name, "next": row_next, "word": row_word, "deep": row_deep, "held": Held().row, "tree": row_tree, "size": row_size, "repeat": row_repeat}
    texts = {name: lambda field, row=row: row(of_field(field)) for name, row in TEXTS.items()}
    return {**others, **texts, "upsert": UPSERTS.__getitem__, "fault": FAULTS.__getitem__}


def answers(rows: Iterator[str]) -> Iterator[str]:
    """The line that is wanted for each row; empty lines and comments have none, and behind a section no row is read."""
    by_name = tables()
    for row in rows:
        if not row or row.startswith("#"):
            continue
        if row == "section bench" and by_name:
            by_name = {}
            yield from section_bench()
            continue
        table, _, fields = row.partition("\t")
        try:
            yield f"{row} => {by_name[table](fields)}"
        except (Unreadable, KeyError, ValueError):
            yield f"? {row}"


def main() -> None:
    text = sys.stdin.buffer.read().decode()
    for line in answers(iter(text.split("\n"))):
        sys.stdout.buffer.write(f"{line}\n".encode())


if __name__ == "__main__":
    main()
