#!/usr/bin/env python3
"""The machine of one thread that keeps committed changes as a list, written plainly.

    plain_machine.py <SCRIPT >REPLIES

It answers a script of frames as `dgraph run` does, for the requests that are built, and is slow: each
look at the graph begins with the first commit. It was written from the meaning of the requests and not
from the program, so that the two can be compared (`random_scripts.py`): proofs say that the program
does what the definitions in `specs/` say, and this asks whether those say what they should.

The verbs that aren't built answer 98. It ends with 4 where the script isn't frames to its
end, as the program does. It needs Python 3.9 or later. Tokens stand in `plain_tokens.py`, values in
`plain_values.py`, graphs and the keys of conflicts in `plain_graph.py`, the query language in
`plain_queries.py`, and what it answers in `plain_answers.py`; mutations in `plain_mutations.py`, and upsert blocks in
`plain_upserts.py`.
"""

from __future__ import annotations

import re
import sys
from collections.abc import Iterable
from dataclasses import dataclass, field
from typing import NamedTuple, Optional, Union

from plain_answers import answer_of
from plain_graph import TOKENIZERS, Change, ConflictKey, Definition, Graph, apply, conflict_keys
from plain_mutations import MutationReader, Node, Statement
from plain_tokens import NAME, Reader, Refusal, Token, is_whole, lex, text_of
from plain_upserts import statements_of
from plain_values import KINDS, NODE, Posting, read_posting

LAST_UID = 2**62 - 1
LAST_TIMESTAMP = 2**62 - 1
RESERVED = {"uid", "count", "val", "min", "max", "sum", "as", "expand"}


# ---------------------------------------------------------------------------------------------------
# The schema language
# ---------------------------------------------------------------------------------------------------


# The tokenizer that an index without a list stands for.
OWN_TOKENIZERS = {"int": "int", "bool": "bool", "dateTime": "year"}


class Type(NamedTuple):
    kind: str
    is_list: bool


class SchemaReader(Reader):
    """Reads definitions."""

    def __init__(self, text: str) -> None:
        tokens, stop = lex(text)
        end = Token("end", "", len(text.encode())) if stop is None else Token("none", "", stop)
        super().__init__(tokens, end)
        self.text = text.encode()
        # Of the definition that is being read.
        self.tokenizers: list[str] = []

    def refuse(self, token: Token) -> Refusal:
        return Refusal(27, "SchemaSyntax", 1 + self.text[: token.offset].count(b"\n"))

    def word_of(self, words: Iterable[str]) -> str:
        word = self.want("name")
        if word.says not in words:
            raise self.refuse(word)
        return word.says

    def type(self) -> Type:
        if self.next().kind != "[":
            return Type(KINDS[self.word_of(KINDS)], False)
        self.take()
        kind = KINDS[self.word_of(KINDS)]
        self.want("]")
        return Type(kind, True)

    def index(self, kind: str) -> list[str]:
        """The tokenizers of an index, of which a string and what has none must name some."""
        if self.next().kind != "(":
            return [OWN_TOKENIZERS.get(kind, "")]
        self.take()
        found = [self.word_of(TOKENIZERS)]
        while self.next().kind == ",":
            self.take()
            found.append(self.word_of(TOKENIZERS))
        self.want(")")
        return found

    def directives(self, kind: str) -> tuple[list[str], bool]:
        """The words of the directives, and whether they fit one another and the kind."""
        words: list[str] = []
        self.tokenizers = []
        fit = True
        while self.next().kind == "at":
            word = self.take()
            if word.says not in ("index", "reverse", "count", "upsert"):
                raise self.refuse(word)
            words.append(word.says)
            if word.says == "index":
                self.tokenizers = self.index(kind)
                fit = fit and all(TOKENIZERS.get(one) == kind for one in self.tokenizers)
                fit = fit and len(set(self.tokenizers)) == len(self.tokenizers)
        fit = fit and len(set(words)) == len(words)
        fit = fit and ("reverse" not in words or kind == "uid")
        return words, fit and ("upsert" not in words or "index" in words)

    def read(self) -> dict[str, Definition]:
        found: dict[str, Definition] = {}
        while self.next().kind != "end":
            name = self.take()
            if name.kind not in ("name", "iri") or not is_whole(NAME, name.says):
                raise self.refuse(name)
            self.want(":")
            kind, is_list = self.type()
            words, fit = self.directives(kind)
            self.want(".")
            if name.says in RESERVED or name.says in found or not fit:
                raise self.refuse(name)
            flags = (word in words for word in ("reverse", "count", "upsert"))
            found[name.says] = Definition(kind, is_list, tuple(self.tokenizers), *flags)
        return found


# ---------------------------------------------------------------------------------------------------
# The machine
# ---------------------------------------------------------------------------------------------------


class Commit(NamedTuple):
    """What was committed at a timestamp, and the keys that it was judged by."""

    timestamp: int
    changes: list[Change]
    keys: set[ConflictKey]


@dataclass
class Session:
    """An open transaction: its start, the schema there, and the changes that were asked for."""

    start: int
    schema: dict[str, Definition]
    changes: list[Change] = field(default_factory=list)


class PlainMachine:
    """The committed changes in their order, the schema, the open sessions and the two counters."""

    def __init__(self, timestamp: int = 1) -> None:
        self.timestamp = timestamp
        self.uid = 1
        self.schema: dict[str, Definition] = {}
        self.commits: list[Commit] = []
        self.sessions: dict[int, Session] = {}

    def answer(self, verb: str, session: int, body: bytes) -> bytes:
        """The reply to a request; `session` is 0 for a verb that takes none."""
        try:
            if verb == "alter":
                return self.alter(body)
            if verb == "begin":
                return self.begin(session)
            if verb not in ("mutate", "upsert", "query", "commit", "discard"):
                raise Refusal(98, "Unbuilt")
            if session not in self.sessions:
                raise Refusal(1, "NoSession", session)
            return getattr(self, verb)(session, body)
        except Refusal as refusal:
            return refusal.line.encode() + b"\n"

    def draw(self, count: int = 1) -> int:
        """The first of so many new timestamps."""
        if self.timestamp + count - 1 > LAST_TIMESTAMP:
            raise Refusal(28, "TimestampsSpent", self.timestamp)
        self.timestamp += count
        return self.timestamp - count

    def graph_at(self, start: int) -> Graph:
        graph: Graph = {}
        for commit in self.commits:
            if commit.timestamp <= start:
                apply(graph, commit.changes)
        return graph

    def view(self, session: Session) -> Graph:
        graph = self.graph_at(session.start)
        apply(graph, session.changes)
        return graph

    def alter(self, body: bytes) -> bytes:
        newer = SchemaReader(text_of(body)).read()
        if self.sessions:
            raise Refusal(20, "Pending", min(session.start for session in self.sessions.values()))
        held = {predicate for (predicate, _), objects in self.graph_at(self.timestamp).items() if objects}
        for name, definition in newer.items():
            # Directives may change freely.
            if name in held and self.schema[name].shape != definition.shape:
                raise Refusal(22, "HasData", name)
        start = self.draw(2)
        self.schema = {**self.schema, **newer}
        return b"ok alter %d %d\n" % (start, start + 1)

    def begin(self, number: int) -> bytes:
        if number in self.sessions:
            raise Refusal(2, "SessionOpen", number)
        self.sessions[number] = Session(self.draw(), self.schema)
        return b"ok begin %d %d\n" % (number, self.sessions[number].start)

    def discard(self, number: int, _: bytes) -> bytes:
        del self.sessions[number]
        return b"ok discard %d\n" % number

    def commit(self, number: int, _: bytes) -> bytes:
        session = self.sessions[number]
        if not session.changes:
            del self.sessions[number]
            return b"ok commit %d 0\n" % number
        keys = conflict_keys(self.graph_at(session.start), session.changes)
        for key in sorted(keys):
            later = [one.timestamp for one in self.commits if one.timestamp > session.start and key in one.keys]
            if later:
                del self.sessions[number]
                raise Refusal(19, "Conflict", max(later), key.text())
        timestamp = self.draw()
        del self.sessions[number]
        self.commits.append(Commit(timestamp, session.changes, keys))
        return b"ok commit %d %d\n" % (number, timestamp)

    def resolved(self, schema: dict[str, Definition], statement: Statement) -> Union[Node, Posting, None]:
        """The object of a statement under a schema."""
        name, said = statement.predicate, statement.object
        if name not in schema:
            raise Refusal(13, "NoPredicate", name)
        kind = schema[name].kind
        if said is None:
            return None
        if isinstance(said, Node) != (kind == "uid"):
            raise Refusal(14, "WrongObject", name)
        if isinstance(said, Node):
            return said
        value = read_posting(kind, said.text)
        if value is None or (said.kind is not None and read_posting(said.kind, said.text) is None):
            raise Refusal(10, "BadLiteral", name)
        return value

    def numbered(self, nodes: list[Node]) -> tuple[int, dict[str, int]]:
        """The next uid after these nodes are leased, and the numbers of the new ones."""
        if not nodes:
            return self.uid, {}
        names = list(dict.fromkeys(node.name for node in nodes if node.name))
        first = max(self.uid, max(node.uid for node in nodes) + 1)
        if first + len(names) > LAST_UID + 1:
            raise Refusal(15, "UidsSpent", hex(self.uid))
        return first + len(names), {name: first + place for place, name in enumerate(names)}

    def mutate(self, number: int, body: bytes) -> bytes:
        return self.changed("mutate", number, MutationReader(text_of(body)).read())

    def upsert(self, number: int, body: bytes) -> bytes:
        session = self.sessions[number]
        return self.changed("upsert", number, [*statements_of(self.view(session), session.schema, text_of(body))])

    def changed(self, verb: str, number: int, statements: list[Statement]) -> bytes:
        """The reply to a request that comes to these statements, in which nothing is a variable."""
        session = self.sessions[number]
        objects = [self.resolved(session.schema, statement) for statement in statements]
        nodes = [
            node
            for statement, said in zip(statements, objects)
            for node in (statement.subject, said)
            if isinstance(node, Node)
        ]
        next_uid, numbers = self.numbered(nodes)
        view = self.view(session)
        for statement, said in zip(statements, objects):
            subject = numbers.get(statement.subject.name, statement.subject.uid)
            place = (statement.predicate, subject)
            if said is None:
                each = sorted(view.get(place, frozenset()))
            elif isinstance(said, Node):
                each = [Posting(NODE, numbers.get(said.name, said.uid))]
            else:
                each = [said]
            definition = session.schema[statement.predicate]
            session.changes += [Change(statement.deletes, subject, place[0], one, definition) for one in each]
        self.uid = next_uid
        uids = ",".join(f'"{name}":"{hex(uid)}"' for name, uid in sorted(numbers.items()))
        return with_body(verb, number, f'{{"uids":{{{uids}}}}}')

    def query(self, number: int, body: bytes) -> bytes:
        session = self.sessions[number]
        return with_body("query", number, answer_of(self.view(session), session.schema, text_of(body)))


def with_body(verb: str, number: int, text: str) -> bytes:
    body = text.encode()
    return b"ok %s %d %d\n%s\n" % (verb.encode(), number, len(body), body)


# ---------------------------------------------------------------------------------------------------
# Scripts
# ---------------------------------------------------------------------------------------------------

LONGEST_HEADER = 128
LONGEST_BODY = 1_048_576
SMALL = re.compile(r"[1-9]|1[0-6]")
LENGTH = re.compile(r"0|[1-9][0-9]*")
VERBS = {
    **dict.fromkeys(("line", "state"), []),
    **dict.fromkeys(("begin", "commit", "discard"), [SMALL]),
    **dict.fromkeys(("mutate", "upsert", "query"), [SMALL, LENGTH]),
    **dict.fromkeys(("roll", "rollplan", "rollinstall", "movecopy", "movehold", "moveflip", "moveoff"), [NAME]),
    "alter": [LENGTH],
    "movestart": [NAME, SMALL],
}


class Request(NamedTuple):
    verb: str
    session: int
    body: bytes


def frame_at(script: bytes, at: int) -> Optional[tuple[Request, int]]:
    """The request of the frame that begins at a byte and stands there whole, and where it ends."""
    end = script.find(b"\n", at, at + LONGEST_HEADER)
    verb, *words = script[at : max(at, end)].decode("latin-1").split(" ")
    forms = VERBS.get(verb)
    if end < 0 or forms is None or len(words) != len(forms):
        return None
    if not all(is_whole(form, word) for form, word in zip(forms, words)):
        return None
    session = int(words[0]) if forms[:1] == [SMALL] else 0
    if LENGTH not in forms:
        return Request(verb, session, b""), end + 1
    length = int(words[-1])
    stop = end + 1 + length
    if length > LONGEST_BODY or script[stop : stop + 1] != b"\n":
        return None
    return Request(verb, session, script[end + 1 : stop]), stop + 1


class Run(NamedTuple):
    """The requests of a script, their replies, and the byte at which no frame stands whole."""

    requests: list[Request]
    replies: list[bytes]
    fault: Optional[int]


def run(script: bytes, timestamp: int = 1) -> Run:
    """What `dgraph run` does with a script of at most 64 MiB, where this is the first timestamp."""
    machine = PlainMachine(timestamp)
    done = Run([], [], None)
    at = 0
    while at < len(script):
        frame = frame_at(script, at)
        if frame is None:
            return done._replace(fault=at)
        request, at = frame
        done.requests.append(request)
        done.replies.append(machine.answer(*request))
    return done


def main() -> int:
    done = run(sys.stdin.buffer.read())
    sys.stdout.buffer.write(b"".join(done.replies))
    if done.fault is None:
        return 0
    print(f"dgraph: bad frame at {done.fault}", file=sys.stderr)
    return 4


if __name__ == "__main__":
    sys.exit(main())
