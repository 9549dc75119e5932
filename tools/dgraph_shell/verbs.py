"""The verbs that the program takes, and requests."""

from __future__ import annotations

import difflib
import re
from dataclasses import dataclass
from typing import Optional

from .faults import Unexpected

# The most bytes of a body, of a frame's first line with its line feed, and of all that one run of the program takes.
MAX_BODY = 1_048_576
MAX_LINE = 128
MAX_INPUT = 67_108_864


@dataclass(frozen=True)
class Argument:
    """An argument of a verb: its name, what it is, and the words that may stand for it."""

    name: str
    meaning: str
    pattern: re.Pattern[str]


SESSION = Argument("SID", "a session from 1 to 16", re.compile(r"[1-9]|1[0-6]"))
GROUP = Argument("GROUP", "a group from 1 to 16", re.compile(r"[1-9]|1[0-6]"))
PREDICATE = Argument(
    "PRED",
    "the name of a predicate, at most 64 bytes",
    re.compile(r"[A-Za-z_](?:[A-Za-z0-9_]|\.(?=[A-Za-z0-9_])){0,63}"),
)
LENGTH = re.compile(r"0|[1-9][0-9]{0,8}")


@dataclass(frozen=True)
class Verb:
    """What a request begins with: its name, its arguments, whether it and its reply have a body, and whether the
    program does anything for it yet. One that isn't built is read, and answered 98."""

    name: str
    arguments: tuple[Argument, ...] = ()
    has_body: bool = False
    answers_body: bool = False
    is_built: bool = False

    @property
    def line(self) -> str:
        """How the line of a request with this verb is written."""
        return " ".join([self.name, *(argument.name for argument in self.arguments)])

    @property
    def usage(self) -> str:
        """How a request with this verb is written."""
        return f"{self.line}, and a body below" if self.has_body else self.line


# Each verb that begins a frame of the program; tests compare them with the program and with its source.
VERBS = {
    verb.name: verb
    for verb in (
        Verb("alter", (), has_body=True, is_built=True),
        Verb("begin", (SESSION,), is_built=True),
        Verb("mutate", (SESSION,), has_body=True, answers_body=True, is_built=True),
        Verb("query", (SESSION,), has_body=True, answers_body=True, is_built=True),
        Verb("upsert", (SESSION,), has_body=True, answers_body=True, is_built=True),
        Verb("commit", (SESSION,), is_built=True),
        Verb("discard", (SESSION,), is_built=True),
        Verb("line"),
        Verb("roll", (PREDICATE,)),
        Verb("rollplan", (PREDICATE,)),
        Verb("rollinstall", (PREDICATE,)),
        Verb("movestart", (PREDICATE, GROUP)),
        Verb("movecopy", (PREDICATE,)),
        Verb("movehold", (PREDICATE,)),
        Verb("moveflip", (PREDICATE,)),
        Verb("moveoff", (PREDICATE,)),
        Verb("state", (), answers_body=True),
    )
}
BUILT = tuple(verb for verb in VERBS.values() if verb.is_built)
UNBUILT = tuple(verb for verb in VERBS.values() if not verb.is_built)


@dataclass(frozen=True)
class Request:
    """A request, the line of its file that it stands in, and its body, None where its verb has none."""

    verb: Verb
    arguments: tuple[str, ...]
    body: Optional[bytes] = None
    line: int = 1

    @property
    def head(self) -> str:
        """The verb and the arguments, as a readable script has them."""
        return " ".join([self.verb.name, *self.arguments])

    @property
    def session(self) -> Optional[int]:
        """The session that it names; None where it names none."""
        return int(self.arguments[0]) if self.verb.arguments[:1] == (SESSION,) else None

    def frame(self) -> bytes:
        """The bytes that the program reads."""
        if self.body is None:
            return f"{self.head}\n".encode()
        return b"%s %d\n%s\n" % (self.head.encode(), len(self.body), self.body)


def request_of(name: str, *arguments: str, body: Optional[bytes] = None) -> Request:
    """The request with a verb of that name."""
    return Request(VERBS[name], arguments, body)


def verb_named(name: str) -> Verb:
    """The verb of that name."""
    if name not in VERBS:
        raise Unexpected(f"a verb ({', '.join(built.name for built in BUILT)})", repr(name) + advice(name))
    return VERBS[name]


def parse_head(line: str) -> tuple[Verb, tuple[str, ...]]:
    """The verb and the arguments of a request's line, without the length of a body."""
    name, *words = line.split(" ")
    verb = verb_named(name)
    if "" in words:
        raise Unexpected("single spaces between words, and none at the end of the line", repr(line))
    if len(words) != len(verb.arguments):
        raise Unexpected(f"`{verb.usage}`", repr(line))
    for argument, word in zip(verb.arguments, words):
        if not argument.pattern.fullmatch(word):
            raise Unexpected(f"{argument.meaning}, for {argument.name}", repr(word))
    return verb, tuple(words)


def advice(name: str) -> str:
    """What to write for a word that is no verb, behind a `;`; empty where nothing is known to help."""
    if name.startswith("{"):
        return "; a query stands below `query SID`, and a mutation below `mutate SID`"
    if name.startswith(("<", "_:")):
        return "; statements stand below `mutate SID`"
    if name.endswith(":"):
        return "; definitions of predicates stand below `alter`"
    if name.lower() in VERBS:
        return f"; verbs have small letters: `{name.lower()}`"
    near = difflib.get_close_matches(name.lower(), VERBS, n=1)
    return f"; is `{near[0]}` meant?" if near else ""
