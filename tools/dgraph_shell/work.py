"""What the shell knows of the work in the program's memory: open transactions, and what was typed and isn't saved."""

from __future__ import annotations

from collections.abc import Iterator
from dataclasses import dataclass, field
from typing import Union

from .replies import Refusal, Reply
from .scripts import show_script
from .verbs import Request

CHANGES = {"mutate", "upsert"}
SESSIONS = range(1, 17)


@dataclass
class Work:
    """What was typed, requests and comments, how much of it is saved, and the changes of each open transaction."""

    typed: list[Union[Request, str]] = field(default_factory=list)
    saved: int = 0
    has_unsaved_changes: bool = False
    open: dict[int, int] = field(default_factory=dict)

    def note_typed(self, request: Request, reply: Reply) -> None:
        """Keeps whether a request that was typed changed what others see."""
        is_change = request.verb.name == "alter" or request.verb.name == "commit" and not reply.head.endswith(" 0")
        self.has_unsaved_changes |= reply.is_ok and is_change

    def note(self, request: Request, reply: Reply) -> None:
        """Keeps what a reply says of a transaction."""
        session, verb, refusal = request.session, request.verb.name, Refusal.of(reply)
        if session is None:
            return
        if reply.is_ok and verb == "begin":
            self.open[session] = 0
        elif reply.is_ok and verb in CHANGES:
            self.open[session] = self.open.get(session, 0) + 1
        elif reply.is_ok and verb in ("commit", "discard") or refusal and ends_transaction(verb, refusal):
            self.open.pop(session, None)
        elif refusal and refusal.name == "SessionOpen":
            self.open.setdefault(session, 0)

    @property
    def uncommitted(self) -> list[int]:
        """The sessions with changes that aren't committed."""
        return sorted(session for session, changes in self.open.items() if changes)

    @property
    def free(self) -> list[int]:
        """The sessions without an open transaction."""
        return [session for session in SESSIONS if session not in self.open]

    @property
    def unsaved(self) -> int:
        """How many requests were typed since the last that were saved, where they changed what others see."""
        later = [entry for entry in self.typed[self.saved :] if isinstance(entry, Request)]
        return len(later) if self.has_unsaved_changes else 0

    @property
    def requests(self) -> list[Request]:
        """The requests that were typed."""
        return [entry for entry in self.typed if isinstance(entry, Request)]

    @property
    def comments(self) -> list[str]:
        """What else is in the script of what was typed."""
        return [entry for entry in self.typed if isinstance(entry, str)]

    def lines(self) -> Iterator[str]:
        """The lines of the script of what was typed."""
        for entry in self.typed:
            yield from [f"# {entry}"] if isinstance(entry, str) else show_script([entry])

    def keep(self) -> None:
        """Everything up to here is saved."""
        self.saved = len(self.typed)
        self.has_unsaved_changes = False


def ends_transaction(verb: str, refusal: Refusal) -> bool:
    """Whether a refusal says that the session has no transaction, or none any more."""
    return refusal.name == "NoSession" or verb == "commit" and refusal.name in ("Conflict", "Moving", "SchemaChanged")
