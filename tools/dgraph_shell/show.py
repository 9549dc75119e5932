"""Requests and replies, as they are shown."""

from __future__ import annotations

import json
import os
from collections.abc import Callable, Sequence
from dataclasses import dataclass
from typing import Any, Optional, TextIO

from .meanings import ENDS_EARLY, says, what_next
from .spots import Spot, spot_of, width_of
from .replies import Refusal, Reply
from .scripts import INDENT, UNSHOWABLE
from .verbs import Request

LONG_SCRIPT = 200


@dataclass(frozen=True)
class Paint:
    """Colours of a terminal, where they are wanted."""

    wanted: bool

    def _in(self, code: str, text: str) -> str:
        return f"\x1b[{code}m{text}\x1b[0m" if self.wanted and text else text

    def strong(self, text: str) -> str:
        """A request."""
        return self._in("1", text)

    def good(self, text: str) -> str:
        """A reply that is no refusal."""
        return self._in("32", text)

    def bad(self, text: str) -> str:
        """A refusal."""
        return self._in("31", text)

    def faint(self, text: str) -> str:
        """What is said beside."""
        return self._in("2", text)


def wants_colour(stream: TextIO, plain: bool) -> bool:
    """Whether a stream is a terminal that takes colours, and nobody asked for none."""
    return (
        not plain
        and not os.environ.get("NO_COLOR")
        and os.environ.get("TERM") != "dumb"
        and stream.isatty()
    )


def visible(text: str) -> str:
    """The text with its control characters, tabs and line feeds aside, written as escapes."""
    return UNSHOWABLE.sub(lambda found: f"\\u{ord(found[0]):04x}", text)


def cell_of(value: Any) -> str:
    """A value in a table: texts bare, all else in JSON."""
    if isinstance(value, str) and value:
        return visible(value.replace("\n", "\\n").replace("\t", "\\t"))
    return visible(json.dumps(value, ensure_ascii=False, separators=(",", ":")))


def objects_in(value: Any) -> list[dict[str, Any]]:
    """The objects that stand under a key; none where it has a value or values."""
    found = value if isinstance(value, list) else [value]
    return found if all(isinstance(one, dict) for one in found) else []


def lines_of(row: dict[str, Any]) -> list[dict[str, Any]]:
    """A row with a line for each object below it, under keys with a dot between any two; its own values in the first line."""
    lines: list[dict[str, Any]] = [{}]
    for key, value in row.items():
        below = [line for one in objects_in(value) for line in lines_of(one)]
        if not below:
            lines[0][key] = value
        for place, line in enumerate(below):
            if place == len(lines):
                lines.append({})
            lines[place].update({f"{key}.{name}": cell for name, cell in line.items()})
    return lines


def columns_of(rows: Sequence[dict[str, Any]]) -> list[str]:
    """The keys of rows, of which each has some in one order: a new one stands behind the key before it in its row."""
    columns: list[str] = []
    for row in rows:
        place = 0
        for key in row:
            if key not in columns:
                columns.insert(place, key)
            place = columns.index(key) + 1
    return columns


def table_of(rows: Sequence[dict[str, Any]]) -> list[str]:
    """The lines of a table with a column for each key, also of objects below a row."""
    lines = [line for row in rows for line in lines_of(row)]
    columns = columns_of(lines)
    cells = [[cell_of(line[key]) if key in line else "" for key in columns] for line in lines]
    widths = [max(map(width_of, column)) for column in zip(columns, *cells)]
    rules = ["-" * width for width in widths]
    return ["  ".join(map(padded, cells_of_line, widths)).rstrip() for cells_of_line in [columns, rules, *cells]]


def padded(text: str, width: int) -> str:
    """The text, with blanks behind it up to a width."""
    return text + " " * (width - width_of(text))


def tables_of(blocks: dict[str, list[dict[str, Any]]]) -> list[str]:
    """The lines of the tables of an answer's blocks."""
    lines = []
    for name, rows in blocks.items():
        lines.append(f"{name}: {len(rows)} {'row' if len(rows) == 1 else 'rows'}")
        lines.extend(INDENT + line for line in (table_of(rows) if rows else []))
    return lines


def has_rows(value: Any) -> bool:
    """Whether a body's JSON is an answer: blocks, each with a list of objects."""
    if not isinstance(value, dict) or not isinstance(value.get("data"), dict):
        return False
    blocks = value["data"].values()
    return all(isinstance(b, list) and all(isinstance(row, dict) for row in b) for b in blocks)


def show_body(body: bytes, table: bool) -> list[str]:
    """The lines that show a reply's body."""
    text = body.decode("utf-8", "backslashreplace")
    try:
        value = json.loads(text)
    except ValueError:
        return text.rstrip("\n").split("\n")
    if table and has_rows(value):
        return tables_of(value["data"])
    return json.dumps(value, indent=2, ensure_ascii=False).split("\n")


def plural(count: int, noun: str) -> str:
    """So many of something."""
    return f"{count:,} {noun}" + ("" if count == 1 else "s")


@dataclass
class View:
    """Where requests and replies are shown, and how."""

    out: TextIO
    paint: Paint
    table: bool = False
    times: bool = False

    def say(self, *lines: str, style: Callable[[str], str] = str, indent: str = "") -> None:
        """Writes lines in a style."""
        for line in lines:
            self.out.write(indent + style(visible(line)) + "\n")
        self.out.flush()

    def show_request(self, request: Request) -> None:
        """Shows a request and its body."""
        self.say(f"> {request.head}", style=self.paint.strong)
        if request.body:
            self.say(*request.body.decode("utf-8", "backslashreplace").split("\n"), indent=INDENT)

    def show_reply(self, request: Request, reply: Reply, source: Optional[str] = None) -> None:
        """Shows the reply to a request. The source is the file that the request stands in, if any."""
        self.say(reply.head, style=self.paint.good if reply.is_ok else self.paint.bad)
        refusal = Refusal.of(reply)
        if refusal:
            self.show_cause(request, refusal, lambda spot: in_body(request, spot, source))
        if reply.body:
            self.say(*show_body(reply.body, self.table), indent=INDENT)

    def show_cause(self, request: Request, refusal: Refusal, where: Callable[[Spot], str]) -> None:
        """Shows what a refusal means, the spot that it names, and what to do next."""
        spot = spot_of(refusal, request.body)
        meaning = says(refusal, request)
        if spot:
            text, mark = spot.lines()
            self.say(f"{where(spot)}: {ENDS_EARLY if spot.is_end else meaning}", indent=INDENT)
            self.say(text, indent=INDENT + "| ")
            self.say(mark, indent=INDENT + "| ", style=self.paint.bad)
        elif meaning:
            self.say(meaning, indent=INDENT)
        then = what_next(refusal, request)
        if then:
            self.say(f"next: {then}", indent=INDENT, style=self.paint.faint)


def in_body(request: Request, spot: Spot, source: Optional[str]) -> str:
    """Where a spot is in the body of a request, and in the file that it stands in, if any."""
    column = "" if spot.is_whole_line else f", column {spot.before + 1}"
    file = f" ({source}:{request.line + spot.line})" if source else ""
    return f"line {spot.line}{column} of the body{file}"


@dataclass
class Progress:
    """A line on standard error that says how far a long script is."""

    total: int
    out: TextIO

    @property
    def is_shown(self) -> bool:
        """Whether the script is long."""
        return self.total > LONG_SCRIPT

    def tell(self, number: int) -> None:
        """Says which request is asked: on a terminal always, in place, and else ten times in all."""
        if not self.is_shown:
            return
        text = f"request {number} of {self.total}"
        if self.out.isatty():
            self.out.write(text)
        elif number % (self.total // 10) == 0:
            self.out.write(f"{text}\n")
        self.out.flush()

    def clear(self) -> None:
        """Takes the line away on a terminal, so that something else can be shown."""
        if self.is_shown and self.out.isatty():
            self.out.write("\r\x1b[K")
            self.out.flush()
