#!/usr/bin/env python3
"""What the rows of crates/table_values/stdin have to be answered: the text of its stdout.

    rows_values.py <crates/table_values/stdin >crates/table_values/stdout

The answers come from Python alone, by `datetime`, `int`, `re`, `unicodedata`, `str`, `set` and `sorted`, and from the
tables and lists that stand below. Nothing here looks into the crates.
"""

from __future__ import annotations

import re
import sys
import unicodedata
from collections.abc import Callable, Iterator
from datetime import date
from typing import Any

PICTURES = {"␀": "\0", "␁": "\1", "␉": "\t", "␊": "\n", "␍": "\r"}
DAYS_IN_400_YEARS = 146_097
TIME = re.compile(
    r"([0-9]{4})-([0-9]{2})-([0-9]{2})"
    r"(?:[Tt]([0-9]{2}):([0-9]{2}):([0-9]{2})(?:\.([0-9]{1,9}))?(?:[Zz]|([+-])([0-9]{2}):([0-9]{2}))?)?"
)
TOKENIZERS = ["exact", "hash", "term", "trigram", "int", "bool", "year", "month", "day", "hour"]
KINDS = {"uid": 7, "int": 300, "": 0}
WORDS = (
    "ab ad ae ag ah ai al am an ar as at aw ax ay ba be bi bo by "
    "da de di do ed ef eh el em en er es et ex fa fe ga gi go ha"
).split()
ARGUMENTS = {
    "alter": 1, "begin": 1, "mutate": 2, "upsert": 2, "query": 2, "commit": 1, "discard": 1, "line": 0, "roll": 1,
    "rollplan": 1, "rollinstall": 1, "movestart": 2, "movecopy": 1, "movehold": 1, "moveflip": 1, "moveoff": 1,
    "state": 0,
}  # fmt: skip

# A value is a word for its kind and what Python has for it; a time is its seconds from 1970 on and its nanoseconds.
Value = tuple[str, Any]


def plain(field: str) -> str:
    """The text between the quotes of a field."""
    assert len(field) > 1 and field[0] == field[-1] == '"', field
    return "".join(PICTURES.get(c, c) for c in field[1:-1])


def quoted(text: str) -> str:
    shown = {control: picture for picture, control in PICTURES.items()}
    return '"' + "".join(shown.get(c, c) for c in text) + '"'


def numbers(field: str) -> list[int]:
    found: list[int] = []
    for word in [] if field == "none" else field.split():
        if ".." in word:
            front, last = word.split("..")
            first, second = map(int, front.split(","))
            found += range(first, int(last) + 1, second - first)
        else:
            found.append(int(word))
    return found


def joined(items: list[int]) -> str:
    return " ".join(map(str, items)) or "none"


# ---------------------------------------------------------------------------------------------------
# Values
# ---------------------------------------------------------------------------------------------------


def seconds(year: int, month: int, day: int) -> int:
    """The seconds from 1970 to a date. Python has no year 0; the calendar repeats after 400 years."""
    days = date(year or 400, month, day).toordinal() - (0 if year else DAYS_IN_400_YEARS)
    return (days - date(1970, 1, 1).toordinal()) * 86_400


def parts(secs: int) -> tuple[int, int, int, int]:
    """The year, month and day of seconds from 1970 on, and the second of the day."""
    days, second = divmod(secs, 86_400)
    days += date(1970, 1, 1).toordinal()
    there = date.fromordinal(days + (DAYS_IN_400_YEARS if days < 1 else 0))
    return there.year - (400 if days < 1 else 0), there.month, there.day, second


def read_time(text: str) -> tuple[int, int] | None:
    found = TIME.fullmatch(text)
    if not found:
        return None
    year, month, day, hour, minute, second = (int(part or 0) for part in found.groups()[:6])
    ahead_hours, ahead_minutes = int(found[9] or 0), int(found[10] or 0)
    if hour > 23 or minute > 59 or second > 59 or ahead_hours > 23 or ahead_minutes > 59:
        return None
    try:
        secs = seconds(year, month, day)
    except ValueError:
        return None
    ahead = (3_600 * ahead_hours + 60 * ahead_minutes) * (-1 if found[8] == "-" else 1)
    secs += 3_600 * hour + 60 * minute + second - ahead
    if not seconds(0, 1, 1) <= secs < seconds(9999, 12, 31) + 86_400:
        return None
    return secs, int((found[7] or "").ljust(9, "0"))


def time_text(secs: int, nanos: int) -> str:
    year, month, day, second = parts(secs)
    fraction = f".{nanos:09}".rstrip("0") if nanos else ""
    clock = f"{second // 3600:02}:{second // 60 % 60:02}:{second % 60:02}"
    return f"{year:04}-{month:02}-{day:02}T{clock}{fraction}Z"


def read(kind: str, text: str) -> Value | None:
    if kind in ("default", "text"):
        return "text", text
    if kind == "int" and re.fullmatch("[+-]?[0-9]+", text) and -(2**63) <= int(text) < 2**63:
        return "int", int(text)
    if kind == "bool" and text in ("true", "false"):
        return "bool", text == "true"
    if kind == "time" and (moment := read_time(text)):
        return "time", moment
    return None


def value_of(field: str) -> Value:
    kind, text = field.split(" ", 1)
    if kind == "moment":
        secs, nanos = text.split(" ")
        return "time", (int(secs), int(nanos))
    value = read(kind, plain(text) if kind == "text" else text)
    assert value, field
    return value


def posting_of(field: str) -> Value:
    return ("uid", int(field[4:])) if field.startswith("uid ") else value_of(field)


def shown(value: Value) -> str:
    kind, what = value
    if kind == "text":
        return quoted(str(what))
    if kind == "bool":
        return "true" if what else "false"
    return time_text(*what) if kind == "time" else str(what)


def reading(kind: str, text: str) -> str:
    value = read(kind, text)
    if not value:
        return "bad literal"
    if value[0] == "time":
        return f"{shown(value)} = {value[1][0]} s {value[1][1]} ns"
    return shown(value)


def read_row(call: str, field: str) -> str:
    if call == "each":
        kinds = ["default", "text", "int", "bool", "time", "uid"]
        return "; ".join(f"{kind} {reading(kind, plain(field))}" for kind in kinds)
    return reading(call, plain(field))


def first_moments(secs: int) -> list[int]:
    """The first seconds of the year, month, day and hour."""
    year, month, day, second = parts(secs)
    midnight = seconds(year, month, day)
    return [seconds(year, 1, 1), seconds(year, month, 1), midnight, midnight + second // 3600 * 3600]


def cut_row(call: str, field: str) -> str:
    firsts = first_moments(read_time(plain(field))[0])
    return ", ".join(f"{part} {time_text(secs, 0)}" for part, secs in zip(TOKENIZERS[6:], firsts))


def escaped(text: str) -> str:
    """A text as Rust prints it for a programmer."""
    escapes = {'"': '\\"', "\\": "\\\\", "\0": "\\0", "\n": "\\n", "\r": "\\r", "\t": "\\t", "\1": "\\u{1}"}
    return '"' + "".join(escapes.get(c, c) for c in text) + '"'


def debug(posting: Value) -> str:
    kind, what = posting
    if kind == "uid":
        return f"Uid({what})"
    if kind == "text":
        return f"Val(Text(Str {{ text: {escaped(str(what))} }}))"
    if kind == "time":
        return "Val(Time(Moment {{ secs: {}, nanos: {} }}))".format(*what)
    return f"Val({kind.capitalize()}({shown(posting)}))"


def copy_row(call: str, field: str) -> str:
    return f"{debug(posting_of(field))}, copy {debug(posting_of(field))}"


def key(posting: Value) -> tuple:
    """What Python orders a posting by."""
    kind, what = posting
    return ["uid", "int", "text", "bool", "time"].index(kind), what.encode() if kind == "text" else what


def ordering(a, b) -> str:
    return "Less" if a < b else "Greater" if a > b else "Equal"


def order_row(call: str, a: str, b: str) -> str:
    if call == "texts":
        a, b = plain(a).encode(), plain(b).encode()
    elif call == "tokenizers":
        a, b = TOKENIZERS.index(a), TOKENIZERS.index(b)
    else:
        a, b = key(posting_of(a)), key(posting_of(b))
    answer = f"{ordering(a, b)}, back {ordering(b, a)}"
    if call in ("postings", "texts"):
        answer += f", in sets {ordering(a, b)}"
    return answer + (f", same {str(a == b).lower()}" if call == "texts" else "")


# ---------------------------------------------------------------------------------------------------
# Texts and lists
# ---------------------------------------------------------------------------------------------------


def text_row(call: str, front: str, more: str) -> str:
    text = plain(front) + plain(more)
    empty = "false" if text else "true"
    printed, shown_text = quoted(f"<{text}>"), quoted(text)
    return f"copy {shown_text}, bytes {len(text.encode())}, empty {empty}, printed {printed}, back {shown_text}"


def list_row(call: str, front: str, last: str) -> str:
    items = numbers(front) + numbers(last)
    empty = "false" if items else "true"
    copy = joined(items)
    return f"copy {copy}, items {len(items)}, empty {empty}, greatest {max(items, default=0)}, back {copy}"


def leaf(name: str, below: str = "") -> str:
    return f'Tree {{ name: Str {{ text: "{name}" }}, below: List {{ items: [{below}] }} }}'


def tree_row(call: str, name: str, names: str) -> str:
    below = names.split()
    return f"{name}, below {len(below)}, {leaf(name, ', '.join(map(leaf, below)))}"


# ---------------------------------------------------------------------------------------------------
# Tokens
# ---------------------------------------------------------------------------------------------------


def is_of_term(c: str) -> bool:
    """Whether the character is alphabetic, a mark that isn't an enclosing one, or a number.

    Alphabetic are the letters, some of those marks and numbers, and of the symbols the Latin letters in circles and
    squares.
    """
    category = unicodedata.category(c)
    if category[0] in "LN" or category in ("Mn", "Mc"):
        return True
    return re.match("(NEGATIVE )?(CIRCLED|SQUARED) LATIN (CAPITAL|SMALL) LETTER .$", unicodedata.name(c, "")) is not None


def folded(c: str) -> str:
    """The one character that stands for this one where case doesn't count."""
    return next((one for one in (c.casefold(), c.lower()) if len(one) == 1), c)


def terms(text: str) -> set[str]:
    marked = "".join(folded(c) if is_of_term(c) else " " for c in text)
    return set(marked.split(" ")) - {""}


def token_values(tokenizer: str, value: Value) -> Iterator[Value]:
    kind, what = value
    if kind == "text" and tokenizer in ("term", "trigram"):
        runs = terms(what) if tokenizer == "term" else {what[at : at + 3] for at in range(len(what) - 2)}
        yield from (("text", run) for run in sorted(runs, key=str.encode))
    elif kind == "time" and tokenizer in TOKENIZERS[6:]:
        yield "time", (first_moments(what[0])[TOKENIZERS.index(tokenizer) - 6], 0)
    elif tokenizer == kind or kind == "text" and tokenizer in ("exact", "hash"):
        yield value


def tokens_row(call: str, field: str) -> str:
    tokens = token_values(call, value_of(field))
    return ", ".join(f"{call.capitalize()} {shown(token)}" for token in tokens) or "none"


# ---------------------------------------------------------------------------------------------------
# Tables and sets
# ---------------------------------------------------------------------------------------------------


def new_table(rows: list[str]) -> str:
    names, codes = zip(*(row.rsplit(" ", 1) for row in rows)) if rows else ((), ())
    return "a table" if len(set(names)) == len(set(codes)) == len(rows) else "refused"


def table_row(call: str, *fields: str) -> str:
    if call == "new":
        return new_table(list(fields))
    asked, what = fields
    words = {word: code for code, word in enumerate(WORDS)}
    table = {"verbs": ARGUMENTS, "kinds": KINDS, "words": words, "nothing": {}}[call]
    if asked == "name_of":
        return next((quoted(name) for name, code in table.items() if code == int(what)), "none")
    return str(table.get(plain(what), "none"))


class Sets:
    """The sets that rows change: one of texts and one of other postings."""

    def __init__(self) -> None:
        self.items: dict[bool, list[Value]] = {True: [], False: []}

    def row(self, call: str, *fields: str) -> str:
        if call == "new":
            self.__init__()
            return "none"
        if call == "ascend":
            items = numbers(fields[0])
            return "yes" if items == sorted(set(items)) else "no"
        if call == "in_order":
            return self.listed({posting_of(field) for field in fields})
        return self.changed(call, fields[0])

    def listed(self, postings, names: bool = False) -> str:
        ordered = sorted(postings, key=key)
        return ", ".join(shown(each) if names else f"{each[0]} {shown(each)}" for each in ordered) or "none"

    def changed(self, call: str, field: str) -> str:
        names = field.startswith('"')
        item = ("text", plain(field)) if names else posting_of(field)
        items, below = self.items[names], [each for each in self.items[names] if key(each) < key(item)]
        said = "done"
        if call == "put" and item not in items:
            items.append(item)
        elif call == "take_out" and item in items:
            items.remove(item)
        elif call == "is_there":
            said = "yes" if item in items else "no"
        elif call == "place_of":
            said = f"{'stands' if item in items else 'belongs'} at {len(below)}"
        return f"{said}; the set: {self.listed(items, names)}"


def set_text(uids) -> str:
    return f"{len(uids)}: {joined(sorted(uids))}"


def page(uids: list[int], after: str, offset: str, first: str) -> list[int]:
    uids = [uid for uid in uids if uid > int(after.split()[1])][int(offset.split()[1]) :]
    most = first.split()[1]
    if most == "all":
        return uids
    return uids[: int(most)] if int(most) >= 0 else uids[int(most) :]


def uids_row(call: str, *fields: str) -> str:
    uids = numbers(fields[0])
    if call == "from_sorted":
        return set_text(uids) if uids == sorted(set(uids)) else "refused"
    if call == "has":
        return "yes" if int(fields[1]) in uids else "no"
    if call == "get":
        return str(uids[int(fields[1])]) if int(fields[1]) < len(uids) else "none"
    if call == "page":
        return set_text(page(uids, *fields[1:]))
    others = set(numbers(fields[1]))
    joint = {"and": set(uids) & others, "or": set(uids) | others, "without": set(uids) - others}
    return set_text(joint[call])


def answer_of(table: Callable[..., str] | None, call: str, fields: list[str]) -> str:
    """The answer of a table to a row, or `?` where it can't read the row."""
    try:
        return table(call, *fields) if table else "?"
    except (AssertionError, KeyError, TypeError, ValueError):
        return "?"


def main() -> None:
    tables = {
        "read": read_row, "cut": cut_row, "copy": copy_row, "order": order_row, "text": text_row, "list": list_row,
        "tree": tree_row, "tokens": tokens_row, "table": table_row, "set": Sets().row, "uids": uids_row,
    }  # fmt: skip
    for line in sys.stdin.read().split("\n"):
        if line and not line.startswith("#"):
            head, *fields = line.split(" | ")
            table, _, call = head.partition(" ")
            print(f"{line} => {answer_of(tables.get(table), call, fields)}")


if __name__ == "__main__":
    main()
