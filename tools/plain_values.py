"""Values, moments and postings, written plainly: what a text reads as, and how a value is shown."""

from __future__ import annotations

import json
import re
from typing import NamedTuple, Optional, Union


class Moment(NamedTuple):
    """Seconds from 1970 on in UTC, and nanoseconds."""

    seconds: int
    nanoseconds: int


Value = Union[str, int, bool, Moment]


class Posting(NamedTuple):
    """What stands in a list: a node, or a value of a kind. Nodes come first, then the ranks of kinds."""

    rank: int
    key: Union[int, bytes, Moment]

    def value(self) -> Value:
        if self.rank == TEXT:
            assert isinstance(self.key, bytes)
            return self.key.decode()
        assert not isinstance(self.key, bytes)
        return bool(self.key) if self.rank == BOOL else self.key


NODE, INT, TEXT, BOOL, TIME = range(5)
RANKS = {"int": INT, "string": TEXT, "default": TEXT, "bool": BOOL, "dateTime": TIME}
KINDS = {word: word for word in ("default", "string", "int", "bool", "dateTime", "uid")}
KINDS["datetime"] = "dateTime"

WHEN = re.compile(
    r"(\d{4})-(\d\d)-(\d\d)"
    r"(?:[Tt](\d\d):(\d\d):(\d\d)(?:\.(\d{1,9}))?(?:[Zz]|([+-])(\d\d):(\d\d))?)?",
    re.ASCII,
)


def days_before(year: int, month: int, day: int) -> int:
    """The days from 0000-01-01 to a date of the Gregorian calendar."""
    leap = year % 4 == 0 and year % 100 != 0 or year % 400 == 0
    lengths = [31, 29 if leap else 28, 31, 30, 31, 30, 31, 31, 30, 31, 30, 31]
    past = year - 1
    years = 365 * year + (past // 4 - past // 100 + past // 400 + 1 if year else 0)
    return years + sum(lengths[: month - 1]) + day - 1


def days_in(year: int, month: int) -> int:
    nexts = (year + 1, 1) if month == 12 else (year, month + 1)
    return days_before(*nexts, 1) - days_before(year, month, 1)


EPOCH = days_before(1970, 1, 1)


def read_moment(text: str) -> Optional[Moment]:
    parts = WHEN.fullmatch(text)
    if parts is None:
        return None
    year, month, day, hour, minute, second = (int(part or 0) for part in parts.groups()[:6])
    hours, minutes = int(parts[9] or 0), int(parts[10] or 0)
    if not 1 <= month <= 12 or not 1 <= day <= days_in(year, month):
        return None
    if hour > 23 or minute > 59 or second > 59 or hours > 23 or minutes > 59:
        return None
    ahead = (hours * 3600 + minutes * 60) * (-1 if parts[8] == "-" else 1)
    since = days_before(year, month, day) * 86400 + hour * 3600 + minute * 60 + second - ahead
    if not 0 <= since < days_before(10000, 1, 1) * 86400:
        return None
    return Moment(since - EPOCH * 86400, int((parts[7] or "").ljust(9, "0")))


class Civil(NamedTuple):
    """A moment by its date in UTC, and the seconds of its day."""

    year: int
    month: int
    day: int
    rest: int


def civil(moment: Moment) -> Civil:
    days, rest = divmod(moment.seconds + EPOCH * 86400, 86400)
    year = next(y for y in range(days // 366, 10000) if days < days_before(y + 1, 1, 1))
    month = next(m for m in range(12, 0, -1) if days_before(year, m, 1) <= days)
    return Civil(year, month, days - days_before(year, month, 1) + 1, rest)


def moment_text(moment: Moment) -> str:
    year, month, day, rest = civil(moment)
    fraction = f".{moment.nanoseconds:09}".rstrip("0") if moment.nanoseconds else ""
    clock = f"{rest // 3600:02}:{rest // 60 % 60:02}:{rest % 60:02}"
    return f"{year:04}-{month:02}-{day:02}T{clock}{fraction}Z"


def number_of(text: str) -> Optional[int]:
    """The number of 64 bits that digits say, with a sign or none; Python itself doesn't read very many digits."""
    sign, digits = text[: len(text) - len(text.lstrip("+-"))], text.lstrip("+-").lstrip("0")
    number = int(sign + (digits or "0")) if len(digits) < 20 else 2**63
    return number if -(2**63) <= number < 2**63 else None


def read_posting(kind: str, text: str) -> Optional[Posting]:
    """What a text reads as, where it reads as a value of the kind."""
    key: Union[int, bytes, Moment, None] = None
    if kind in ("string", "default"):
        key = text.encode()
    elif kind == "int" and re.fullmatch(r"[-+]?[0-9]+", text):
        key = number_of(text)
    elif kind == "bool":
        key = {"false": 0, "true": 1}.get(text)
    elif kind == "dateTime":
        key = read_moment(text)
    return None if key is None else Posting(RANKS[kind], key)


def json_text(posting: Posting) -> str:
    """A value as an answer shows it."""
    value = posting.value()
    return json.dumps(moment_text(value) if isinstance(value, Moment) else value, ensure_ascii=False)
