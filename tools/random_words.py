"""What random scripts are about: predicates, nodes, and texts of values."""

from __future__ import annotations

from itertools import permutations

# The type of each predicate that every script declares first.
TYPED = {
    "name": "string",
    "note": "default",
    "age": "int",
    "ok": "bool",
    "born": "dateTime",
    "boss": "uid",
    "friend": "[uid]",
    "tags": "[string]",
    "nums": "[int]",
    "flags": "[bool]",
    "days": "[datetime]",
}
PREDICATES = list(TYPED)
LISTS = [name for name, kind in TYPED.items() if kind[0] == "["]
# Predicates of which an index can be declared.
INDEXED = [name for name in PREDICATES if name not in ("note", "boss", "friend")]
EDGES = ["boss", "friend"]
NODES = [1, 2, 3, 4, 5, 9, 0xFF, 0xABC]
TEXTS = ["Ann", "Bob", "", "a\\nb", 'q\\"x', "\\u00e9", "\\U0001F600", "tab\\t", "\\u0001", "\\/", "é", "\\b\\f\\r"]
# Texts that share terms and runs of three characters, here and there by a folding alone.
TEXTS += ["red car", "Red bus", "car, RED!", "a red  fox", "red", "bus", "carbus", "_red_", "fox\\nred", "5½ Ⅷ"]
TEXTS += ["5½ ⅷ", "Straße", "STRASSE", "straẞe", "ΣΑΣ", "σας", "Ⓐ", "ⓐ", "カフェ"]
TEXTS += ["cafe\\u0301", "CAFE\u0301", "İx", "ix", "कि तक", "日本語", "本"]
TEXTS += [" ".join(words) for words in permutations(["red", "Car", "bus", "fox", "ROT"], 2)]
NUMBERS = ["12", "-3", "+7", "007", "1", "0", "-0", "9223372036854775807", "-9223372036854775808"]
MOMENTS = [
    *("2020-02-29", "1993-05-19", "0000-01-01", "1993-05-19T10:20:30Z", "1993-05-19t10:20:30.50+01:30"),
    *("1993-05-19T08:50:30.5z", "9999-12-31T23:59:59.999999999Z", "1900-03-01T00:00:00", "1993-05-01"),
    *("1993-12-31", "1992-12-31T23:30:00-01:00", "1969-12-31T23:59:59.5Z", "1969-12-31", "2020-02-01T08:50:00Z"),
]
MOMENTS += [f"1993-05-{day}T{hour}:30:00" for day in (18, 19, 20) for hour in ("08", "09", "23")]
NO_VALUES = [
    *("9223372036854775808", "True", "2021-02-29", "1900-02-29", "2020-13-01", "2020-01-01T24:00:00"),
    *("2020-01-01T00:00:60Z", "0000-01-01T00:00:00+00:01", "9999-12-31T23:59:59-00:01", "\\q", "\\ud800", "x\\"),
]
VALUES = {"age": NUMBERS, "nums": NUMBERS, "ok": ["true", "false"], "flags": ["true", "false"]}
VALUES |= {"born": MOMENTS, "days": MOMENTS, "name": TEXTS, "note": TEXTS, "tags": TEXTS}
# What queries ask of texts, and what no pattern is.
PATTERNS = ["red", "^R", "d$", "r.d", "[a-c]a", "[^a-z ]", "ca?r", "o*x", "é", "ß"]
PATTERNS += ["カ", r"\/", "^$", "[A-C]+", "s", "k", "5½ ?Ⅷ", "."]
BAD_PATTERNS = ["(", ")", "[a", "*a", "a)", r"a\1", "a(b"]
