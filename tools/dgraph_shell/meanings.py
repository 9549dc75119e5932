"""What each refusal means, what to do next, and the forms of requests that are built."""

from __future__ import annotations

import re
from typing import NamedTuple, Optional

from .replies import Refusal
from .spots import spot_of
from .verbs import BUILT, Request


class Meaning(NamedTuple):
    """What the number of a refusal says, and what to do next. `{0}`, `{1}` and so on are the fields of the reply in
    their order, and `{SID}` is the session of the request."""

    says: str
    next: str


MEANINGS = {
    1: Meaning("session {0} has no open transaction", "`begin {0}` opens one"),
    2: Meaning(
        "session {0} has an open transaction already",
        "`commit {0}` or `discard {0}` ends it; there are sixteen sessions",
    ),
    3: Meaning(
        "no word, number, text or sign of the language begins here",
        'close each text with `"`, and write `"` and `\\` within it as `\\"` and `\\\\`',
    ),
    4: Meaning("this doesn't go on with what stands before it", "write it as in {FORM}"),
    5: Meaning("with this bracket, more than 32 are open at once", "ask in several queries"),
    6: Meaning("no variable {0} is defined, of the sort that is needed", "define it in a block by `{0} as`"),
    7: Meaning("the variable {0} is defined twice", "give one of the two another name"),
    8: Meaning("the block that defines the variable {0} depends on itself", "ask for one of the blocks alone"),
    9: Meaning(
        "{0} isn't declared with what `{1}` needs: an index, @reverse for `~`, @count for `count`",
        "declare it so by an `alter`",
    ),
    10: Meaning(
        "a value doesn't read as what {0} takes",
        "write an int as -3, of 64 bits at most; a bool as true or false; a dateTime as 1993-05-19 or "
        "1993-05-19T10:20:30Z; a string or default is any text",
    ),
    11: Meaning(
        "`{0}` can't stand here: it stands twice, is negative, or is ruled out by another argument", "leave it out"
    ),
    12: Meaning("the depth of a recursion is 1 to 32, not {0}", "give a depth within these"),
    13: Meaning(
        "no predicate {0} is declared",
        "mind its spelling, or end the open transactions and declare it by `alter` with `{0}: string .`, say",
    ),
    14: Meaning(
        "the object doesn't fit {0}: a value where it takes nodes, or a node where it takes values",
        'write a value between quotes, as "Ann", and a node as <0x2> or, if it is new, as _:ann',
    ),
    15: Meaning(
        "a node's number is beyond the largest, or none is left; the next to be given is {0}",
        "name nodes by numbers below 0x4000000000000000",
    ),
    16: Meaning("the sum of {0} is no signed number of 64 bits", "sum up fewer of them"),
    17: Meaning("the answer has more than 16,777,216 bytes", "ask for less at once"),
    18: Meaning(
        "{0} is held, to be moved to another group; a commit that is refused so ends its transaction",
        "try again from `begin {SID}` on, once `moveflip {0}` or `moveoff {0}` has ended the move",
    ),
    19: Meaning(
        "since this transaction began, the commit at timestamp {0} wrote `{1}` too, so this one has ended",
        "try again from `begin {SID}` on: it sees what that commit wrote",
    ),
    20: Meaning("a transaction is open, which began at timestamp {0}", "commit or discard all that are open first"),
    22: Meaning(
        "{0} has values already, so its kind, and whether it is a list, can't be changed",
        "declare another predicate, or delete the values first",
    ),
    23: Meaning("there are fewer groups than {0}", "name one that there is"),
    24: Meaning("group {0} has the predicate already", "name another group"),
    25: Meaning("{0} is being moved already", "end that move first: `moveoff {0}` calls it off"),
    26: Meaning(
        "the move of {0} is in the phase `{1}`, where this step can't be taken",
        "take the steps in this order: movestart, movecopy, movehold, moveflip",
    ),
    27: Meaning("no definition can be read here", "write {FORM}, each name once"),
    28: Meaning("no timestamps are left; the next would be {0}", "start the program anew"),
    29: Meaning("the lists were merged since, up to timestamp {0}", "make the kept lists anew by `rollplan`"),
    30: Meaning("group {1} has no copy of {0}", "make the kept lists anew by `rollplan {0}`"),
    31: Meaning("no merged lists are kept aside for {0}", "`rollplan {0}` makes them"),
    32: Meaning(
        "group {1} keeps an old copy of {0} until the line stands at timestamp {2}",
        "end the transactions that began before it, and then `line`",
    ),
    98: Meaning("the program can't do this yet", "{FORM}"),
    99: Meaning("there was not enough memory, and nothing was changed", "ask again once there is more"),
}

TYPES = "xs:string, xs:int, xs:integer, xs:boolean, xs:dateTime or xs:date"
# The same number where the byte that it names is no text, and where nothing stands before what is refused.
NO_TEXT = Meaning("the body isn't UTF-8 here", "write the text as UTF-8")
NO_START = Meaning("nothing can begin with this", "write it as in {FORM}")
CLOSE = 'close the text with `"` on its line; within it stand `\\"`, `\\\\` and `\\n` for `"`, `\\` and a line feed'
# What to do next by what stands at the spot, the first that fits.
TIPS = {
    "BadToken": [
        (r'"', CLOSE),
        (r"'", 'write texts between `"`'),
        (r"<", "between `<` and `>` stand no blanks and none of `\"{}|^`"),
        (r"[A-Za-z_@]", "shorten it: a name has 64 letters, digits, `_` and dots at most"),
        (r"", 'leave it out, or write it within a text between `"`'),
    ],
    "BadSyntax": [
        (r"\*", "`*` stands for all objects, and in a delete alone"),
        (r"<(?:xs:|http://www\.w3\.org/2001/XMLSchema#)", f"a text's type is {TYPES}"),
        (r"<0[xX][0-9A-Fa-f]*>", "a node is `<0x1>` to `<0x3fffffffffffffff>`, and no predicate"),
        (r"_:", "`_:name` is a new node: a subject or an object, and not in a delete"),
        (r"<[^>]*[:/]", "a node is `<0x1>` or `_:name`, and a predicate is a name as in `alter`, and no other IRI"),
        (r"@", "leave it out: texts have no languages yet"),
        (r"-?[0-9]", 'write a number between quotes, as `"3"`, and a node as `<0x1>`'),
    ],
}
NO_LITERAL = Meaning(
    "a literal that {0} is compared with is none of its kind, or a pattern is none, or a sum is of what are no numbers",
    "compare an int with 3, a bool with true, a dateTime with \"1993-05-19\", a count with a number; in a pattern `\\` "
    "stands before a sign that means itself, as in `/\\(/`",
)
NO_VALUE = Meaning(
    "a literal that {0} is compared with is none of its kind, or a value that is set or deleted doesn't read as what {0} takes",
    "write an int as 3, a bool as true, a dateTime as \"1993-05-19\", and in a statement all of them between quotes; `val(x)` has to read "
    "as what its predicate takes",
)
# What a key is, behind its text, where it is of no object that was set or deleted.
KEYS = {
    "index": "a token of values of both",
    "count": "how many objects a node has",
    "rcount": "how many nodes point to a node",
}
ENDS_EARLY = "the body ends here, where it has to go on"

KINDS = "string, int, bool, dateTime, uid or default"
DEFINITION = f"`NAME: KIND .` or, for a list, `NAME: [KIND] .`, where KIND is {KINDS}"
DIRECTIVES = (
    "behind the kind may stand @index(..), @reverse for uid, @count, and @upsert beside an index, each once; an index "
    "has tokenizers of its kind: exact, hash, term or trigram for string, int for int, bool for bool, year, month, day "
    "or hour for dateTime"
)
STATEMENT = '`<0x1> <name> "Ann" .` (a value), `<0x1> <friend> <0x2> .` (a node) or `_:ann <name> "Ann" .` (a new node)'
QUERY = "`{ q(func: uid(0x1)) { name } }`"
UPSERT = '`upsert { query { q(func: eq(name, "Ann")) { v as uid } } mutation @if(eq(len(v), 0)) { set { uid(v) <name> "Ann" . } } }`'
# The body of each verb that is built and has one.
FORMS = {"alter": DEFINITION, "mutate": STATEMENT, "query": QUERY, "upsert": UPSERT}
# What a query may have.
QUERIES = (
    "a query is as in `{ q(func: eq(name, \"Ann\"), first: 5) @filter(has(age)) { name friend { name } } }`: functions, filters, edges, "
    "counts, orders, pages, variables, aggregates, @cascade, @normalize and @recurse"
)
# What an upsert block may have.
UPSERTS = (
    "an upsert block is a query and mutations, which name its variables: `uid(v)` is each node of v, or one new node where it has none, "
    "and `val(x)` the value of x at the subject"
)
# What is built where a request is answered 98.
BUILT_VERBS = f"built are {', '.join(verb.line for verb in BUILT)}"


def says(refusal: Refusal, request: Optional[Request] = None) -> str:
    """What a refusal means; empty where that isn't known."""
    return filled(meaning_of(refusal, request).says, refusal, request)


def what_next(refusal: Refusal, request: Request) -> str:
    """What to do next; empty where that isn't known."""
    return filled(meaning_of(refusal, request).next, refusal, request)


def meaning_of(refusal: Refusal, request: Optional[Request]) -> Meaning:
    """The texts for a refusal, not yet filled."""
    meaning = MEANINGS.get(refusal.number, Meaning("", ""))
    note = KEYS.get(refusal.fields.partition(" ")[2].partition(" ")[0])
    if refusal.name == "Conflict" and note:
        meaning = meaning._replace(says=meaning.says.replace("` too,", f"` too ({note}),"))
    spot = spot_of(refusal, request.body) if request else None
    if refusal.name == "SchemaSyntax" and spot and "@" in spot.text:
        meaning = meaning._replace(next=DIRECTIVES)
    if refusal.name == "BadLiteral" and request is not None and request.verb.name in ("query", "upsert"):
        return NO_LITERAL if request.verb.name == "query" else NO_VALUE
    if refusal.name not in TIPS or request is None or request.body is None or spot is None:
        return meaning
    front, rest = request.body[: int(refusal.fields)], request.body[int(refusal.fields) :]
    if refusal.name == "BadToken" and is_broken(rest):
        return NO_TEXT
    if refusal.name == "BadSyntax" and not front.strip():
        meaning = NO_START
    tip = tip_for(refusal.name, rest.decode("utf-8", "replace")) if request.verb.name == "mutate" else ""
    return meaning._replace(next=tip) if tip else meaning


def is_broken(rest: bytes) -> bool:
    """Whether the first character isn't UTF-8."""
    try:
        rest[:4].decode()
    except UnicodeDecodeError as error:
        # A character may go on behind the fourth byte.
        return error.start == 0
    return False


def tip_for(name: str, rest: str) -> str:
    """What to do next about what stands at a spot; empty where no tip fits, and at the end of the body."""
    return next((tip for form, tip in TIPS[name] if rest and re.match(form, rest)), "")


def filled(text: str, refusal: Refusal, request: Optional[Request]) -> str:
    """The text with the fields of a refusal in their places; empty where a field that it needs isn't there."""
    count = len(set(re.findall(r"\{[0-9]\}", MEANINGS[refusal.number].says))) if refusal.number in MEANINGS else 0
    # The last field has whatever is left: the key of a conflict may have blanks.
    fields = refusal.fields.split(" ", count - 1) if count and refusal.fields else []
    if len(fields) != count:
        return ""
    values = {f"{{{place}}}": field for place, field in enumerate(fields)}
    if request:
        values |= {"{SID}": str(request.session), "{FORM}": form_for(refusal, request)}
    return re.sub(r"\{(?:[0-9]|SID|FORM)\}", lambda found: values.get(found[0], found[0]), text)


def form_for(refusal: Refusal, request: Request) -> str:
    """What is built, for a request that was refused."""
    return BUILT_VERBS if refusal.name == "Unbuilt" else FORMS.get(request.verb.name, QUERY)
