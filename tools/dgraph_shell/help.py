"""What the shell says of itself and of requests."""

from __future__ import annotations

from .meanings import DIRECTIVES, FORMS, QUERIES, UPSERTS
from .scripts import INDENT
from .verbs import BUILT, UNBUILT, Verb

WELCOME = (
    "The data live in the memory of `dgraph run` alone, and are gone when this shell ends.",
    "help says what can be typed, quit ends; \\save FILE keeps what was typed, as a script that `run` takes.",
)
HELP = """\
Type a request: a verb and its arguments, in letters of any case. A body stands behind them, or in the lines below, with
a blank line at its end. Ctrl-C forgets what is being typed; while a request runs it gives the prompt back, and the
program goes on with the request.

{requests}

SID is a session from 1 to 16. Verbs that are read and answered 98 so far: {unbuilt}.

    \\help VERB   shows the form of a verb's body, with an example
    \\load FILE [--each N] [--skip]
                 reads the statements of FILE (N-Quads), in transactions of N statements; after a statement that is
                 refused it goes on with --skip, or where you say so
    \\save FILE   keeps the requests that were typed as a script
    \\table       shows answers as tables, or no longer
    \\time        shows how long each reply took, or no longer
    \\wait        waits for replies that are still to come, after a Ctrl-C
    \\quit        ends, as quit, exit, \\q and the end of the input (Ctrl-D) do; it asks where work would be lost"""

PURPOSES = {
    "alter": "declares predicates, with a body of definitions",
    "begin": "opens a transaction in the session SID",
    "mutate": "sets and deletes triples, with a body of statements",
    "query": "asks by functions and filters, with a body of blocks",
    "upsert": "queries, and sets and deletes by what was found, with an upsert block as its body",
    "commit": "makes the transaction's changes seen, and ends it",
    "discard": "forgets them, and ends it",
}
EXAMPLES = {
    "alter": [
        "name: string @index(exact, term) .",
        "age: int .",
        "friend: [uid] @reverse @count .     # a list: any number of them",
    ],
    "mutate": [
        '<0x1> <name> "Ann" .',
        '_:bob <name> "Bob" .        # a new node; the reply has its number',
        "<0x1> <friend> _:bob .",
    ],
    "query": [
        "{",
        "    one(func: uid(0x1)) { name }",
        '    some(func: anyofterms(name, "ann bob")) @filter(has(~friend) and not lt(age, 18)) { uid n: name }',
        "}",
    ],
    "upsert": [
        "upsert {",
        '    query { v as q(func: eq(name, "Cid")) { uid } var(func: has(age)) { x as age } }',
        "    mutation @if(eq(len(v), 0)) {",
        '        set { uid(v) <name> "Cid" . <0x1> <friend> uid(v) . }',
        "    }",
        "    mutation @if(not lt(len(v), 1) and gt(len(x), 0)) {",
        "        set { uid(x) <friend> uid(v) . }",
        "        delete { uid(v) <age> val(x) . }",
        "    }",
        "}",
    ],
}
# What the body of a verb consists of, or what it may have.
PARTS = {"alter": "definition", "mutate": "statement"}
WHOLES = {"query": QUERIES, "upsert": UPSERTS}
MORE = {
    "alter": [DIRECTIVES],
    "mutate": ["deletes stand in a group:", INDENT + '{ set { <0x1> <name> "Anna" . } delete { <0x1> <friend> * . } }'],
    "query": [
        "functions are uid, has, eq, le, lt, ge, gt, between, anyofterms, allofterms, regexp and, in a filter, uid_in;",
        "all but uid and has need an index at a block's head, count(..) needs @count, and ~ needs @reverse;",
        "an edge has braces of its own: `friend { name friend { name } }`, with arguments and @filter before them;",
        "@cascade drops nodes that lack a field, also below; @normalize makes flat objects of the fields with an alias",
    ],
    "upsert": [
        "a condition has eq, le, lt, ge, gt of `len(v)`, the number of v's nodes, and a number, with and, or, not and brackets;",
        "it is looked at before anything is changed, and without one the mutation is always taken;",
        "in a delete, a statement of a variable without a node stands for none, and so does one of `val(x)` without a value;",
        "the new node of a variable v is named `uid(v)` in the reply, and is one in the whole request;",
        "the predicate needs an index and @upsert, for two sessions that find no node of a value not to make one each",
    ],
}


def help_lines() -> list[str]:
    """What can be typed."""
    width = max(len(verb.line) for verb in BUILT)
    requests = "\n".join(f"{INDENT}{verb.line:<{width}}  {PURPOSES[verb.name]}" for verb in BUILT)
    return HELP.format(requests=requests, unbuilt=", ".join(verb.name for verb in UNBUILT)).split("\n")


def help_on(verb: Verb) -> list[str]:
    """How a request with that verb is typed."""
    if not verb.is_built:
        return [verb.usage, f"{INDENT}it is read, and answered 98: the program can't do it yet"]
    lines = [verb.usage, f"{INDENT}{PURPOSES[verb.name]}"]
    if verb.name in FORMS:
        form = f"a {PARTS[verb.name]} is {FORMS[verb.name]}" if verb.name in PARTS else WHOLES[verb.name]
        lines.append(f"{INDENT}{form}")
        lines.append(f"{INDENT}as in")
        lines.extend(INDENT * 2 + line for line in EXAMPLES[verb.name])
    lines.extend(INDENT + line for line in MORE.get(verb.name, []))
    return lines
