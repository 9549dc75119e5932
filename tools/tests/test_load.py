"""`\\load` reads statements of any number, and hands them to the program in transactions."""

from __future__ import annotations

import io
import signal
import subprocess
import sys
import unittest
from collections.abc import Sequence
from contextlib import redirect_stderr
from pathlib import Path
from typing import Union
from unittest import mock

from dgraph_shell.faults import Unexpected
from dgraph_shell.loading import EACH, MOST, Meter, parts_of
from dgraph_shell.program import Program
from dgraph_shell.shell import Shell, asked_of
from dgraph_shell.show import Paint, View
from dgraph_shell.statements import Statement, statements_of
from tests.helpers import SECONDS, Conversation, InFolder, Terminal, built_program

SCHEMA = "alter name: string . age: int . friend: [uid] ."

# A program that answers at once, but to a mutate once there is a file `go`.
SLOW = """#!{python} -IS
import os, sys, time
while line := sys.stdin.buffer.readline():
    words = line.decode().split()
    if words[0] == "mutate":
        sys.stdin.buffer.read(int(words[2]) + 1)
        open("ready", "w").close()
        for _ in range(3000):
            if os.path.exists("go"):
                break
            time.sleep(0.01)
        sys.stdout.write('ok mutate ' + words[1] + ' 11\\n{{"uids":{{}}}}\\n')
    else:
        sys.stdout.write(" ".join(["ok", *words[:2], "9"][:4 if words[0] != "discard" else 3]) + "\\n")
    sys.stdout.flush()
"""


def people(count: int) -> str:
    """Three statements for each of so many people, who know the one before them."""
    lines = ["# people"]
    for number in range(count):
        lines.append(f'_:p{number} <name> "Number {number}" .  _:p{number} <age> "{number % 90}"^^<xs:int> .')
        lines += [f"_:p{number} <friend>  # the one before", f"    _:p{max(number - 1, 0)} .", ""]
    return "\n".join(lines)


class Loads(InFolder):
    """Statements are loaded."""

    def shown(
        self, lines: Sequence[Union[str, BaseException]], program: Path, asks: bool = False
    ) -> tuple[str, str]:
        """What is shown for typed lines, and what is said on standard error."""
        typed = iter(lines)

        def read(_: str) -> str:
            line = next(typed, EOFError())
            if isinstance(line, BaseException):
                raise line
            return line

        errors, view = io.StringIO(), View(io.StringIO(), Paint(False))
        with Program(program) as child, redirect_stderr(errors):
            self.assertFalse(Shell(child, read, view, asks).serve())
            self.assertEqual(child.end().status, 0)
        return view.out.getvalue(), errors.getvalue()

    def some_thousands(self, program: Path) -> None:
        """Some thousand statements are in, and each name stands for one node in all transactions."""
        path = self.file("people.nq", people(1500) + '\n_:p0 <name> "The first" .\n')
        last = "{ q(func: uid(0x5dc)) { name } }"
        first = "{ q(func: uid(0x1)) { name } }"
        lines = [SCHEMA, f"\\load {path} --each 700", "begin 1", f"query 1 {first}", f"query 1 {last}"]
        shown, said = self.shown(lines, program)
        size = path.stat().st_size
        self.assertIn(f"{path}: {size:,} bytes, by session 16 in transactions of 700 statements\n", shown)
        loaded = f"{path}: 4,501 statements in 7 transactions, 1,500 new nodes\n    _:p0 is <0x1>, _:p1 is <0x2>, "
        self.assertIn(loaded, shown)
        self.assertIn(", _:p7 is <0x8>, and 1,492 more\n", shown)
        self.assertIn('"name": "The first"', shown)
        self.assertIn('"name": "Number 1499"', shown)
        self.assertRegex(said, r"\A(?:[0-9,]+ statements, [0-9]+%, [0-9,]+ a second\n){7}"
                               r"4,501 statements in [0-9.]+ s, [0-9,]+ a second\n\Z")

    def test_some_thousand_statements(self) -> None:
        self.some_thousands(self.plain_program())

    def test_some_thousand_statements_in_the_program(self) -> None:
        self.some_thousands(built_program())

    def test_a_refused_statement_is_shown_and_passed_over_on_request(self) -> None:
        text = ['_:a <name> "A" .', '_:a <nick> "a" .', "_:a <name> _:b .", '_:b <age> "old" .', '_:b <name> "B" ! .',
                "<0x0> <name> .", '_:b <name> "B" .', '_:b <name> "\udcff" .']
        path = self.file("some.nq", "\n".join(text).encode("utf-8", "surrogateescape"))
        shown, _ = self.shown([SCHEMA, f"\\load {path} --skip"], self.plain_program())
        for line, parts in {
            2: ("error 13 NoPredicate nick", '    | _:a <nick> "a" .', "no predicate nick is", "next: mind its"),
            3: ("error 14 WrongObject name", "the object doesn't fit name"),
            4: ("error 10 BadLiteral age", '    | _:b <age> "old" .', "a value doesn't read as what age takes"),
            5: ("error 3 BadToken 15", "column 16 of the statement: no word", '    | _:b <name> "B" ! .\n',
                "|" + " " * 16 + "^"),
            6: ("error 4 BadSyntax 0", "column 1 of the statement: nothing can begin", "    | <0x0> <name> ."),
            8: ("error 3 BadToken 12", "column 13 of the statement: the body isn't UTF-8 here", "    | _:b <name> "),
        }.items():
            at = shown.index(f"{path}:{line}: {parts[0]}")
            for part in parts:
                self.assertIn(part, shown[at : at + 400], shown)
        self.assertIn(f"{path}: 2 statements in 1 transaction, 2 new nodes, 6 refused\n", shown)
        self.assertIn("\n    _:a is <0x1>, _:b is <0x2>\n", shown)

    def test_without_the_request_it_stops_and_discards(self) -> None:
        text = ['_:a <name> "A" .'] * 5 + ['_:a <nick> "a" .'] + ['_:a <name> "B" .']
        path = self.file("some.nq", "\n".join(text))
        query = "query 1 { q(func: uid(0x1)) { name } }"
        shown, _ = self.shown([SCHEMA, f"\\load {path} --each 4", "begin 1", query, "begin 16"], self.plain_program())
        self.assertIn(f"{path}:6: error 13 NoPredicate nick\n", shown)
        self.assertIn(f"{path}:6: stopped: a statement was refused; --skip goes on behind it\n", shown)
        self.assertIn(f"{path}: 4 statements in 1 transaction, 1 new node, 1 refused\n", shown)
        self.assertIn('"name": "A"', shown)
        self.assertIn("ok begin 16 ", shown)

    def test_who_is_there_is_asked(self) -> None:
        bad, good = '<0x1> <nick> "a" .', '<0x1> <name> "B" .'
        path = self.file("some.nq", "\n".join([bad, bad, good, bad, bad]))
        for answers, end in (
            (["n"], "0 statements in 0 transactions, 1 refused"),
            (["y", "y", "y", "n"], "0 statements in 0 transactions, 4 refused"),
            (["y", "a"], "1 statement in 1 transaction, 4 refused"),
            (["", "quit"], "0 statements in 0 transactions, 1 refused"),
        ):
            shown, _ = self.shown([SCHEMA, f"\\load {path}", *answers, "quit", "y"], self.plain_program(), asks=True)
            self.assertIn(f"{path}: {end}\n", shown)

    def test_what_isnt_loaded(self) -> None:
        groups = self.file("groups.nq", '{ set { <0x1> <name> "A" . } }')
        odd = self.file("odd name.nq", '<0x1> <name> "A" .')
        lines = [SCHEMA, f"\\load {groups}", "\\load none.nq", "\\load", f"\\load {odd}", f'\\load "{odd}" --each 1']
        shown, _ = self.shown([*lines, *(f"begin {session}" for session in range(1, 17)), f"\\load '{odd}'"],
                              self.plain_program())
        self.assertIn(f"{groups}:1: stopped: it has groups", shown)
        self.assertIn("none.nq: No such file or directory\n", shown)
        self.assertIn(r"found '\\load'", shown)
        self.assertIn("expected `\\load FILE` (in quotes where it has blanks), and then perhaps `--each N`", shown)
        self.assertIn(f"{odd}: 1 statement in 1 transaction\n", shown)
        self.assertIn("expected a session without an open transaction; found none", shown)

    def test_a_load_is_a_comment_of_what_is_saved(self) -> None:
        path, saved = self.file("some.nq", '<0x1> <name> "A" .'), self.folder / "typed.dgs"
        shown, _ = self.shown([SCHEMA, f"\\load {path}", f"\\save {saved}"], self.plain_program())
        self.assertIn(f"1 request is in {saved}\nwhat \\load read isn't; it is a comment there\n", shown)
        self.assertIn(f"# \\load {path}: 1 statement in 1 transaction; they aren't in this file\n",
                      saved.read_text(encoding="utf-8"))

    def test_an_interrupt_stops_it_and_the_program_goes_on(self) -> None:
        path = self.file("people.nq", people(20))
        program = self.executable(SLOW.format(python=sys.executable))
        shell = self.started("shell", "--program", program, stdin=subprocess.PIPE, stdout=subprocess.PIPE,
                             stderr=subprocess.STDOUT)
        assert shell.stdin and shell.stdout
        shown = Conversation(shell.stdout.fileno())
        shell.stdin.write(f"\\load {path} --each 30\n")
        shell.stdin.flush()
        self.wait_for("ready")
        shell.send_signal(signal.SIGINT)
        shown.until(":2: stopped: interrupted; the program goes on with the request that runs, and then discards\n")
        shown.until("people.nq: 0 statements in 0 transactions\n")
        self.file("go", "")
        shell.stdin.write("begin 16\n")
        shell.stdin.flush()
        self.assertEqual(shown.until("ok begin 16 9\n"), "ok begin 16 9\n")
        shell.stdin.close()
        self.assertEqual(shell.wait(SECONDS), 0)
        shell.stdout.close()

    def test_it_stops_before_the_program_would_end(self) -> None:
        path = self.file("large.nq", b'<0x1> <name> "A" .\n' * 65)
        with mock.patch("dgraph_shell.program.MAX_INPUT", 1000):
            shown, _ = self.shown([SCHEMA, f"\\load {path} --each 10"], self.plain_program())
        self.assertIn("the program takes 949 bytes more in this run, and so not all of it\n", shown)
        self.assertIn(f"{path}:31: stopped: the program takes no more in this run", shown)
        self.assertIn(f"{path}: 30 statements in 3 transactions\n", shown)

    def test_a_statement_that_no_body_holds(self) -> None:
        path = self.file("large.nq", b'<0x1> <name> "%s" .\n<0x1> <name> "b" .\n' % (b"a" * 1_048_570))
        shown, _ = self.shown([SCHEMA, f"\\load {path} --skip"], self.plain_program())
        said = "not sent: a request holds 1,048,576 bytes at most"
        self.assertIn(f'{path}:1: {said}\n    | <0x1> <name> "aaa', shown)
        self.assertIn(f"{path}: 1 statement in 1 transaction, 1 refused\n", shown)


class Words(unittest.TestCase):
    """The words behind `\\load`."""

    def test_what_is_asked(self) -> None:
        self.assertEqual(asked_of("a.nq"), (Path("a.nq"), EACH, False))
        self.assertEqual(asked_of("--skip 'a b.nq' --each 20"), (Path("a b.nq"), 20, True))

    def test_what_isnt_understood(self) -> None:
        for words in ("", "a b", "--skip", "a --each", "a --each 0", "a --each -1", "a --each x", "--all", "'a"):
            with self.assertRaises(Unexpected, msg=words):
                asked_of(words)


class Statements(unittest.TestCase):
    """Statements are found in lines."""

    def found(self, text: str) -> list[tuple[int, str]]:
        """The statements of a text, each with its line."""
        lines = text.encode().splitlines(keepends=True)
        return [(one.line, one.text({}).decode()) for one in statements_of(lines)]

    def test_statements_and_their_lines(self) -> None:
        self.assertEqual(self.found(""), [])
        self.assertEqual(self.found("# a\n\n  \n"), [])
        self.assertEqual(self.found('<0x1> <a.b> "x . y" . _:b c.d <0x2>.'),
                         [(1, '<0x1> <a.b> "x . y" .'), (1, "_:b c.d <0x2>.")])
        self.assertEqual(self.found('\n<0x1>\n  name # it\'s "here"\n\n\t"A"^^<xs:string>\n.\n'),
                         [(2, '<0x1> name "A"^^<xs:string> .')])
        self.assertEqual(self.found('<0x1> a "x#y\\" ." . # . z'), [(1, '<0x1> a "x#y\\" ." .')])
        self.assertEqual(self.found("<0x1> a <http://x/y#z> .\r\n<0x1> b 12 .\r\n"),
                         [(1, "<0x1> a <http://x/y#z> ."), (2, "<0x1> b 12 .")])

    def test_a_fault_ends_with_its_line(self) -> None:
        self.assertEqual(self.found('<0x1> a "x .\n<0x1> b "y" .'), [(1, '<0x1> a "x .'), (2, '<0x1> b "y" .')])
        self.assertEqual(self.found('<0x1>\na ! "x" .\n<0x1> b "y" .'), [(1, '<0x1> a ! "x" .'), (3, '<0x1> b "y" .')])

    def test_what_has_no_end(self) -> None:
        self.assertEqual(self.found("<0x1> a  \n"), [(1, "<0x1> a")])
        self.assertEqual(self.found("<0x1> a"), [(1, "<0x1> a")])

    def test_known_names_are_numbers(self) -> None:
        [statement] = statements_of([b'_:a <_:a> "_:a" _:ab . # _:a\n'])
        known = {b"_:a": b"<0x1>"}
        self.assertEqual(statement.text(known), b'<0x1> <_:a> "_:a" _:ab .')
        places = [statement.offset(known, offset) for offset in (0, 4, 5, 6, 24, 25)]
        self.assertEqual(places, [0, 0, 3, 4, 22, 23])

    def test_parts_fit_in_bodies(self) -> None:
        statements = [Statement(1, (b"a" * size,)) for size in (MOST - 1, 1, MOST, 5, MOST + 7, 1)]
        self.assertEqual([len(part) for part in parts_of(statements, {})], [1, 1, 1, 1, 1, 1])
        self.assertEqual([len(part) for part in parts_of([Statement(1, (b"a",))] * 5, {})], [5])


class Meters(unittest.TestCase):
    """Progress and rate."""

    def test_in_place_on_a_terminal(self) -> None:
        meter = Meter(100, Terminal())
        meter.tell(50, 7)
        meter.tell(60, 8)
        meter.end(1)
        self.assertRegex(meter.out.getvalue(), r"\A\r\x1b\[K7 statements, 50%, [0-9,]+ a second\r\x1b\[K"
                                               r"1 statement in [0-9.]+ s, [0-9,]+ a second\n\Z")

    def test_ten_times_elsewhere(self) -> None:
        meter = Meter(100, io.StringIO())
        for read in range(1, 101):
            meter.tell(read, read)
        self.assertEqual(meter.out.getvalue().count("\n"), 10)
