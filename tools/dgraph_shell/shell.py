"""The shell: a session at the terminal over a running program."""

from __future__ import annotations

import argparse
import os
import shlex
import sys
from collections.abc import Callable
from pathlib import Path
from typing import NamedTuple

from .faults import INTERRUPTED, NO_FILE, NO_REPLY, Trouble, Unexpected, complain
from .help import WELCOME, help_lines, help_on
from .loading import EACH, Hands, Load, Meter, size_of
from .program import Program, status_after
from .replies import Reply
from .scripts import BLANKS, INDENT, body_of, check_characters, is_blank
from .show import Paint, View, plural, wants_colour
from .verbs import VERBS, Request, Verb, parse_head, verb_named
from .work import Work

try:
    import readline  # noqa: F401  (gives `input` line editing and history)
except ImportError:
    pass

PROMPT = "dgraph> "
MORE = "   ...> "
# Other words for what the shell itself does.
ALIASES = {"help": "\\help", "?": "\\help", "\\?": "\\help", "\\h": "\\help"}
ALIASES |= dict.fromkeys(("quit", "exit", "\\q", "\\exit"), "\\quit")
COMMANDS = "\\help, \\load FILE, \\save FILE, \\table, \\time, \\wait or \\quit"


class Ended(Exception):
    """The program has ended by itself."""


class Asked(NamedTuple):
    """What `\\load` is asked for: a file, how many statements a transaction has, and whether it goes on after one that
    is refused."""

    path: Path
    each: int
    skips: bool


class Shell:
    """Reads requests, and shows each reply as it comes. Where `asks`, somebody is there to be asked."""

    def __init__(self, program: Program, read: Callable[[str], str], view: View, asks: bool = False) -> None:
        self.program = program
        self.read = read
        self.view = view
        self.asks = asks
        self.work = Work()
        self.saved: set[Path] = set()
        # How many replies come late, behind an interrupt, and how many of them nobody wants to see.
        self.late = 0
        self.unwanted = 0
        # Whether it was said how a body ends.
        self.was_told = False

    def serve(self) -> bool:
        """Serves until the input or the program ends. Whether the program had ended by itself."""
        try:
            while self.goes_on():
                pass
        except Ended:
            self.rescue()
            return True
        return False

    def goes_on(self) -> bool:
        """Does what the next line says. Whether there is to be one behind it."""
        try:
            self.show_what_came()
            line = self.read(PROMPT).strip(BLANKS)
            line = ALIASES.get(line.lower(), line)
            if line == "\\quit":
                return not self.may_leave()
            if line.startswith("\\") or line.lower().startswith("help "):
                self.obey(line)
            else:
                self.serve_request(line)
        except EOFError:
            self.view.say("")
            return not self.may_leave()
        except KeyboardInterrupt:
            self.view.say("")
        except (Unexpected, Trouble) as fault:
            if isinstance(fault, Trouble) and fault.status == NO_REPLY:
                raise
            self.view.say(str(fault), style=self.view.paint.bad)
        return True

    def rescue(self) -> None:
        """Offers to keep what was typed, once the program has ended by itself."""
        if not self.asks or not self.work.requests:
            return
        self.view.say("the program has ended, and its data are gone", style=self.view.paint.bad)
        try:
            while name := self.read("Keep what was typed in a file? (its name, or nothing) ").strip():
                try:
                    return self.save(Path(os.path.expanduser(name)))
                except Trouble as trouble:
                    self.view.say(str(trouble), style=self.view.paint.bad)
        except (EOFError, KeyboardInterrupt):
            self.view.say("")

    # Requests.

    def serve_request(self, line: str) -> None:
        """Sends the request that a line begins, if it begins one, and shows the reply."""
        if not line or line.startswith("#"):
            return
        request = self.request_of(line)
        self.program.send(request)
        self.work.typed.append(request)
        self.wait()

    def request_of(self, line: str) -> Request:
        """The request that a line begins. Its body stands behind it, or in the lines below."""
        name = line.split()[0]
        verb = VERBS.get(name.lower()) or verb_named(name)
        words = line.split(None, len(verb.arguments) + 1)
        if verb.has_body and len(words) > len(verb.arguments) + 1:
            first = words.pop()
            if first.isdecimal():
                raise Unexpected(f"`{verb.usage}`, and no length", repr(line))
            verb, arguments = self.head_of(words)
            return Request(verb, arguments, self.read_body(first))
        verb, arguments = self.head_of(line.split())
        return Request(verb, arguments, self.read_body() if verb.has_body else None)

    @staticmethod
    def head_of(words: list[str]) -> tuple[Verb, tuple[str, ...]]:
        """The verb and the arguments of these words."""
        return parse_head(" ".join([words[0].lower(), *words[1:]]))

    def read_body(self, first: str = "") -> bytes:
        """The body that is typed up to a blank line, or a first line that stands behind the verb and leaves no bracket
        open."""
        lines = [first] if first else []
        if not first or first.count("{") > first.count("}"):
            if self.asks and not self.was_told:
                self.was_told = True
                self.view.say("(a blank line ends the body)", style=self.view.paint.faint)
            while not is_blank(line := self.read(MORE)):
                lines.append(line)
        check_characters(lines)
        return body_of([INDENT + line for line in lines])

    # Replies.

    def wait(self) -> None:
        """Shows the replies that are still to come. An interrupt gives the prompt back, and the program goes on."""
        try:
            while self.program.waiting:
                self.show_next()
        except KeyboardInterrupt:
            self.late = len(self.program.waiting)
            if self.late:
                runs = f"the program goes on with `{self.program.waiting[0].head}`"
                self.view.say("", f"{runs}; its reply comes at a later prompt, and \\wait waits for it")

    def show_what_came(self) -> None:
        """Shows the replies that came in the meantime."""
        while self.program.has_reply:
            self.show_next()

    def show_next(self) -> None:
        """Shows the reply to the oldest request that has none yet."""
        request = self.program.waiting[0]
        reply = self.next_reply()
        if self.unwanted:
            self.unwanted -= 1
        else:
            if self.late:
                self.view.say(f"the reply to `{request.head}`:", style=self.view.paint.faint)
            self.view.show_reply(request, reply)
            if self.view.times:
                self.view.say(f"{self.program.seconds * 1000:.1f} ms", style=self.view.paint.faint)
            self.work.note_typed(request, reply)
        self.late = max(0, self.late - 1)
        self.take(request, reply)

    def next_reply(self) -> Reply:
        """The reply to the oldest request that has none yet."""
        reply = self.program.reply()
        if reply is None:
            raise Ended
        return reply

    def take(self, request: Request, reply: Reply) -> None:
        """Keeps what a reply says, and goes on to the next."""
        self.work.note(request, reply)
        self.program.take()

    # The end.

    def may_leave(self) -> bool:
        """Whether to end: asks where work would be lost, or only says so where nobody is there to be asked."""
        if not self.asks:
            self.wait()
        losses = self.losses()
        if not losses:
            return True
        if not self.asks:
            for loss in losses:
                complain(loss)
            return True
        self.view.say(*losses)
        try:
            return self.read("Leave all the same? (y or n) ").strip().lower() in ("y", "yes")
        except (EOFError, KeyboardInterrupt) as ended:
            self.view.say("")
            return isinstance(ended, EOFError)

    def losses(self) -> list[str]:
        """What the end of the program takes away, in words."""
        losses = [f"`{request.head}` still runs" for request in self.program.waiting[:1]]
        sessions = self.work.uncommitted
        if sessions:
            named = f"session{'s' if len(sessions) > 1 else ''} {', '.join(map(str, sessions))}"
            losses.append(f"changes of {named} aren't committed")
        unsaved = self.work.unsaved
        if unsaved and self.asks:
            are = "is" if unsaved == 1 else "are"
            losses.append(f"{plural(unsaved, 'request')} of this session {are} in no file yet")
        return losses

    # Commands of the shell's own.

    def obey(self, line: str) -> None:
        """Does what a command of the shell's own says."""
        check_characters([line])
        word, _, rest = line.partition(" ")
        word, rest = ALIASES.get(word.lower(), word.lower()), rest.strip(BLANKS)
        if word == "\\save" and rest:
            self.save(Path(os.path.expanduser(rest)))
        elif word == "\\load" and rest:
            self.load(asked_of(rest))
        elif word == "\\help":
            self.view.say(*(help_on(verb_named(rest.lower())) if rest else help_lines()))
        elif rest:
            raise Unexpected(COMMANDS, repr(line))
        elif word == "\\table":
            self.view.table = not self.view.table
            self.view.say(f"tables are {on_or_off(self.view.table)}")
        elif word == "\\time":
            self.view.times = not self.view.times
            self.view.say(f"times are {on_or_off(self.view.times)}")
        elif word == "\\wait":
            self.wait()
        else:
            raise Unexpected(COMMANDS, repr(line))

    def save(self, path: Path) -> None:
        """Keeps what was typed in a file, which may be there already only where it was saved here."""
        text = "".join(f"{line}\n" for line in self.work.lines())
        try:
            with path.open("w" if path in self.saved else "x", encoding="utf-8", newline="\n") as file:
                file.write(text)
        except OSError as error:
            raise Trouble(f"{path} can't be written: {error.strerror}", NO_FILE) from None
        self.saved.add(path)
        self.work.keep()
        self.view.say(f"{plural(len(self.work.requests), 'request')} {be(self.work.requests)} in {path}")
        if self.work.comments:
            self.view.say("what \\load read isn't; it is a comment there")

    def load(self, asked: Asked) -> None:
        """Hands the statements of a file to the program."""
        if not self.work.free:
            raise Unexpected("a session without an open transaction", "none; commit or discard one")
        session, size = self.work.free[-1], size_of(asked.path)
        by = f"by session {session} in transactions of {plural(asked.each, 'statement')}"
        self.view.say(f"{asked.path}: {size:,} bytes, {by}")
        if size > self.program.room:
            self.view.say(f"the program takes {self.program.room:,} bytes more in this run, and so not all of it")
        choice = Choice(self.read, asked.skips, self.asks)
        meter = Meter(size, sys.stderr)
        hands = Hands(self.ask, self.send_unwanted, lambda: self.program.room, choice)
        load = Load(asked.path, session, asked.each, hands, self.view, meter)
        try:
            load.run()
        finally:
            self.work.typed.append(f"\\load {asked.path}: {load.tally.text()}; they aren't in this file")

    def ask(self, request: Request) -> Reply:
        """The reply to a request, which isn't shown; those before it are."""
        while self.program.waiting:
            self.show_next()
        self.program.send(request)
        reply = self.next_reply()
        self.take(request, reply)
        return reply

    def send_unwanted(self, request: Request) -> None:
        """Sends a request whose reply, and those before it, nobody wants to see."""
        self.program.send(request)
        self.unwanted = len(self.program.waiting)


class Choice:
    """Whether `\\load` goes on after a statement that was refused."""

    def __init__(self, read: Callable[[str], str], skips: bool, asks: bool) -> None:
        self.read = read
        self.skips = skips
        self.asks = asks

    def __call__(self) -> bool:
        """Asks whoever is there, unless it was said beforehand."""
        if self.skips or not self.asks:
            return self.skips
        try:
            answer = self.read("Go on without it? (y, n, or a for all) ").strip().lower()
        except EOFError:
            return False
        self.skips = answer in ("a", "all")
        return self.skips or answer in ("y", "yes")


def asked_of(words: str) -> Asked:
    """What the words behind `\\load` ask for."""
    usage = "`\\load FILE` (in quotes where it has blanks), and then perhaps `--each N` and `--skip`"
    try:
        parts = shlex.split(words)
    except ValueError:
        raise Unexpected(usage, repr(words)) from None
    each, skips, files = EACH, False, []
    rest = iter(parts)
    for part in rest:
        if part == "--skip":
            skips = True
        elif part == "--each":
            count = next(rest, "")
            if not count.isdecimal() or not count.isascii() or int(count) == 0:
                raise Unexpected("a number of statements behind --each", repr(count))
            each = int(count)
        else:
            files.append(part)
    if len(files) != 1 or files[0].startswith("--"):
        raise Unexpected(usage, repr(words))
    return Asked(Path(os.path.expanduser(files[0])), each, skips)


def on_or_off(switch: bool) -> str:
    """The word for a switch."""
    return "on" if switch else "off"


def be(things: list) -> str:
    """The verb for so many things."""
    return "is" if len(things) == 1 else "are"


def read_line(prompt: str) -> str:
    """A line of standard input, with a prompt where someone can see it."""
    return input(prompt if sys.stdin.isatty() else "")


def shell(arguments: argparse.Namespace) -> int:
    """Serves a session over a running program, whose data live in memory."""
    view = View(sys.stdout, Paint(wants_colour(sys.stdout, plain=False)))
    with Program(arguments.program, arguments.groups) as program:
        asks = sys.stdin.isatty()
        if asks:
            view.say(*WELCOME)
        ended_by_itself = Shell(program, read_line, view, asks).serve()
        if program.waiting and not ended_by_itself:
            complain(f"the program was ended while it answered `{program.waiting[0].head}`")
            return INTERRUPTED
        ending = program.end()
    if ended_by_itself or ending.status:
        complain(str(ending))
    return status_after(ending, ended_by_itself)
