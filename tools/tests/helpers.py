"""What several tests use: readable scripts and replies, files, and small programs in the place of `dgraph`."""

from __future__ import annotations

import fcntl
import io
import os
import pty
import re
import select
import signal
import subprocess
import sys
import tempfile
import termios
import time
import unittest
from collections.abc import Iterable
from pathlib import Path
from typing import Optional, Union

import plain_machine as plain
from dgraph_shell.frames import parse_showable
from dgraph_shell.program import DEFAULT_PROGRAM
from dgraph_shell.replies import Reply, read_reply
from dgraph_shell.scripts import parse_script, show_script
from dgraph_shell.verbs import Request

TOOLS = Path(__file__).resolve().parent.parent
TOP = TOOLS.parent
TOOL = [sys.executable, "-B", TOOLS / "dgraph_shell.py"]
EXAMPLES = TOP / "examples"
# How many seconds anything that is started may take.
SECONDS = 30

# A program that answers the replies that it was told, one to a request, and then ends.
PROGRAM = """#!{python} -IS
import os, sys
for reply in {replies!r}:
    words = sys.stdin.buffer.readline().split()
    if words and words[0] in (b"alter", b"mutate", b"upsert", b"query"):
        sys.stdin.buffer.read(int(words[-1]) + 1)
    sys.stdout.buffer.write(reply)
    sys.stdout.buffer.flush()
if {status} == 0:
    sys.stdin.buffer.read()
if {status} < 0:
    os.kill(os.getpid(), -{status})
sys.stderr.write({message!r} or {status} and " ".join(sys.argv[1:]) or "")
sys.exit({status})
"""

# A program that takes a request, says its number in the file `ready`, and answers once there is a file `go`.
WAITING = """#!{python} -IS
import os, sys, time
for line in sys.stdin.buffer:
    with open("made", "w") as file:
        file.write(str(os.getpid()))
    os.rename("made", "ready")
    for _ in range(3000):
        if os.path.exists("go"):
            break
        time.sleep(0.01)
    sys.stdout.buffer.write(b"ok " + line if line.startswith(b"discard") else b"ok line 1\\n")
    sys.stdout.buffer.flush()
"""

# The plain machine as a program: slow, and right.
PLAIN = """#!{python} -IS
import sys
sys.dont_write_bytecode = True
sys.path.append({tools!r})
import plain_machine as plain
machine = plain.PlainMachine()
read = 0
while line := sys.stdin.buffer.readline():
    words = line.split()
    body = b""
    if words[0] in (b"alter", b"mutate", b"upsert", b"query"):
        body = sys.stdin.buffer.read(int(words[-1]) + 1)
    frame = plain.frame_at(line + body, 0)
    if frame is None:
        print("dgraph: bad frame at", read, file=sys.stderr)
        sys.exit(4)
    read += frame[1]
    sys.stdout.buffer.write(machine.answer(*frame[0]))
    sys.stdout.buffer.flush()
"""


def built_program() -> Path:
    """The program that was built; the test is skipped where there is none, which `.ci/tool` doesn't let happen."""
    if not DEFAULT_PROGRAM.exists():
        raise unittest.SkipTest(f"{DEFAULT_PROGRAM} isn't built")
    return DEFAULT_PROGRAM


def script(text: str) -> list[Request]:
    """The requests of a readable script."""
    return parse_script(text.encode(), "a.dgs")


def frames(text: str) -> bytes:
    """The frames of a readable script."""
    return b"".join(request.frame() for request in script(text))


def plain_reply(data: str, query: str) -> str:
    """What is behind the first line of the plain machine's reply to a query behind a readable script; or a refusal."""
    body = query.encode()
    line, _, said = plain.run(frames(data) + b"query 1 %d\n%s\n" % (len(body), body)).replies[-1].decode().partition("\n")
    return said.rstrip("\n") or line


def unframed(data: bytes) -> str:
    """The readable script of frames."""
    return "".join(f"{line}\n" for line in show_script(parse_showable(data, "a.script")))


def reply(data: bytes) -> Optional[Reply]:
    """The first reply of some bytes."""
    return read_reply(io.BytesIO(data))


def some(paths: Iterable[Path]) -> list[Path]:
    """Paths in order, of which there has to be one."""
    found = sorted(paths)
    assert found
    return found


def take_interrupts() -> None:
    """Lets an interrupt end a child, also where a shell started these tests so that it is ignored."""
    signal.signal(signal.SIGINT, signal.SIG_DFL)


def take_terminal() -> None:
    """Makes standard input the terminal of a child, so that Ctrl-C typed there interrupts it."""
    take_interrupts()
    fcntl.ioctl(0, termios.TIOCSCTTY, 0)


class Conversation:
    """What a program says through a pipe or on a terminal, read up to what is awaited."""

    def __init__(self, stream: int) -> None:
        self.stream = stream
        self.said = ""
        self.read_to = 0

    def until(self, pattern: str) -> str:
        """What was said since the last call, up to what matches the pattern."""
        late = time.monotonic() + SECONDS
        while not (found := re.compile(pattern).search(self.said, self.read_to)):
            if not select.select([self.stream], [], [], max(0.0, late - time.monotonic()))[0]:
                raise AssertionError(f"{pattern!r} didn't come in {SECONDS} seconds; it said {self.said!r}")
            piece = self.piece()
            if not piece:
                raise AssertionError(f"{pattern!r} didn't come; it said {self.said!r}")
            self.said += piece
        start, self.read_to = self.read_to, found.end()
        return self.said[start : found.end()]

    def piece(self) -> str:
        """What was said next; nothing at the end."""
        try:
            return os.read(self.stream, 65_536).decode("utf-8", "replace").replace("\r\n", "\n")
        except OSError:
            return ""


class Terminal(io.StringIO):
    """A text stream that says that it is a terminal."""

    def isatty(self) -> bool:
        return True


class InFolder(unittest.TestCase):
    """Tests that have a folder of their own."""

    def setUp(self) -> None:
        folder = tempfile.TemporaryDirectory()
        self.addCleanup(folder.cleanup)
        self.folder = Path(folder.name)

    def file(self, name: str, content: Union[str, bytes]) -> Path:
        """A file with that content."""
        path = self.folder / name
        path.write_bytes(content.encode() if isinstance(content, str) else content)
        return path

    def executable(self, text: str) -> Path:
        """A program with that text."""
        path = self.file("program", text)
        path.chmod(0o755)
        return path

    def program(self, *replies: bytes, status: int = 0, message: str = "") -> Path:
        """A program that answers these replies and ends so."""
        return self.executable(PROGRAM.format(python=sys.executable, replies=replies, status=status, message=message))

    def waiting_program(self) -> Path:
        """A program that answers when it is told to."""
        return self.executable(WAITING.format(python=sys.executable))

    def plain_program(self) -> Path:
        """The plain machine."""
        return self.executable(PLAIN.format(python=sys.executable, tools=str(TOOLS)))

    def tool(self, *words: Union[str, Path], typed: str = "") -> subprocess.CompletedProcess[str]:
        """What the tool does for these words, with that standard input."""
        return subprocess.run(
            [*TOOL, *words],
            input=typed,
            capture_output=True,
            encoding="utf-8",
            cwd=self.folder,
            timeout=SECONDS,
        )

    def on_terminal(self, *words: Union[str, Path]) -> tuple[subprocess.Popen[bytes], Conversation]:
        """The tool on a terminal of its own, started with these words, and what it says there."""
        ours, theirs = pty.openpty()
        self.addCleanup(os.close, ours)
        started = subprocess.Popen(
            [*TOOL, *words],
            stdin=theirs,
            stdout=theirs,
            stderr=theirs,
            cwd=self.folder,
            env={**os.environ, "TERM": "dumb"},
            start_new_session=True,
            preexec_fn=take_terminal,
        )
        os.close(theirs)
        self.addCleanup(started.wait)
        self.addCleanup(started.kill)
        return started, Conversation(ours)

    def wait_for(self, name: str) -> Path:
        """The file of that name, once it is there."""
        path = self.folder / name
        late = time.monotonic() + SECONDS
        while not path.exists():
            self.assertLess(time.monotonic(), late, f"{name} didn't come")
            time.sleep(0.01)
        return path

    def started(self, *words: Union[str, Path], **streams: int) -> subprocess.Popen[str]:
        """The tool, started with these words."""
        started = subprocess.Popen(
            [*TOOL, *words],
            cwd=self.folder,
            encoding="utf-8",
            env={**os.environ, "TERM": "dumb"},
            preexec_fn=take_interrupts,
            **streams,
        )
        self.addCleanup(started.wait)
        self.addCleanup(started.kill)
        return started
