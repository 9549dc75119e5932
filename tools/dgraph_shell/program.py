"""A running `dgraph run`, asked through pipes."""

from __future__ import annotations

import subprocess
import tempfile
import threading
import time
from collections import deque
from dataclasses import dataclass
from pathlib import Path
from typing import Optional, Union

from .faults import BAD_DATA, NO_PROGRAM, NO_REPLY, Trouble, Unexpected
from .frames import frame_at
from .replies import Reply, read_reply
from .verbs import MAX_INPUT, Request

TOP = Path(__file__).resolve().parent.parent.parent
DEFAULT_PROGRAM = TOP / "crates" / "dgraph" / "out" / "dgraph"
HOW_TO_BUILD = "README.md says how it is built: `(cd crates/dgraph && rt run -- run </dev/null)` does it"

# What each status says, and what to do next.
STATUSES = {
    1: "its input couldn't be read",
    2: "its replies couldn't be written: nobody reads them, or there is no room for them",
    3: "it takes `run` alone, `gen --seed S --size N` or `load --seed S --size N`",
    4: "a frame was bad: `why FILE` says which rule it breaks",
    5: f"its input had more than {MAX_INPUT:,} bytes: start it anew for the rest",
    6: "there wasn't enough memory: what it held is lost; a script that was saved can be run again, in parts",
}


@dataclass(frozen=True)
class Ending:
    """How the program ended: its status, and what it wrote to standard error."""

    status: int
    message: str

    def __str__(self) -> str:
        if self.status < 0:
            return f"the program was ended by signal {-self.status}"
        said = f"the program ended with status {self.status}" + (self.message and f": {self.message}")
        return said + (f"\n    {STATUSES[self.status]}" if self.status in STATUSES else "")

    @property
    def exit_status(self) -> int:
        """The status that a shell would tell."""
        return self.status if self.status >= 0 else 128 - self.status


class Unsendable(Trouble):
    """A request that would end the program, and isn't sent."""


def check_frame(frame: bytes, sent: int) -> None:
    """Refuses a frame that would end the program, behind so many bytes that were sent."""
    try:
        _, end = frame_at(frame, 0)
    except Unexpected as unexpected:
        raise Unsendable(f"nothing was sent, since it would end the program: {unexpected}", BAD_DATA) from None
    if end != len(frame):
        raise Unsendable("nothing was sent, since it is more than one frame", BAD_DATA)
    if sent + end > MAX_INPUT:
        raise Unsendable(
            f"nothing was sent, since it would end the program, which takes {MAX_INPUT:,} bytes in one run and has "
            f"taken {sent:,}: start it anew for what is to come",
            BAD_DATA,
        )


@dataclass
class Exchange:
    """A request on its way: its frame until it is sent, and what came for it: a reply, what is none, or nothing more at
    all, after how many seconds."""

    request: Request
    frame: bytes
    came: Union[Reply, Trouble, None] = None
    seconds: float = 0.0
    is_over: bool = False


class Program:
    """A running `dgraph run`. Where the block is left, the program has ended.

    A thread of its own sends requests and reads replies, so that whoever waits for a reply can be interrupted and
    nothing is lost: the reply is kept for whoever asks next.
    """

    def __init__(self, path: Path, groups: Optional[int] = None) -> None:
        # A name alone would be looked for in the folders of PATH.
        words = [str(path.absolute()), "run"] + ([] if groups is None else ["--groups", str(groups)])
        self._errors = tempfile.TemporaryFile()
        try:
            # In a session of its own, so that an interrupt at the terminal reaches the tool alone.
            self._child = subprocess.Popen(
                words,
                stdin=subprocess.PIPE,
                stdout=subprocess.PIPE,
                stderr=self._errors,
                start_new_session=True,
            )
        except OSError as error:
            self._errors.close()
            hint = f"; {HOW_TO_BUILD}" if isinstance(error, FileNotFoundError) else ""
            raise Trouble(f"{path} can't be run: {error.strerror}{hint}", NO_PROGRAM) from None
        assert self._child.stdin and self._child.stdout
        self._requests = self._child.stdin
        self._replies = self._child.stdout
        self._exchanges: deque[Exchange] = deque()
        self._something_to_send = threading.Event()
        self._something_came = threading.Event()
        self._is_ending = False
        self._sent = 0
        self._thread = threading.Thread(target=self._serve, daemon=True)
        self._thread.start()

    def __enter__(self) -> Program:
        return self

    def __exit__(self, *_: object) -> None:
        if self._child.poll() is None:
            self._child.kill()
        self._child.wait()
        self._finish()
        self._close_requests()
        self._replies.close()
        self._errors.close()

    @property
    def room(self) -> int:
        """How many more bytes the program takes."""
        return MAX_INPUT - self._sent

    @property
    def waiting(self) -> list[Request]:
        """The requests whose replies weren't taken, the oldest first."""
        return [exchange.request for exchange in self._exchanges]

    @property
    def has_reply(self) -> bool:
        """Whether the oldest of them has its reply, so that nobody has to wait for it."""
        return bool(self._exchanges) and self._exchanges[0].is_over

    # An interrupt may come between any two steps of those who send and take. So each changes what is kept in one step.

    def send(self, request: Request) -> None:
        """Sends a request, whose reply `reply` gives; refuses one that would end the program."""
        frame = request.frame()
        check_frame(frame, self._sent)
        self._sent += len(frame)
        self._exchanges.append(Exchange(request, frame))
        self._something_to_send.set()

    def reply(self) -> Optional[Reply]:
        """The reply to the oldest request whose reply wasn't taken; None where the program has ended without one. It
        waits, and may be interrupted. The same one is given until it is taken."""
        oldest = self._exchanges[0]
        while not oldest.is_over:
            self._something_to_send.set()
            self._something_came.clear()
            if not oldest.is_over:
                self._something_came.wait()
        if isinstance(oldest.came, Trouble):
            raise oldest.came
        return oldest.came

    @property
    def seconds(self) -> float:
        """How long the program took for the reply that `reply` gave."""
        return self._exchanges[0].seconds

    def take(self) -> None:
        """Takes the reply that `reply` gave."""
        self._exchanges.popleft()

    def ask(self, request: Request) -> Optional[Reply]:
        """The program's reply to a request; None where the program has ended without one."""
        self.send(request)
        reply = self.reply()
        self.take()
        return reply

    def end(self) -> Ending:
        """Ends the input once all is answered, and tells how the program ended."""
        self._finish()
        self._close_requests()
        rest = self._replies.readline()
        if rest:
            raise Trouble(f"the program wrote a reply to no request: {rest!r}", NO_REPLY)
        status = self._child.wait()
        self._errors.seek(0)
        return Ending(status, self._errors.read().decode("utf-8", "backslashreplace").strip())

    def _finish(self) -> None:
        self._is_ending = True
        self._something_to_send.set()
        self._thread.join()

    def _serve(self) -> None:
        """Sends what is to be sent and keeps the replies, until nothing more is to come."""
        while True:
            exchange = next((one for one in list(self._exchanges) if not one.is_over), None)
            if exchange:
                self._exchange(exchange)
                self._something_came.set()
            elif self._is_ending:
                return
            else:
                self._something_to_send.wait()
                self._something_to_send.clear()

    def _exchange(self, exchange: Exchange) -> None:
        began = time.monotonic()
        exchange.came = self._answer_to(exchange.frame)
        exchange.frame = b""
        exchange.seconds = time.monotonic() - began
        exchange.is_over = True

    def _answer_to(self, frame: bytes) -> Union[Reply, Trouble, None]:
        try:
            self._requests.write(frame)
            self._requests.flush()
        except OSError:
            return None
        try:
            return read_reply(self._replies)
        except Trouble as trouble:
            return trouble

    def _close_requests(self) -> None:
        try:
            self._requests.close()
        except OSError:
            pass


def status_after(ending: Ending, unanswered: bool) -> int:
    """The status to end with. Where all is well but requests went unanswered, it isn't 0."""
    return NO_REPLY if unanswered and ending.status == 0 else ending.exit_status
