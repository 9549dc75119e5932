"""What the tool does for its words, the shell aside."""

from __future__ import annotations

import argparse
import sys
import time
from collections.abc import Iterable, Iterator, Sequence
from itertools import zip_longest
from pathlib import Path
from typing import Optional

from .faults import BAD_DATA, DIFFERENT, NO_FILE, Trouble, complain
from .frames import parse_frames, parse_showable
from .program import Program, status_after
from .replies import Reply, read_reply
from .scripts import INDENT, parse_script, show_script
from .show import Paint, Progress, View, plural, visible, wants_colour
from .verbs import Request

# The files that have frames; all others are readable scripts.
OF_FRAMES = ".script"


def read_file(path: Path) -> bytes:
    """The bytes of a file, or of standard input where it is named `-`."""
    try:
        return sys.stdin.buffer.read() if str(path) == "-" else path.read_bytes()
    except OSError as error:
        raise Trouble(f"{path}: {error.strerror}", NO_FILE) from None


def read_script(path: Path) -> list[Request]:
    """The requests of a file: of its frames, or of the readable script in it."""
    parse = parse_frames if path.suffix == OF_FRAMES else parse_script
    return parse(read_file(path), str(path))


def frame(arguments: argparse.Namespace) -> int:
    """Writes the frames of a readable script."""
    for request in read_script(arguments.file):
        sys.stdout.buffer.write(request.frame())
    return 0


def unframe(arguments: argparse.Namespace) -> int:
    """Writes the readable script of frames."""
    requests = parse_showable(read_file(arguments.file), str(arguments.file))
    for line in show_script(requests):
        sys.stdout.buffer.write(f"{line}\n".encode())
    return 0


def why(arguments: argparse.Namespace) -> int:
    """Says whether a file is frames to its end, and else where and why not."""
    data, name = read_file(arguments.file), str(arguments.file)
    try:
        requests = parse_frames(data, name)
    except Trouble as trouble:
        hint = "\n    it is a readable script, of which `frame` makes frames" if is_readable(data) else ""
        raise Trouble(f"{trouble}{hint}", trouble.status) from None
    print(f"{name}: {plural(len(requests), 'frame')}, and nothing else")
    return 0


def is_readable(data: bytes) -> bool:
    """Whether a file is a readable script."""
    try:
        return bool(parse_script(data, ""))
    except Trouble:
        return False


def run(arguments: argparse.Namespace) -> int:
    """Runs a script, readable or of frames (*.script), and shows each request with its reply."""
    requests = read_script(arguments.file)
    view = View(sys.stdout, Paint(wants_colour(sys.stdout, arguments.plain)), arguments.table)
    began = time.monotonic()
    with Program(arguments.program, arguments.groups) as program:
        replies = show_replies(program, requests, view, str(arguments.file))
        ending = program.end()
    show_summary(view, replies, time.monotonic() - began)
    unanswered = len(replies) < len(requests)
    if unanswered:
        request = requests[len(replies)]
        complain(f"{arguments.file}:{request.line}: `{request.head}` got no reply: {ending}")
    elif ending.status:
        complain(str(ending))
    return status_after(ending, unanswered)


def show_replies(program: Program, requests: Sequence[Request], view: View, source: str) -> list[Reply]:
    """Shows each request with its reply, up to the first that gets none, and answers the replies."""
    replies: list[Reply] = []
    progress = Progress(len(requests), sys.stderr)
    for request in requests:
        view.show_request(request)
        progress.tell(len(replies) + 1)
        reply = program.ask(request)
        progress.clear()
        if reply is None:
            break
        view.show_reply(request, reply, source)
        replies.append(reply)
    return replies


def show_summary(view: View, replies: Sequence[Reply], seconds: float) -> None:
    """Says how many replies came, and in what time."""
    refused = sum(not reply.is_ok for reply in replies)
    good = len(replies) - refused
    view.say(f"{good} answered, {refused} refused, {seconds:.3f} s", style=view.paint.faint)


def check(arguments: argparse.Namespace) -> int:
    """Runs a script, and compares the replies with those in a file."""
    requests = read_script(arguments.file)
    expected = stored_replies(arguments.expected)
    with Program(arguments.program, arguments.groups) as program:
        replies = list(iter_replies(program, requests))
        ending = program.end()
    fault = first_difference(requests, expected, replies)
    if fault:
        complain(f"{arguments.file}:{fault}")
    # At status 0 the program says nothing.
    if ending.status or ending.message:
        complain(str(ending))
    if fault or ending.status or ending.message:
        return DIFFERENT
    print(f"{arguments.file}: {len(replies)} replies as in {arguments.expected}")
    return 0


def stored_replies(path: Path) -> list[Reply]:
    """The replies in a file, which are the bytes that the program wrote."""
    replies: list[Reply] = []
    try:
        with path.open("rb") as file:
            while (reply := read_reply(file)) is not None:
                replies.append(reply)
    except OSError as error:
        raise Trouble(f"{path}: {error.strerror}", NO_FILE) from None
    except Trouble as trouble:
        raise Trouble(f"{path}: reply {len(replies) + 1}: {trouble}", BAD_DATA) from None
    return replies


def iter_replies(program: Program, requests: Iterable[Request]) -> Iterator[Reply]:
    """The replies to requests, up to the first that gets none."""
    for request in requests:
        reply = program.ask(request)
        if reply is None:
            return
        yield reply


def first_difference(
    requests: Sequence[Request], expected: Sequence[Reply], replies: Sequence[Reply]
) -> Optional[str]:
    """The line of the first request whose reply isn't as expected, with both; None where there is none."""
    if len(expected) != len(requests):
        line = requests[-1].line if requests else 1
        return f"{line}: {len(requests)} requests, but {len(expected)} expected replies"
    for request, wanted, reply in zip_longest(requests, expected, replies):
        if reply != wanted:
            fault = f"{request.line}: the reply to `{request.head}` isn't as expected"
            return "\n".join([fault, *labelled("expected", wanted), *labelled("answered", reply)])
    return None


def labelled(label: str, reply: Optional[Reply]) -> list[str]:
    """The lines that show a reply as it was written, below a label."""
    text = "nothing" if reply is None else reply.written().decode("utf-8", "backslashreplace")
    return [f"  {label}:", *(INDENT + visible(line) for line in text.rstrip("\n").split("\n"))]
