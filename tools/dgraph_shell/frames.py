"""Frames, as the program reads them, and why some bytes are none.

A frame is a line, and behind it a body and a line feed where its verb has a body. The line has the verb, its arguments
and the body's length in bytes between single spaces, and at most 128 bytes with its line feed. A number has neither a
sign nor a leading zero. An input is frames to its end, and has at most 67,108,864 bytes.
"""

from __future__ import annotations

from collections.abc import Iterator

from .faults import BAD_DATA, Trouble, Unexpected
from .scripts import why_unshowable
from .verbs import LENGTH, MAX_BODY, MAX_INPUT, MAX_LINE, VERBS, Request, Verb, parse_head, verb_named

# The bytes of a line that are shown.
PIECE = 40


def parse_header(line: bytes) -> tuple[Verb, tuple[str, ...], int]:
    """The verb, the arguments and the length of the body, -1 without one, of a frame's first line."""
    text = line.decode("utf-8", "backslashreplace")
    check_ends(text)
    name = text.split(" ")[0]
    if name not in VERBS or not VERBS[name].has_body:
        return (*parse_head(text), -1)
    head, _, length = text.rpartition(" ")
    check_has_length(VERBS[name], text)
    if not LENGTH.fullmatch(length) or int(length) > MAX_BODY:
        wanted = f"the length of the body, 0 to {MAX_BODY}, as the last word, without a sign or a leading zero"
        raise Unexpected(wanted, repr(text))
    return (*parse_head(head), int(length))


def check_ends(text: str) -> None:
    """Refuses an empty line, and one that ends in a carriage return."""
    if not text:
        raise Unexpected("a frame's first line", "an empty one: behind a body stands one line feed, and else none")
    if text.endswith("\r"):
        raise Unexpected("a line that ends in a line feed alone", "a carriage return before it")


def check_has_length(verb: Verb, text: str) -> None:
    """Refuses a line that has the arguments of a verb with a body, and no length behind them."""
    if len(text.split(" ")) == len(verb.arguments) + 1:
        wanted = f"`{verb.line} LENGTH`, with the length of the body in bytes, 0 to {MAX_BODY}, as the last word"
        raise Unexpected(wanted, repr(text))


def line_at(data: bytes, start: int) -> bytes:
    """The line that begins at that byte, without its line feed."""
    end = data.find(b"\n", start, start + MAX_LINE)
    if end >= 0:
        return data[start:end]
    piece = data[start : start + MAX_LINE].decode("utf-8", "backslashreplace")
    if " " in piece:
        verb_named(piece.split(" ")[0])
    is_cut = len(data) - start < MAX_LINE
    found = "the end of the file" if is_cut else f"none in {MAX_LINE} bytes"
    raise Unexpected(f"a line of at most {MAX_LINE} bytes with its line feed", f"{found} behind {piece[:PIECE]!r}")


def frame_at(data: bytes, start: int, line: int = 1) -> tuple[Request, int]:
    """The request whose frame begins at that byte, in that line, and where the next begins."""
    header = line_at(data, start)
    verb, arguments, length = parse_header(header)
    body_start = start + len(header) + 1
    end = body_start if length < 0 else body_start + length + 1
    if length >= 0 and data[end - 1 : end] != b"\n":
        raise no_feed_behind(data, body_start, length)
    if end > MAX_INPUT:
        raise Unexpected(f"at most {MAX_INPUT:,} bytes of input", f"a frame that ends behind {end:,}")
    return Request(verb, arguments, None if length < 0 else data[body_start : end - 1], line), end


def no_feed_behind(data: bytes, start: int, length: int) -> Unexpected:
    """That no line feed stands behind a body, and which lengths near it would lead to one."""
    end = start + length
    lengths = [at - start for at in (data.rfind(b"\n", start, end), data.find(b"\n", end)) if at >= 0]
    leads = f"; a length of {' or '.join(map(str, lengths))} leads to a line feed" if lengths else ""
    if end < len(data):
        found = repr(data[end : end + 1])
    else:
        found = f"the end of the file behind {len(data) - start} bytes of it"
    return Unexpected(f"a line feed behind a body of {length} bytes", found + leads)


def frames_of(data: bytes, name: str) -> Iterator[tuple[int, Request]]:
    """The requests of frames with the bytes at which they begin, up to one at which none does."""
    at, line, count = 0, 1, 0
    while at < len(data):
        count += 1
        try:
            request, end = frame_at(data, at, line)
        except Unexpected as unexpected:
            raise Trouble(f"{name}:{line}: request {count}, at byte {at}: {unexpected}", BAD_DATA) from None
        yield at, request
        line += data.count(b"\n", at, end)
        at = end


def parse_frames(data: bytes, name: str) -> list[Request]:
    """The requests of frames."""
    return [request for _, request in frames_of(data, name)]


def parse_showable(data: bytes, name: str) -> list[Request]:
    """The requests of frames, whose bodies can be shown in a readable script."""
    requests = []
    for at, request in frames_of(data, name):
        reason = why_unshowable(request.body or b"")
        if reason:
            place = f"{name}:{request.line}: request {len(requests) + 1}, at byte {at}"
            raise Trouble(f"{place}: the body of `{request.head}` can't be shown: {reason}", BAD_DATA)
        requests.append(request)
    return requests
