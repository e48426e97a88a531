"""How an input ends: whole, cut, too long, or at a byte that no request has there. It shares nothing with the
server."""

import re

from plain.requests import MOST_BYTES, MOST_WORD, MOST_WORDS, requests

CLEAN, CUT, TOO_LONG = "clean", "cut", "too long"
INLINE = "ERR Protocol error: inline commands are not supported"
BAD_COUNT = "ERR Protocol error: invalid multibulk length"
NO_BULK = "ERR Protocol error: expected '$'"
BAD_LENGTH = "ERR Protocol error: invalid bulk length"

# What the line of a count, and that of a length, may begin with.
COUNT = re.compile(rb"[*](-?|-1(\r\n?)?|(0|[1-9][0-9]*)(\r\n?)?)")
LENGTH = re.compile(rb"[$]((0|[1-9][0-9]*)(\r\n?)?)?")
LINE = 11  # bytes of the longest such line


def is_front(line, form, most):
    """Whether a line may begin so."""
    digits = line[1:].rstrip(b"\r\n")
    return form.fullmatch(line) is not None and (not digits.isdigit() or int(digits) <= most)


class Stops(Exception):
    """How an input ends within a request, and how many of its bytes are judged by then."""

    def __init__(self, how, judged):
        super().__init__(how)
        self.how, self.judged = how, judged


def read_line(text, at, form, most, errors):
    """Returns the number of a line, and the place behind it. `errors` are those of its first byte and of the
    others."""
    whole = text.find(b"\n", at, at + LINE)
    if whole >= 0 and is_front(text[at : whole + 1], form, most):
        return int(text[at + 1 : whole]), whole + 1
    for size in range(1, LINE + 1):
        line = text[at : at + size]
        if len(line) < size:
            raise Stops(CUT, len(text))
        if not is_front(line, form, most):
            raise Stops(errors[size > 1], at + size)
        if line.endswith(b"\r\n"):
            return int(line[1:]), at + size
    raise AssertionError("no such line is longer")


def behind_request(text, at):
    """Returns the place behind the request or skip that begins at a place."""
    count, at = read_line(text, at, COUNT, MOST_WORDS, (INLINE, BAD_COUNT))
    for _ in range(count):
        length, at = read_line(text, at, LENGTH, MOST_WORD, (NO_BULK, BAD_LENGTH))
        line_end = text[at + length : at + length + 2]
        if not b"\r\n".startswith(line_end):
            raise Stops(BAD_LENGTH, at + length + (2 if line_end[:1] == b"\r" else 1))
        if len(line_end) < 2:
            raise Stops(CUT, len(text))
        at += length + 2
    return at


def how_it_ends(text):
    """Returns how an input ends, the place of what no request has there, or of the request that isn't whole, and how
    many bytes are taken."""
    judged, at = text[:MOST_BYTES], 0
    try:
        while at < len(judged):
            at = behind_request(judged, at)
    except Stops as it:
        if it.how == CUT:
            return (TOO_LONG, at, len(judged)) if len(text) > MOST_BYTES else (CUT, at, len(judged))
        return it.how, it.judged - 1, it.judged
    return TOO_LONG if len(text) > MOST_BYTES else CLEAN, at, len(judged)


def end_of(text):
    """How an input ends: one of the three, or the text of the error that its last reply has."""
    return how_it_ends(text)[0]


def commands_of(text, end):
    """The words of each request of an input that ends so; and behind them, where it breaks the protocol, the text of
    that error."""
    yield from requests(text)
    if end.startswith("ERR"):
        yield end
