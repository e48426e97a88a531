"""Calls and replies as a person reads them, in one line."""

from judging.resp import read_reply
from plain.shown import quoted, shortened, typed

MOST = 40  # bytes of a word
MOST_WORDS = 8
WINDOW = 12  # bytes before and behind the first that differs


def command(words):
    """A request as it would be typed; long words are cut, and so is a long list of them."""
    shown = [shortened(word, typed, MOST).decode() for word in words[:MOST_WORDS]]
    return " ".join(shown) + (f" .. ({len(words):,} words)" if words[MOST_WORDS:] else "")


def call_name(call):
    """A call's number, and its command."""
    what = "what breaks the protocol" if call.broken else command(call.words)
    return f"call {call.number}, {what}"


def reply(text):
    """A reply's text as redis-cli would show it, but in one line."""
    read = read_reply(text, 0)
    if read is None:
        return f"bytes {shortened(text, quoted, WINDOW).decode()}, which begin no reply" if text else "nothing"
    return value(read)


def value(read):
    if read.kind == b"+":
        return read.line.decode("ascii", "backslashreplace")
    if read.kind == b"-":
        return f"(error) {read.line.decode('ascii', 'backslashreplace')}"
    if read.value is None:
        return "(nil)"
    if read.kind == b":":
        return f"(integer) {read.value}"
    if read.kind == b"$":
        return shortened(read.value, quoted, MOST).decode()
    shown = [value(item) for item in read.value[:MOST_WORDS]]
    return f"[{', '.join(shown)}{', ..' if read.value[MOST_WORDS:] else ''}]"


def window(text, place):
    """The bytes around a place."""
    start, end = max(place - WINDOW, 0), place + WINDOW + 1
    return f"{'..' if start else ''}{quoted(text[start:end]).decode()}{'..' if end < len(text) else ''}"
