"""Requests and replies of any RESP2 server, each with its place. More is read than this program serves, so that what
another server took can be named."""

import re

from plain.inputs import end_of

COUNT = re.compile(rb"\*(0|-?[1-9][0-9]{0,9})\r\n")
LENGTH = re.compile(rb"\$(0|[1-9][0-9]{0,9})\r\n")
LINE = re.compile(rb"([+\-:$*])([^\r\n]*)\r\n")
NUMBER = re.compile(rb"0|-?[1-9][0-9]{0,18}")
SIZE = re.compile(rb"-1|0|[1-9][0-9]{0,9}")
DEEPEST = 9  # arrays within arrays, as deep as redis-cli reads them


class Request:
    """The words of a request, and the places of its first byte and of the one behind it."""

    def __init__(self, words, start, end):
        self.words, self.start, self.end = words, start, end


class Reply:
    """A reply with its places. `value` is bytes of a bulk string, None for null, an integer, or a list of replies; the
    line of a status or an error is in `line`."""

    def __init__(self, kind, start, end, value=None, line=None):
        self.kind, self.start, self.end, self.value, self.line = kind, start, end, value, line

    @property
    def is_error(self):
        return self.kind == b"-"


def read_words(text, at, count):
    """Returns so many words and the place behind them, or None where the text doesn't go on so."""
    words = []
    for _ in range(count):
        length = LENGTH.match(text, at)
        end = length.end() + int(length[1]) if length else 0
        if not length or text[end : end + 2] != b"\r\n":
            return None, at
        words.append(text[length.end() : end])
        at = end + 2
    return words, at


def read_requests(text):
    """Returns the whole requests in front, and the place behind them. Arrays of no words are passed over."""
    requests, at = [], 0
    while head := COUNT.match(text, at):
        words, end = read_words(text, head.end(), max(int(head[1]), 0))
        if words is None:
            break
        if words:
            requests.append(Request(words, at, end))
        at = end
    return requests, at


def protocol_error(text, at):
    """Returns the text of the error that an input gets which goes on so behind its whole requests, or None where it
    ends there or within a request."""
    end = end_of(text[at:])
    return end if end.startswith("ERR") else None


def read_reply(text, at, depth=0):
    """Returns the reply at a place, or None where no whole one stands there."""
    line = LINE.match(text, at)
    if not line or depth > DEEPEST:
        return None
    kind, rest = line[1], line[2]
    if kind in b"+-":
        return Reply(kind, at, line.end(), line=rest)
    if kind == b":":
        return Reply(kind, at, line.end(), int(rest)) if NUMBER.fullmatch(rest) else None
    if not SIZE.fullmatch(rest):
        return None
    size = int(rest)
    if size < 0:
        return Reply(kind, at, line.end())
    if kind == b"$":
        end = line.end() + size
        whole = text[end : end + 2] == b"\r\n"
        return Reply(kind, at, end + 2, text[line.end() : end]) if whole else None
    return read_array(text, line, size, depth)


def read_array(text, head, count, depth):
    items, at = [], head.end()
    for _ in range(count):
        item = read_reply(text, at, depth + 1)
        if item is None:
            return None
        items.append(item)
        at = item.end
    return Reply(b"*", head.start(), at, items)


def read_replies(text, most):
    """Returns the whole replies in front, so many at most, and the place behind them."""
    replies, at = [], 0
    while len(replies) < most and (reply := read_reply(text, at)):
        replies.append(reply)
        at = reply.end
    return replies, at
