"""The text of the reply to a request, from what its parts answered."""

from plain.requests import fault_of
from plain.store import OK


def text_of(answered):
    """The text of one answer: bytes, None for null, a number, or a line."""
    if answered is None:
        return b"$-1\r\n"
    if isinstance(answered, bytes):
        return b"$%d\r\n%s\r\n" % (len(answered), answered)
    if isinstance(answered, int):
        return b":%d\r\n" % answered
    return b"+OK\r\n" if answered == OK else b"-" + answered.encode() + b"\r\n"


def reply(words, answers):
    """The text of a request's reply; `answers` are those of its parts, in order."""
    name, fault = words[0].upper(), fault_of(words)
    if fault:
        return text_of(fault)
    if name == b"PING":
        return text_of(words[1]) if words[1:] else b"+PONG\r\n"
    if name == b"MGET":
        return b"*%d\r\n" % len(answers) + b"".join(map(text_of, answers))
    return text_of(sum(answers) if name in (b"DEL", b"EXISTS") else answers[0])
