"""The requests of a file, and the parts of each: an operation on one key."""

import re

HEAD = re.compile(rb"\*(-1|0|[1-9][0-9]{0,3})\r\n")
LENGTH = re.compile(rb"\$(0|[1-9][0-9]{0,6})\r\n")
NUMBER = re.compile(rb"0|-?[1-9][0-9]*")
MOST_WORDS, MOST_WORD, MOST_BYTES = 1_024, 1_048_576, 67_108_864
MOST_KEYS, MOST_KEY, MOST_VALUE, MOST_MESSAGE = 64, 512, 65_536, 16_384

# The least and the greatest number of words of each command.
WORDS = {
    b"PING": (1, 2),
    b"GET": (2, 2),
    b"SET": (3, MOST_WORDS),
    b"MGET": (2, MOST_WORDS),
    b"DEL": (2, MOST_WORDS),
    b"EXISTS": (2, MOST_WORDS),
    b"APPEND": (3, 3),
    b"STRLEN": (2, 2),
    b"GETRANGE": (4, 4),
}
ALL_ARE_KEYS = (b"MGET", b"DEL", b"EXISTS")
OPTIONS = {b"NX", b"XX", b"GET"}


def requests(text):
    """Yields the words of each whole request, up to where the file breaks the protocol or is too long."""
    at, text = 0, text[:MOST_BYTES]
    while head := HEAD.match(text, at):
        count, words, at = int(head[1]), [], head.end()
        if count > MOST_WORDS:
            return
        while len(words) < count:
            length = LENGTH.match(text, at)
            if not length or int(length[1]) > MOST_WORD:
                return
            end = length.end() + int(length[1])
            if text[end : end + 2] != b"\r\n":
                return
            words.append(text[length.end() : end])
            at = end + 2
        if count > 0:
            yield words


def number(word):
    """Returns the place that a word of GETRANGE names, or None where it is no number of 64 bits."""
    value = int(word) if len(word) <= 20 and NUMBER.fullmatch(word) else None
    return value if value is not None and -(2**63) <= value < 2**63 else None


def options_of(words):
    """Returns the options of a SET, or None where a word is none or two exclude each other."""
    options = {word.upper() for word in words}
    return options if options <= OPTIONS and not {b"NX", b"XX"} <= options else None


class Part:
    """An operation on one key, with what it brings: a SET's value and options, APPEND's bytes, GETRANGE's places."""

    def __init__(self, name, key, *given):
        self.name, self.key, self.given = name, key, given


def brought(name, words):
    """How many bytes a request brings, and how many it may."""
    if name == b"PING":
        return len(b"".join(words[1:])), MOST_MESSAGE
    return len(words[2]) if name in (b"SET", b"APPEND") else 0, MOST_VALUE


def fault_of(words):
    """Returns the text of the error that answers a request, by the first test that it fails, or None."""
    name = words[0].upper()
    if name not in WORDS:
        return "ERR unknown command"
    least, most = WORDS[name]
    if not least <= len(words) <= most:
        return "ERR wrong number of arguments"
    if name == b"SET" and options_of(words[3:]) is None:
        return "ERR syntax error"
    if len(keys_of(name, words)) > MOST_KEYS:
        return "ERR too many keys"
    if any(len(key) > MOST_KEY for key in keys_of(name, words)):
        return "ERR key too long"
    length, most = brought(name, words)
    if length > most:
        return "ERR value too long"
    if name == b"GETRANGE" and None in map(number, words[2:]):
        return "ERR value is not an integer or out of range"
    return None


def keys_of(name, words):
    return words[1:] if name in ALL_ARE_KEYS else [] if name == b"PING" else words[1:2]


def parts_of(words):
    """Returns the parts of a request; none where it fails a test."""
    if fault_of(words):
        return []
    name = words[0].upper()
    if name == b"SET":
        return [Part(name, words[1], words[2], options_of(words[3:]))]
    if name == b"GETRANGE":
        return [Part(name, words[1], *map(number, words[2:]))]
    return [Part(name, key, *words[2:3] if name == b"APPEND" else ()) for key in keys_of(name, words)]
