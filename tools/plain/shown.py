"""Bytes as redis-cli shows them."""

import re

PLAIN = re.compile(rb"[!-~]+")
QUOTES = re.compile(rb"[\"'\\]")


def escaped(value):
    """Returns the bytes of a string as they are shown between quotes."""
    bells = (b"\\b".join(map(escaped_others, part.split(b"\b"))) for part in value.split(b"\a"))
    return b"\\a".join(bells)


def escaped_others(part):
    """Does so for bytes with no \\a and \\b, which Python's own escapes don't know."""
    return part.decode("latin-1").encode("unicode_escape").replace(b'"', b'\\"')


def quoted(value):
    """Returns a string in quotes."""
    return b'"' + escaped(value) + b'"'


def typed(value):
    """Returns a word as it would be typed: in quotes where it needs them."""
    return value if PLAIN.fullmatch(value) and not QUOTES.search(value) else quoted(value)


def shortened(value, show, most):
    """Returns a string as `show` shows it, or so many of its bytes and then its length."""
    return show(value) if len(value) <= most else show(value[:most]) + b".. (%d bytes)" % len(value)
