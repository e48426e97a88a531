"""The table of errors: longer texts of other servers, and the text that this program has for the same kind."""

import re

# What stands behind the `-` of an error, as a form, and this program's text.
TEXTS = [
    (rb"ERR unknown command\b.*", "ERR unknown command"),
    (rb"ERR wrong number of arguments\b.*", "ERR wrong number of arguments"),
    (rb"ERR syntax error", "ERR syntax error"),
    (rb"ERR value is not an integer or out of range", "ERR value is not an integer or out of range"),
    (rb"ERR Protocol error: invalid multibulk length", "ERR Protocol error: invalid multibulk length"),
    (rb"ERR Protocol error: expected '\$'(, got '.*')?", "ERR Protocol error: expected '$'"),
    (rb"ERR Protocol error: invalid bulk length", "ERR Protocol error: invalid bulk length"),
    (rb"OOM command not allowed when used memory > 'maxmemory'\.?", "OOM no free buffer"),
    (rb"OOM no free buffer", "OOM no free buffer"),
]
TABLE = [(re.compile(form, re.DOTALL), ours) for form, ours in TEXTS]

NO_MEMORY = "OOM no free buffer"

# First words of errors by which a server says that it runs no commands as it is, whatever the command is.
STATES = (
    b"ASK", b"BUSY", b"CLUSTERDOWN", b"LOADING", b"MASTERDOWN", b"MISCONF", b"MOVED", b"NOAUTH", b"NOPERM",
    b"NOREPLICAS", b"READONLY", b"TRYAGAIN",
)  # fmt: skip


def ours(line):
    """Returns this program's text for the kind of an error that another server said, or None where the table lacks
    it."""
    return next((text for form, text in TABLE if form.fullmatch(line)), None)


def state(line):
    """Returns the word by which an error says that the server ran no commands, or None."""
    word = line.split(b" ")[0]
    return word.decode() if word in STATES else None
