"""What the command itself says, on standard error."""

import contextlib
import os
import re
import shlex

CONTROLS = re.compile("[\0-\x1f\x7f-\x9f\ud800-\udfff]")
SAFE = re.compile(r"[\w@%+=:,./-][\w@%+=:,./~-]*", re.ASCII)
ESCAPES = {"\n": "\\n", "\t": "\\t", "\r": "\\r", "\x1b": "\\e"}


class Refused(Exception):
    """Why nothing was run, and the exit status that says so. `said` is what the program says of it, if it says so."""

    def __init__(self, why, status=125, said=None):
        super().__init__(why)
        self.status, self.said = status, said


class Voice:
    """Says lines; a quiet one leaves out what goes as it should."""

    def __init__(self, is_quiet):
        self.is_quiet = is_quiet

    def say(self, text):
        with contextlib.suppress(OSError):
            os.write(2, b"vepkhundi: %b\n" % os.fsencode(escaped(text)))

    def note(self, text):
        if not self.is_quiet:
            self.say(text)


def escape(found):
    """Returns a byte that no terminal is to take, as a shell's $'..' has it."""
    letter = found[0]
    if letter in ESCAPES:
        return ESCAPES[letter]
    return "".join(f"\\x{byte:02x}" for byte in os.fsencode(letter))


def escaped(text):
    return CONTROLS.sub(escape, text)


def quoted(word):
    """Returns a word as a shell takes it, with no byte that a terminal would obey."""
    if SAFE.fullmatch(word):
        return word
    if not CONTROLS.search(word):
        return shlex.quote(word)
    plain = word.replace("\\", "\\\\").replace("'", "\\'")
    return f"$'{escaped(plain)}'"


def reason(error):
    """Returns why the system refused, and where, if it says so."""
    return f"{error.strerror}: {error.filename}" if error.filename else f"{error.strerror}"
