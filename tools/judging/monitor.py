"""What MONITOR says: a line for each command that was run, in the order of their runs, with the address of its
client."""

import re

from judging.journal import Entry
from judging.outside import touches_no_key

LINE = re.compile(rb'\+?(\d+)\.(\d{6}) \[(\d+) ([^\]]*)\]((?: "(?:[^"\\]|\\.)*")+)', re.DOTALL)
WORD = re.compile(rb'"((?:[^"\\]|\\.)*)"', re.DOTALL)
ESCAPE = re.compile(rb"\\(x[0-9a-f]{2}|.)", re.DOTALL)
ESCAPES = {b"n": b"\n", b"r": b"\r", b"t": b"\t", b"b": b"\b", b"a": b"\a"}


class Shown:
    """A command that MONITOR showed: its words, its client's address, and the number of its database."""

    def __init__(self, database, address, words):
        self.database, self.address, self.words = database, address, words


class NoOrder(Exception):
    """Why what MONITOR said gives no order of the calls."""


def unescaped(found):
    escape = found[1]
    return bytes.fromhex(escape[1:].decode()) if len(escape) == 3 else ESCAPES.get(escape, escape)


def read_line(line):
    """Returns what a line shows, or None where it is none of MONITOR's."""
    found = LINE.fullmatch(line)
    if not found:
        return None
    words = [ESCAPE.sub(unescaped, word) for word in WORD.findall(found[5])]
    return Shown(int(found[3]), found[4].decode("ascii", "backslashreplace"), words)


class Aligned:
    """A session's calls, and how far MONITOR has shown them."""

    def __init__(self, calls):
        self.calls, self.next = calls, 0

    def take(self, words):
        """Returns the next call, which has these words. Calls in front of it that MONITOR needn't show are passed
        over."""
        for place in range(self.next, len(self.calls)):
            call = self.calls[place]
            if call.words == words and not call.has_no_memory():
                self.next = place + 1
                return call
            if not may_be_unseen(call):
                break
        return None

    def unseen(self):
        """The calls behind the last that was shown; and of these the first that must have been, or None."""
        rest = self.calls[self.next :]
        return rest, next((call for call in rest if not may_be_unseen(call)), None)


def may_be_unseen(call):
    """Whether a call may have been answered without a run: one that touches no key, one that was refused, and one that
    has no reply."""
    return not call.own_parts or call.reply is None or call.reply.is_error


def order(lines, sessions, addresses):
    """Returns the entries of a journal in MONITOR's order. Calls without a reply that weren't shown come last, where
    nothing sees what they do."""
    by_address = {addresses[session.number]: Aligned(session.calls) for session in sessions}
    if len(by_address) < len(sessions):
        raise NoOrder("MONITOR shows one address for several connections")
    entries = []
    for shown in lines:
        aligned = by_address.get(shown.address)
        if aligned:
            call = aligned.take(shown.words)
            if call is None:
                raise NoOrder(f"MONITOR shows {b' '.join(shown.words[:3])[:60]!r} of {shown.address} out of turn")
            entries += entries_of(call)
    for aligned in by_address.values():
        rest, missing = aligned.unseen()
        if missing:
            raise NoOrder(f"MONITOR never showed session {missing.session}'s call {missing.number}")
        entries += [entry for call in rest if call.reply is None for entry in entries_of(call)]
    return entries


def entries_of(call):
    return [Entry(0, call.session, call.number, part) for part in range(len(call.parts))]


def others(lines, addresses):
    """The addresses of clients that weren't recorded, as far as they ran anything that touches keys: a script's is
    `lua`."""
    touching = (shown for shown in lines if shown.words[0].upper() != b"PING" and not touches_no_key(shown.words))
    return sorted({shown.address for shown in touching} - set(addresses))
