"""Requests that are taken from elsewhere: those that this program has, and a list of the others."""

import collections

from judging.calls import LIMITS, other_option, shown_name
from plain.requests import WORDS, fault_of
from plain.shown import shortened

MOST_PLACES = 3


def why_other(words):
    """Returns what a command is that this program doesn't have, or that goes past its limits; else None."""
    if words[0].upper() not in WORDS:
        return shown_name(words)
    fault = fault_of(words)
    if fault in LIMITS:
        return f"{shown_name(words)} past a limit: {fault[4:]}"
    if fault == "ERR syntax error" and (option := other_option(words)):
        return f"SET with {option}"
    return None


class Others:
    """Commands that aren't taken, each kind with the places of the first."""

    def __init__(self):
        self.places = collections.defaultdict(list)

    def add(self, what, place):
        self.places[what].append(place)

    def lines(self):
        """A line for each kind."""
        for what, places in self.places.items():
            more = f" and {len(places) - MOST_PLACES:,} more" if places[MOST_PLACES:] else ""
            yield f"{len(places):,} {what}: {', '.join(places[:MOST_PLACES])}{more}"


def request(words):
    """The text of a request."""
    return b"*%d\r\n" % len(words) + b"".join(b"$%d\r\n%b\r\n" % (len(word), word) for word in words)


def line_shown(line):
    """The front of a line that can't be read."""
    return shortened(line, repr_of, 40).decode()


def repr_of(line):
    return repr(line.decode("latin-1")).encode("ascii", "backslashreplace")
