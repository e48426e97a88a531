"""The folder of a recording: of session N `inN.resp`, `replyN.resp` and `timesN.txt`; `sessions.txt` with a line for
each, its number, its client's address at the server and who ended it; `journal.txt`; and `monitor.log`."""

import os
import re
import socket

from judging.calls import REFUSED, Session

MOST_SESSIONS = 16
JOURNAL, MONITOR, SESSIONS = "journal.txt", "monitor.log", "sessions.txt"
ENDED_BY = ("client", "server", "recorder")
INPUT = re.compile(r"in(0|[1-9][0-9]*)\.resp")
TIME = re.compile(r"(\d+) (\d+|-)")
SESSION = re.compile(r"(\d+) (\S+) (client|server|recorder)")


class Refused(Exception):
    """Why a folder is no recording."""


class Times:
    """When a request had come whole, and when its reply had, in nanoseconds of one clock; None where it never came."""

    def __init__(self, requested, replied):
        self.requested, self.replied = requested, replied


def read(folder, name):
    try:
        with open(os.path.join(folder, name), "rb") as it:
            return it.read()
    except OSError as it:
        raise Refused(f"{os.path.join(folder, name)}: {it.strerror}") from None


def lines_of(folder, name, form):
    """Yields the matches of each line of a text."""
    for number, line in enumerate(read(folder, name).decode("ascii", "replace").splitlines(), 1):
        found = form.fullmatch(line)
        if not found:
            raise Refused(f"{os.path.join(folder, name)}, line {number} isn't of its form")
        yield found


class Recording:
    """What stands in a folder."""

    def __init__(self, folder):
        self.folder = folder
        try:
            numbers = sorted(int(found[1]) for found in map(INPUT.fullmatch, os.listdir(folder)) if found)
        except OSError as it:
            raise Refused(f"{folder}: {it.strerror}") from None
        if not numbers:
            raise Refused(f"{folder} has no in0.resp: it is no recording")
        if numbers != list(range(len(numbers))):
            raise Refused(f"{folder} has no in{min(set(range(len(numbers))) - set(numbers))}.resp")
        self.ends, self.addresses = self.read_ends()
        self.sessions = [self.session(number) for number in numbers]

    def has(self, name):
        return os.path.exists(os.path.join(self.folder, name))

    def read_ends(self):
        if not self.has(SESSIONS):
            return {}, {}
        found = list(lines_of(self.folder, SESSIONS, SESSION))
        return {int(it[1]): it[3] for it in found}, {int(it[1]): it[2] for it in found}

    def session(self, number):
        requests, replies = read(self.folder, f"in{number}.resp"), read(self.folder, f"reply{number}.resp")
        return Session(number, requests, replies, self.ends.get(number) in ("client", "recorder"))

    def has_refused(self):
        """Whether any call can't be judged."""
        return any(call.standing()[0] == REFUSED for session in self.sessions for call in session.calls)

    def journal(self):
        """The journal's text, or None where there is none."""
        return read(self.folder, JOURNAL) if self.has(JOURNAL) else None

    def read_times(self):
        """Gives each call its times."""
        for session in self.sessions:
            name = f"times{session.number}.txt"
            times = list(lines_of(self.folder, name, TIME))
            if len(times) != len(session.calls):
                lines = f"{len(times)} lines for {len(session.calls)} calls"
                raise Refused(f"{os.path.join(self.folder, name)} has {lines}")
            for call, found in zip(session.calls, times):
                call.time = Times(int(found[1]), None if found[2] == "-" else int(found[2]))


def write(folder, name, text):
    with open(os.path.join(folder, name), "wb") as it:
        it.write(text)


def listen(port):
    listener = socket.socket(socket.AF_INET, socket.SOCK_STREAM)
    listener.setsockopt(socket.SOL_SOCKET, socket.SO_REUSEADDR, 1)
    listener.bind(("127.0.0.1", port))
    listener.listen(64)
    return listener


def make_folder(folder):
    os.makedirs(folder, exist_ok=True)
    if os.listdir(folder):
        raise Refused(f"{folder} isn't empty: name a folder for this recording alone")
