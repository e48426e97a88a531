"""The replies of a run that are errors: how many, which, and what there is to do."""

import collections
import itertools
import mmap
import os
import re

from launcher.opening import is_file, read_again
from launcher.table import FRAMES
from launcher.voice import escaped
from launcher.wanted import sizes_for
from plain.frames import HEADER, cut
from plain.requests import requests
from plain.shown import shortened, typed

PLAIN = re.compile(rb"(?:[+:][^\r\n]*\r\n|[$]-1\r\n)+")
HEAD = re.compile(rb"([-*$])([^\r\n]*)\r\n")
NONE_FREE, PROTOCOL, UNKNOWN = b"OOM no free buffer", b"ERR Protocol error", b"ERR unknown command"
MOST = 24  # bytes of a word
COMMANDS = "PING, GET, SET, MGET, DEL, EXISTS, APPEND, STRLEN and GETRANGE"


class Errors:
    """Those of one file of replies: how many replies there are, and by text how many errors and the first one's
    call, from 0. What ends the input is no refused command."""

    def __init__(self, text):
        self.replies, self.counts, self.firsts = 0, collections.Counter(), {}
        at = 0
        while at < len(text):
            at = self.take(text, at)

    def take(self, text, at):
        """Takes what stands at a place, and returns the place behind it."""
        if found := PLAIN.match(text, at):
            self.replies += found[0].count(b"\r\n")
            return found.end()
        found = HEAD.match(text, at)
        if not found:
            return len(text)  # (a reply that isn't whole)
        self.replies += 1
        if found[1] == b"-":
            self.add(found[2])
            return found.end()
        return behind(text, at)

    def add(self, error):
        if not error.startswith(PROTOCOL):
            self.counts[error] += 1
            self.firsts.setdefault(error, self.replies - 1)


def behind(text, at):
    """Returns the place behind the bulk string or the array of such that stands at a place."""
    left = 1
    while left:
        found = HEAD.match(text, at)
        if not found:
            return len(text)
        at, size, left = found.end(), int(found[2]), left - 1
        if found[1] == b"*":
            left += max(size, 0)
        elif size >= 0:
            at += size + 2
    return at


def errors_of(file, are_frames):
    """Returns the errors of a file of replies, or None where it has none. Most have none, which is seen at once."""
    if not is_file(file) or os.stat(file).st_size == 0:
        return None
    with open(file, "rb") as it, mmap.mmap(it.fileno(), 0, access=mmap.ACCESS_READ) as text:
        if shows_none(text, are_frames):
            return None
        errors = Errors(whole(text) if are_frames else text)
    return errors if errors.counts else None


def shows_none(text, are_frames):
    """Whether no reply of a file begins as an error does. A frame's header ends with two bytes 0."""
    if are_frames:
        return text.find(b"\0\0-") < 0
    return text[:1] != b"-" and text.find(b"\r\n-") < 0


def whole(frames):
    """Returns the replies whose frames stand in a file in their order."""
    return b"".join(each[HEADER.size :] for each in cut(frames))


def request_at(file, call):
    """Returns a request of a file in short, where the file can be read a second time."""
    text = read_again(file)
    words = next(itertools.islice(requests(text), call, None), None) if text is not None else None
    return None if words is None else b" ".join(shortened(word, typed, MOST) for word in words[:2]).decode("latin-1")


def first_of(errors, error, file):
    call = errors.firsts[error]
    request = None if file is None else request_at(file, call)
    return f"call {call}" if request is None else f"call {call}, {escaped(request)}"


def line_of(session, errors, file):
    """What is said of a session's errors."""
    kinds = "; ".join(
        f"{count} {escaped(error.decode('latin-1'))} (first: {first_of(errors, error, file)})"
        for error, count in errors.counts.most_common()
    )
    many = sum(errors.counts.values())
    are = "is an error" if many == 1 else "are errors"
    return f"session {session}: {many} of {errors.replies} replies {are}: {kinds}"


def refused_commands(task):
    """Returns a line for each session that has errors, with what to do behind the last one."""
    files, are_frames = task.files, task.command == FRAMES
    found = {session: errors_of(name, are_frames) for session, name in enumerate(task.replies)}
    found = {session: errors for session, errors in found.items() if errors}
    every = set().union(*(errors.counts for errors in found.values()))
    lines = [line_of(session, errors, files[session] if files else None) for session, errors in found.items()]
    todo = [sizes_for(files, task.given)] if NONE_FREE in every and files else []
    todo += [f"the commands are {COMMANDS}"] if UNKNOWN in every else []
    if todo:
        lines[-1] += f": {'; '.join(todo)}"
    return lines
