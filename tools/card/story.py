"""What a driven run did, from its transcript: where replies lay, and where values were stored.

The transcript says addresses and lengths. The bytes are those of the requests, for what was stored, and those of the
replies, for what was copied."""

import collections

from plain.requests import requests

# A call, with how many replies it reaped before, where its own lies and what that is, and what it stored where.
Call = collections.namedtuple("Call", "session number reaped segments text stored")
Gather = collections.namedtuple("Gather", "session")
Reap = collections.namedtuple("Reap", "session")


class Unread(Exception):
    """The transcript isn't one of these requests and replies."""


def end_of_reply(text, at):
    """Where the reply that begins there ends."""
    stop = text.index(b"\r\n", at) + 2
    mark, rest = text[at : at + 1], text[at + 1 : stop - 2]
    if mark == b"$":
        return stop if rest == b"-1" else stop + int(rest) + 2
    for _ in range(int(rest) if mark == b"*" else 0):
        stop = end_of_reply(text, stop)
    return stop


def replies_in(text):
    replies, at = [], 0
    while at < len(text):
        end = end_of_reply(text, at)
        replies.append(text[at:end])
        at = end
    return replies


def segments_of(words):
    return [tuple(map(int, word.split(":"))) for word in words]


class Values:
    """What each key has, and where."""

    def __init__(self):
        self.held, self.places = {}, {}

    def change(self, words, text):
        """Does what a request did that was answered so; says whether a value was stored."""
        name, key = words[0].upper(), words[1] if words[1:] else b""
        if text[:1] == b"-":
            return False
        if name == b"DEL":
            for one in words[1:]:
                self.held.pop(one, None)
                self.places.pop(one, None)
        elif name == b"APPEND":
            self.held[key] = self.held.get(key, b"") + words[2]
            return True
        elif name == b"SET":
            options = {word.upper() for word in words[3:]}
            if not (b"NX" in options and key in self.held or b"XX" in options and key not in self.held):
                self.held[key] = words[2]
                self.places.pop(key, None)
                return True
        return False

    def stored(self, words, text, segments):
        """What a call stored, as addresses and bytes. A whole fragment to which something is appended stays where it
        was."""
        if not self.change(words, text):
            return []
        key, at, found = words[1], 0, []
        value, before = self.held[key], self.places.get(key, [])
        if segments and sum(length for _, length in segments) != len(value):
            raise Unread(f"{segments} is where a value of {len(value)} bytes is stored")
        for address, length in segments:
            if (address, length) not in before:
                found.append((address, value[at : at + length]))
            at += length
        self.places[key] = segments
        return found


def events_of(transcript, inputs, replies):
    """The events of a transcript, from the inputs of its sessions and what was answered to each."""
    asked = [list(requests(text)) for text in inputs]
    answered = [replies_in(text) for text in replies]
    values = Values()
    for line in transcript.decode().splitlines():
        words = line.split()
        if words[0] == "call" and "send" in words:
            yield call_of(words, asked, answered, values)
        elif words[0] == "gather" and words[2] not in ("empty", "none"):
            yield Gather(int(words[1]))
        elif words[0] == "reap" and words[2] != "none":
            yield Reap(int(words[1]))


def call_of(words, asked, answered, values):
    session, number = int(words[1]), int(words[2])
    reaped = int(words[4]) if words[3] == "reaped" else 0
    sends = words.index("send")
    stores = words.index("store") if "store" in words else len(words)
    segments, text = segments_of(words[sends + 1 : stores]), answered[session][number]
    if sum(length for _, length in segments) != len(text):
        raise Unread(f"{' '.join(words)}: the reply has {len(text)} bytes")
    stored = values.stored(asked[session][number], text, segments_of(words[stores + 1 :]))
    return Call(session, number, reaped, segments, text, stored)
