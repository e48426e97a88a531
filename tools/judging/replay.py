"""What a plain store answers where it does what a journal says, and where a journal isn't in order. It isn't proved:
verdicts are the program's, and this finds the words for them."""

import functools

from judging.errors import NO_MEMORY
from plain.replies import reply, text_of
from plain.store import answer, range_of, shard_of

WRITES = (b"SET", b"APPEND")  # their parts may have no entry: such a one found no room
shard_of = functools.lru_cache(maxsize=65536)(shard_of)


def place_of(part, shards):
    """The shard of a part's key."""
    return shard_of(part.key, shards) if shards > 1 else 0


class Parts:
    """The parts of a session that belong to a shard, as pairs of call and part number, in their order."""

    def __init__(self, calls, shard, shards):
        self.parts = [
            (number, index, part)
            for number, call in enumerate(calls)
            for index, part in enumerate(call.own_parts)
            if place_of(part, shards) == shard
        ]
        self.places = {(number, index): place for place, (number, index, _) in enumerate(self.parts)}
        self.next = 0

    def due(self, end):
        """Returns the first part that reads, between the last entry and a place in this list; or None."""
        return next((it for it in self.parts[self.next : end] if it[2].name not in WRITES), None)


class Disorder:
    """Where a journal isn't in order: an entry, or the end of a shard's list, which has none; and why: the part that
    was due there, or none where the entry names no part of the shard, or one that doesn't come behind the last."""

    def __init__(self, shard, place, session, entry=None, line=None, due=None, is_part=True):
        self.shard, self.place, self.session, self.entry, self.line = shard, place, session, entry, line
        self.due, self.is_part = due, is_part


class Replay:
    """A journal over the calls of sessions. `answers` has those of each part, by session, call and part; `found` what a
    GETRANGE's key had."""

    def __init__(self, journal, sessions):
        self.journal, self.sessions = journal, sessions
        self.answers, self.found, self.disorder = {}, {}, None
        self.store = {}
        for shard in range(journal.shards or 0):
            if not self.disorder:
                self.disorder = self.run(shard)

    def run(self, shard):
        """Does the entries of a shard, and returns where they aren't in order."""
        parts = [Parts(calls, shard, self.journal.shards) for calls in self.sessions]
        place = 0
        for place, (entry, line) in enumerate(self.journal.of_shard(shard), 1):
            of_session = parts[entry.session] if entry.session < len(parts) else None
            wrong = self.step(entry, of_session)
            if wrong:
                due, is_part = wrong
                return Disorder(shard, place - 1, entry.session, entry, line, due, is_part)
        for session, of_session in enumerate(parts):
            due = of_session.due(len(of_session.parts))
            if due:
                return Disorder(shard, place, session, due=due)
        return None

    def step(self, entry, parts):
        """Does one entry; or returns the part that was due, and whether the entry names a part at all."""
        at = parts.places.get((entry.call, entry.part)) if parts else None
        if at is None:
            return None, False
        if at < parts.next:
            return None, True
        due = parts.due(at)
        if due:
            return due, True
        part = parts.parts[at][2]
        which = (entry.session, entry.call, entry.part)
        if part.name == b"GETRANGE":
            self.found[which] = self.store.get(part.key, b"")
        self.answers[which] = answer(self.store, part)
        parts.next = at + 1
        return None

    def reply(self, session, number):
        """The text of the reply to a call, or None where the journal doesn't lead so far."""
        call = self.sessions[session][number]
        if call.broken:
            return text_of(call.broken)
        missing = [n for n in range(len(call.own_parts)) if (session, number, n) not in self.answers]
        if missing:
            return text_of(NO_MEMORY) if call.name in WRITES and not self.disorder else None
        return reply(call.words, [self.answers[session, number, n] for n in range(len(call.own_parts))])

    def other_range(self, session, number):
        """What Redis gives of a GETRANGE whose end counts back past the first byte, where this program gives no bytes;
        else None."""
        call, value = self.sessions[session][number], self.found.get((session, number, 0))
        if value is None:
            return None
        others = redis_range(value, *call.own_parts[0].given)
        return others if others != range_of(value, *call.own_parts[0].given) else None


def redis_range(value, start, end):
    """GETRANGE as Redis has it: each place that is before the first byte is the first one."""
    if start < 0 and end < 0 and start > end:
        return b""
    first, last = (max(place + len(value) if place < 0 else place, 0) for place in (start, end))
    return value[first : last + 1]
