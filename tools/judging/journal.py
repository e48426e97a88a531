"""A journal's text: `shards N`, and a line for each part that was run: shard, session, call and part."""

import re

NUMBER = rb"(0|[1-9][0-9]{0,9})"
HEAD = re.compile(rb"shards ([1-9]|1[0-6])")
LINE = re.compile(rb" ".join(4 * [NUMBER]))
MOST_SESSIONS, MOST_CALLS, MOST_PARTS = 16, 2**32, 64
NO_CALL = MOST_CALLS - 1  # stands for a call that is not among those that are judged


class Entry:
    """What a line says: by which shard, and which part of which call of which session."""

    def __init__(self, shard, session, call, part):
        self.shard, self.session, self.call, self.part = shard, session, call, part

    def line(self):
        return b"%d %d %d %d" % (self.shard, self.session, self.call, self.part)


class Journal:
    """The lines of a text, as they stand. `shards` is None where the first line isn't of its form, `entries` has an
    entry or None for each further line, and `bad_line` is the first line, from 1, that stands in no journal, or
    None."""

    def __init__(self, text):
        *lines, last = text.split(b"\n")
        self.lines = lines + ([last] if last else [])
        head = HEAD.fullmatch(self.lines[0]) if self.lines else None
        self.shards = int(head[1]) if head else None
        self.entries = self.read_entries() if head else []
        bad = next((line for line, entry in enumerate(self.entries, 2) if entry is None), None)
        self.bad_line = bad if head else 1

    def read_entries(self):
        entries, shard = [], 0
        for line in self.lines[1:]:
            numbers = LINE.fullmatch(line)
            entry = Entry(*map(int, numbers.groups())) if numbers else None
            entries.append(entry if entry and self.fits(entry, shard) else None)
            shard = entry.shard if entry else shard
        return entries

    def fits(self, entry, least_shard):
        fits = least_shard <= entry.shard < self.shards and entry.session < MOST_SESSIONS
        return fits and entry.call < MOST_CALLS and entry.part < MOST_PARTS

    def of_shard(self, shard):
        """Returns the entries of a shard with their lines, from 1."""
        return [(entry, line) for line, entry in enumerate(self.entries, 2) if entry and entry.shard == shard]


def text_of(entries, shards=1):
    """The text of a journal with these entries, in the order of its shards."""
    lines = [b"shards %d" % shards]
    for shard in range(shards):
        lines += [entry.line() for entry in entries if entry.shard == shard]
    return b"\n".join(lines) + b"\n"
