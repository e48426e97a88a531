"""A verdict of `check` in words."""

import re

from judging import errors, shown
from plain.requests import MOST_BYTES

DIFFERS = re.compile(r"differs session (\d+) place (\d+) expected (\d+|end) found (\d+|end)")
DISORDER = re.compile(r"bad journal shard (\d+) place (\d+)")
BAD_LINE = re.compile(r"bad line (\d+)")
TOO_LARGE = re.compile(r"too large (\d+)")


class Names:
    """What the files are called: the journal, and of each session the replies."""

    def __init__(self, journal, replies):
        self.journal, self.replies = journal, replies


def plural(count, what):
    return f"{count:,} {what}{'' if count == 1 else 's'}"


def verdict_in_words(verdict, case, names):
    """Returns the lines that say a verdict of `check` of a case. An unknown verdict stays as it is."""
    if verdict == "same":
        return [f"same: {plural(len(case.kept), 'session')}, {plural(case.commands(), 'command')}"]
    if found := DIFFERS.fullmatch(verdict):
        return Difference(case, *found.groups()).lines(names)
    if found := DISORDER.fullmatch(verdict):
        return disorder(case, int(found[1]), int(found[2]), names)
    if found := BAD_LINE.fullmatch(verdict):
        return bad_line(case, int(found[1]), names)
    if found := TOO_LARGE.fullmatch(verdict):
        return too_large(case, int(found[1]), names)
    return [verdict]


class Difference:
    """The first byte of a session that isn't the journal's, and the call to whose reply it belongs. `start` is where
    that reply begins in what is judged."""

    def __init__(self, case, session, place, expected, found):
        self.case, self.number, self.place = case, int(session), int(place)
        self.expected_byte, self.found_byte = expected, found
        self.kept = case.kept[self.number]
        self.start, self.index = 0, 0
        while self.index < len(self.kept.texts) and self.start + len(self.kept.texts[self.index]) <= self.place:
            self.start += len(self.kept.texts[self.index])
            self.index += 1
        self.call = self.kept.calls[self.index] if self.index < len(self.kept.calls) else None

    def found(self):
        return self.kept.texts[self.index] if self.index < len(self.kept.texts) else self.kept.rest

    def expected(self):
        """The reply that the journal gives, where it has the byte that the verdict names; else None."""
        text = self.case.replay.reply(self.number, self.index) if self.call else b""
        if text is None:
            return None
        offset = self.place - self.start
        byte = str(text[offset]) if offset < len(text) else "end"
        return text if byte == self.expected_byte else None

    def source_place(self):
        """The place of the byte in the replies as they came."""
        first = self.kept.session.rest
        if self.index < len(self.kept.texts) and self.call.reply:
            first = self.call.reply.start
        return first + self.place - self.start

    def lines(self, names):
        session = self.kept.session.number
        where = f"(byte {self.source_place():,} of {names.replies[session]})"
        if self.call is None:
            found = shown.reply(self.found())
            return [f"session {session}, behind its last call: expected nothing, found {found} {where}"]
        front = f"session {session}, {shown.call_name(self.call)}: "
        expected = self.expected()
        if expected is None:
            bytes_ = f"expected {self.byte(self.expected_byte)}, found {self.byte(self.found_byte)}"
            return [f"{front}{bytes_} {where}"]
        both = self.both(expected, self.found())
        return [f"{front}{both} {where}", *self.reasons(expected)]

    @staticmethod
    def byte(number):
        return "the end" if number == "end" else f"byte {number}"

    def both(self, expected, found):
        """What was expected and what was found; of texts that look the same, the bytes around the first that
        differs."""
        texts = shown.reply(expected), shown.reply(found)
        if texts[0] != texts[1]:
            return f"expected {texts[0]}, found {texts[1]}"
        offset = self.place - self.start
        windows = shown.window(expected, offset), shown.window(found, offset)
        return f"expected {windows[0]}, found {windows[1]} from byte {max(offset - shown.WINDOW, 0):,} of the reply on"

    def reasons(self, expected):
        """Where the difference is one by choice or of texts alone, a line that says so."""
        others = self.case.replay.other_range(self.number, self.index) if self.call.name == b"GETRANGE" else None
        if others is not None and self.call.reply and self.call.reply.value == others:
            yield "a difference by choice: where the end counts back past the first byte, Redis gives the first byte"
        error = self.call.error()
        if error and self.call.own_error() and b"-%b\r\n" % errors.ours(error).encode() == expected:
            yield "the same error in another server's text: tools/judge takes it for the same"


def entry_shown(case, entry, line):
    """The call that an entry names, with the numbers of the files."""
    source = case.source.entries[line - 2]
    kept = case.kept[entry.session] if entry.session < len(case.kept) else None
    if kept and entry.call < len(kept.calls):
        call = kept.calls[entry.call]
        which = f", part {entry.part}" if entry.part or len(call.own_parts) > 1 else ""
        return f"session {kept.session.number}'s {shown.call_name(call)}{which}"
    return f"session {source.session}'s call {source.call}, part {source.part}"


def due_shown(case, wrong):
    """The part that was due, and of which call."""
    kept = case.kept[wrong.session]
    number, part, _ = wrong.due
    call = kept.calls[number]
    which = f", part {part}" if len(call.own_parts) > 1 else ""
    whose = "its" if wrong.entry else f"session {kept.session.number}'s"
    return f"{whose} {shown.call_name(call)}{which}"


def disorder(case, shard, place, names):
    """Where the journal isn't in order, in words: what stands there, and what was due."""
    wrong = case.replay.disorder
    if not wrong or (wrong.shard, wrong.place) != (shard, place):
        return [f"shard {shard}, entry {place}: it isn't that of the next part of its session"]
    front = f"shard {shard}, entry {place}"
    if wrong.entry is None:
        return [f"{front}: {names.journal} has no more there, and {due_shown(case, wrong)}, was due"]
    stands = f"{front}: {entry_shown(case, wrong.entry, wrong.line)}"
    where = f"(line {wrong.line} of {names.journal})"
    if not wrong.is_part:
        return [f"{stands}, stands there, and no such part is run by this shard {where}"]
    if wrong.due:
        return [f"{stands}, stands there, and {due_shown(case, wrong)}, was due {where}"]
    return [f"{stands}, stands behind itself or a later part of its session {where}"]


def too_large(case, place, names):
    """Names the file that stands at a place of those that were opened."""
    files = [names.journal]
    for kept in case.kept:
        replies = names.replies[kept.session.number]
        files += [f"the input of session {kept.session.number}"] + [replies] * (replies != "none")
    most = MOST_BYTES if files[place : place + 1] and files[place].startswith("the input") else 2 * MOST_BYTES
    return [f"{name} has more bytes than the {most:,} that `check` reads" for name in files[place : place + 1]]


def bad_line(case, line, names):
    lines = case.source.lines
    found = lines[line - 1] if line <= len(lines) else b""
    entry = "shard, session, call and part, in the order of shards"
    wanted = "`shards` and a number from 1 to 16" if line == 1 else entry
    return [f"{names.journal}, line {line} is {shown.window(found, 0)}: no journal has that; there stand {wanted}"]
