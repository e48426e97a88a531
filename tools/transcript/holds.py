"""Who holds which buffer from when to when, by a transcript and the requests that it speaks of."""

import re

from plain.placed import NONE_FREE
from plain.pool import FIRST, LARGE, SMALL
from plain.replies import reply, text_of
from plain.requests import MOST_VALUE, parts_of
from plain.store import answer

PLACES = r"((?: \d+:\d+)+)"
POSTED = re.compile(rf"call (\d+) (\d+) (?:reaped (\d+) )?send{PLACES}(?: store{PLACES})?")
REFUSED = re.compile(r"call (\d+) (end|ring \d+ \d+|stage \d+ \d+)")
GATHERED = re.compile(r"gather (\d+) (\d+) (dropped )?(\d+)")
REAPED = re.compile(r"reap (\d+) (\d+) (\d+)")
NOTHING = re.compile(r"(?:gather|reap) (\d+) (?:empty|none)")
HELD = re.compile(r"held (\d+) (\d+)")


class Refused(Exception):
    """A line that doesn't belong there, from 1, and why."""

    def __init__(self, line, why):
        super().__init__(f"line {line}: {why}")


class Buffer:
    """A buffer, by its address, its number among those of its kind, and whether it is one of a stage."""

    def __init__(self, address, small):
        number, self.is_small = (address - FIRST) // SMALL, address < FIRST + SMALL * small
        self.number = number if self.is_small else (address - FIRST - SMALL * small) // LARGE
        self.address = FIRST + SMALL * (self.number if self.is_small else small + self.number * LARGE // SMALL)
        self.holds = []
        self.is_of_stage = False


class Hold:
    """By the store, or by a reply, from one line on; `ends` is the line in which it ended, if it did. Of its labels a
    picture shows the first that has room."""

    def __init__(self, begins, labels, frame=None):
        self.begins, self.labels, self.frame, self.ends = begins, labels, frame, None


class Frame:
    """A reply, by its session and call, and in which lines it was posted and gathered."""

    def __init__(self, session, call, begins):
        self.session, self.call, self.begins, self.size = session, call, begins, 0
        self.gathered, self.was_dropped, self.holds = None, False, []


class Line:
    """A line of a transcript: what its schedule asked, and what came of it, in words."""

    def __init__(self, asked, came):
        self.asked, self.came = asked, came


class Transcript:
    """The lines of a transcript, read one by one. `buffers` are those that occur."""

    def __init__(self, text, sessions, small, word):
        self.sessions, self.small, self.word = [list(each) for each in sessions], small, word
        self.buffers, self.lines, self.at, self.is_whole = {}, [], 0, False
        self.values, self.stored = {}, {}  # by key: its bytes, and its holds
        self.waiting = [[] for _ in self.sessions]  # frames that weren't reaped
        self.posted = [0 for _ in self.sessions]
        *lines, last = text.split("\n")
        for line in lines + ([last] if last else []):
            if self.is_whole:
                self.refuse("a line behind the last")
            self.take(line)
            self.at += 1
        if not self.is_whole:
            self.refuse("a transcript ends with a line `held`")

    def refuse(self, why):
        raise Refused(self.at + 1, why)

    def take(self, line):
        for form, take in (POSTED, self.post), (GATHERED, self.gather), (REAPED, self.reap):
            if found := form.fullmatch(line):
                return self.add(line, take(self.session(found[1]), *found.groups()[1:]))
        if found := REFUSED.fullmatch(line):
            return self.add(line, self.refuse_call(self.session(found[1]), found[2].split(" ")[0]))
        if found := NOTHING.fullmatch(line):
            self.session(found[1])
            return self.add(line, "nothing there")
        if found := HELD.fullmatch(line):
            self.is_whole = True
            self.judge_held(int(found[1]), int(found[2]))
            return self.lines.append(Line("held", f"{found[1]} small, {found[2]} large"))
        return self.refuse("no line of a transcript")

    def add(self, line, came):
        self.lines.append(Line(" ".join(line.split(" ")[:2]), came))

    def session(self, number):
        if int(number) >= len(self.sessions):
            self.refuse(f"there is no input of session {number}")
        return int(number)

    def buffer(self, address, length=0):
        """Returns the buffer at an address, in which so many bytes are to lie."""
        found = Buffer(int(address), self.small)
        if int(address) < FIRST or int(address) + length > found.address + (SMALL if found.is_small else LARGE):
            self.refuse(f"{length} bytes at {address} don't lie in one buffer")
        return self.buffers.setdefault(found.address, found)

    def judge_held(self, small, large):
        """The last line counts the buffers that the stored values have."""
        kinds = [self.buffers[address].is_small for hold in self.stored.values() for address in hold]
        if (kinds.count(True), kinds.count(False)) != (small, large):
            self.refuse(f"the values have {kinds.count(True)} small buffers and {kinds.count(False)} large ones")

    def gather(self, session, call, dropped, size):
        frame = next((it for it in self.waiting[session] if it.gathered is None), None)
        if frame is None or frame.call != int(call):
            self.refuse(f"reply {call} is not the next to be gathered")
        if int(size) != frame.size:
            self.refuse(f"reply {call} has {frame.size} bytes")
        frame.gathered, frame.was_dropped = self.at, dropped is not None
        return f"reply {call} is dropped" if dropped else f"reply {call} is sent"

    def reap(self, session, call, recycled):
        frames = self.waiting[session]
        if not frames or frames[0].call != int(call) or frames[0].gathered is None:
            self.refuse(f"reply {call} is not the next to be taken back")
        freed = self.take_back(session)
        if int(recycled) != freed:
            self.refuse(f"nobody holds {freed} of its stored buffers any more")
        return f"reply {call} is taken back"

    def refuse_call(self, session, why):
        """Where ring or stage has no room for a call, all that was gathered was taken back."""
        if why == "end":
            return "its input has ended"
        while self.waiting[session] and self.waiting[session][0].gathered is not None:
            self.take_back(session)
        return f"the {why} has no room"

    def take_back(self, session):
        """Returns how many of the stored buffers that a reply held nobody holds any more."""
        frame = self.waiting[session].pop(0)
        for hold in frame.holds:
            hold.ends = self.at
        held = (it for it in self.buffers.values() if any(hold.frame is frame for hold in it.holds))
        return sum(not it.is_of_stage and all(hold.ends is not None for hold in it.holds) for it in held)

    def post(self, session, call, reaped, sent, stored):
        """A call that was posted: its segments are held by its frame until that is reaped."""
        if int(call) != self.posted[session]:
            self.refuse(f"the next call of session {session} is {self.posted[session]}")
        if int(reaped or 0) > sum(it.gathered is not None for it in self.waiting[session]):
            self.refuse("so many replies were not gathered")
        for _ in range(int(reaped or 0)):
            self.take_back(session)
        self.posted[session] += 1
        frame = Frame(session, int(call), self.at)
        self.waiting[session].append(frame)
        self.hold(frame, places(sent))
        if frame.call >= len(self.sessions[session]):
            self.refuse(f"the input of session {session} has no call {call}")
        words = self.sessions[session][frame.call]
        text = self.run(words, places(stored or ""))
        frame.size = sum(length for _, length in places(sent))
        if frame.size != len(text):
            self.refuse(f"{frame.size} bytes are sent, and the reply has {len(text)}")
        return "an error" if isinstance(words, str) else " ".join(map(self.word, words))

    def run(self, words, stored):
        """Returns the text of a reply, once its parts are done; that of an error stands in the place of words."""
        if isinstance(words, str):
            return text_of(words)
        parts = parts_of(words)
        if stored and len(parts) != 1:
            self.refuse("this command stores nothing")
        return reply(words, [self.do(part, stored) for part in parts])

    def hold(self, frame, segments):
        """A frame holds a buffer of the stage once, and a stored one for each of its segments."""
        for address in {self.buffer(*segment).address: None for segment in segments}:
            buffer = self.buffers[address]
            is_stored = any(it.frame is None and it.ends is None for it in buffer.holds)
            buffer.is_of_stage = buffer.is_of_stage or not is_stored
            times = sum(self.buffer(it).address == address for it, _ in segments) if is_stored else 1
            name = f"{frame.session}:{frame.call}" if self.sessions[1:] else f"{frame.call}"
            often = [f"reply {name}, {times} times"] if times > 1 else []
            frame.holds.append(Hold(self.at, [*often, f"reply {name}", name], frame))
            buffer.holds.append(frame.holds[-1])

    def do(self, part, stored):
        """Does a part on a plain store, has the store hold what the line says, and returns the answer."""
        before, was_there = self.values.get(part.key), part.key in self.values
        stores = is_storing(part, before)
        answered = answer(self.values, part)
        value = self.values.get(part.key)
        if stores and value and not stored:
            # (no buffer was free, so the key has what it had)
            self.values.pop(part.key)
            if was_there:
                self.values[part.key] = before
            return NONE_FREE
        if sum(length for _, length in stored) != (len(value) if stores else 0):
            self.refuse("what is stored is not of the value's length")
        if stores or value is None:
            self.place(part.key, value, stored)
        return answered

    def place(self, key, value, stored):
        """The store holds these buffers for a key, and no others."""
        old, now = self.stored.pop(key, {}), {}
        for number, (address, length) in enumerate(stored, 1):
            buffer = self.buffer(address, length)
            of_many = f", {number} of {len(stored)}" if stored[1:] else ""
            labels = [f"{self.word(key)} = {self.word(value)}{of_many}", f"{self.word(key)}{of_many}", self.word(key)]
            now[buffer.address] = old.pop(buffer.address, None) or Hold(self.at, labels)
            if now[buffer.address].begins == self.at:
                buffer.holds.append(now[buffer.address])
        for hold in old.values():
            hold.ends = self.at
        if value is not None:
            self.stored[key] = now


def is_storing(part, before):
    if part.name == b"SET":
        options = part.given[1]
        return not (b"NX" in options and before is not None) and not (b"XX" in options and before is None)
    return part.name == b"APPEND" and len(before or b"") + len(part.given[0]) <= MOST_VALUE


def places(text):
    return [tuple(map(int, place.split(":"))) for place in text.split()]
