"""Sessions that are driven by a schedule, on one thread: what is said of each line, and what each session is answered.

It shares nothing with the server. Where the server may choose, this has what one thread gives: each claim takes the
first buffer of its kind that is free, and session i has the small buffers from 128 i on as its stage.
"""

import re

from plain.inputs import CLEAN, commands_of, end_of
from plain.layout import Layout, need_of
from plain.placed import PlacedStore
from plain.pool import FIRST, LARGE, SMALL, Pool
from plain.replies import reply, text_of
from plain.requests import fault_of, parts_of

STAGE, PUT = 128, 512
LINE = re.compile(rb"(call|gather|reap) (0|[1-9][0-9]*)")
SIZES = {"small": 4096, "large": 1024, "ring": 1160, "threshold": 512}


class BadLine(Exception):
    """A line of a schedule that isn't of its form, by its number from 1."""


class Frame:
    """A reply that was posted: its segments, what it holds, and its text."""

    def __init__(self, layout):
        self.segments, self.stage, self.held = layout.segments, layout.used(), layout.held
        self.text = b"".join(layout.texts)


class Wire:
    """What was sent. The puts with these numbers fail, and keep the first half of their bytes; nothing is put after
    one."""

    def __init__(self, fails):
        self.fails, self.puts, self.sent, self.failed = fails, 0, b"", False

    def put(self, piece):
        if self.failed:
            return
        self.failed = self.puts in self.fails
        self.puts += 1
        self.sent += piece[: len(piece) // 2] if self.failed else piece


class Session:
    def __init__(self, number, text, driven, fails):
        self.number, self.driven, self.wire = number, driven, Wire(fails)
        self.stage = [driven.pool.claim(True) for _ in range(STAGE)]
        self.how_it_ends = end_of(text)
        self.commands = commands_of(text, self.how_it_ends)
        self.next = next(self.commands, None)
        self.has_ended = False
        self.posted, self.gathered, self.reaped = [], 0, 0

    def room(self):
        """How many descriptors are free."""
        return self.driven.ring - 1 - sum(len(frame.segments) for frame in self.posted[self.reaped :])

    def call(self):
        if self.next is None:
            self.has_ended = True
            return "end"
        need, reaped = need_of(self.next), self.reaped
        while (self.room() < need.descriptors or len(self.stage) < need.stage) and self.reap_one() is not None:
            pass
        if self.room() < need.descriptors:
            return f"ring {need.descriptors} {self.room()}"
        if len(self.stage) < need.stage:
            return f"stage {need.stage} {len(self.stage)}"
        reaped = f"reaped {self.reaped - reaped} " if self.reaped > reaped else ""
        return f"{len(self.posted)} {reaped}{self.post(need)}"

    def post(self, need):
        """Runs the next command and posts its reply."""
        layout = Layout(self.driven.pool, self.stage[: need.stage], self.driven.threshold)
        stored = self.driven.run(self.next, layout)
        frame = Frame(layout)
        assert len(frame.segments) <= need.descriptors
        self.stage = self.stage[len(frame.stage) :]
        self.posted.append(frame)
        self.next = next(self.commands, None)
        store = f" store{places(stored)}" if stored else ""
        return f"send{places(frame.segments)}{store}"

    def gather(self):
        if self.gathered == len(self.posted):
            return "empty"
        call, frame = self.gathered, self.posted[self.gathered]
        sent = [self.driven.bytes_at(*segment) for segment in frame.segments]
        assert b"".join(sent) == frame.text, "what a reply names was filled again"
        for segment in sent:
            for at in range(0, len(segment), PUT):
                self.wire.put(segment[at : at + PUT])
        self.gathered += 1
        return f"{call} {'dropped ' if self.wire.failed else ''}{len(frame.text)}"

    def reap(self):
        call, recycled = self.reaped, self.reap_one()
        return "none" if recycled is None else f"{call} {recycled}"

    def reap_one(self):
        """How many of the stored buffers that a reply held nobody holds any more, or None where no reply was
        gathered."""
        if self.reaped == self.gathered:
            return None
        frame = self.posted[self.reaped]
        self.reaped += 1
        self.stage = sorted(self.stage + frame.stage)
        return self.driven.pool.give_back(frame.held)

    def finish(self):
        while self.gather() != "empty":
            pass
        while self.reap_one() is not None:
            pass
        assert len(self.stage) == STAGE


def places(segments):
    return "".join(f" {address}:{length}" for address, length in segments)


class Driven:
    """A schedule over some inputs. `transcript` is what is said, `replies` what each session is sent, and `held` how
    many small and large buffers the stored values lie in at the end."""

    def __init__(self, schedule, inputs, fails=(), **sizes):
        sizes = {**SIZES, **sizes}
        lines = read_schedule(schedule, len(inputs))
        self.ring, self.threshold = sizes["ring"], sizes["threshold"]
        self.pool = Pool(sizes["small"], sizes["large"])
        self.store = PlacedStore(self.pool)
        fails = [*fails, *[()] * (len(inputs) - len(fails))]
        self.sessions = [Session(number, text, self, fails[number]) for number, text in enumerate(inputs)]
        said = [f"{what} {number} {getattr(self.sessions[number], what)()}" for what, number in lines]
        self.finish()
        said.append("held {} {}".format(*self.held))
        self.transcript = "".join(f"{line}\n" for line in said).encode()
        self.replies = [session.wire.sent for session in self.sessions]

    def finish(self):
        for session in self.sessions:
            session.finish()
        for session in self.sessions:
            self.pool.give_back(session.stage)
        self.held = self.pool.held()
        stored = [it for fragments in self.store.fragments.values() for it in fragments]
        assert len({buffer for buffer, _ in stored}) == len(stored) == sum(self.held), "values share no buffer"

    def status(self):
        """That of the program."""
        if any(session.wire.failed for session in self.sessions):
            return 5
        return 3 if any(it.has_ended and it.how_it_ends != CLEAN for it in self.sessions) else 0

    def run(self, words, layout):
        """Runs a command, or takes an error, lays its reply out, and returns where what it stored lies."""
        if isinstance(words, str):
            layout.copy(text_of(words))
            return []
        parts = [self.store.do(part) for part in parts_of(words)]
        if words[0].upper() == b"MGET" and not fault_of(words):
            layout.copy(b"*%d\r\n" % len(parts))
        elif len(parts) != 1:
            layout.copy(reply(words, [part.answered for part in parts]))
            return []
        for part in parts:
            lay_out(part, layout)
        assert b"".join(layout.texts) == reply(words, [part.answered for part in parts])
        return [(self.pool.address(buffer), length) for part in parts for buffer, length in part.stored]

    def bytes_at(self, address, length):
        small = self.pool.small
        offset = address - FIRST
        if offset < SMALL * small:
            buffer, first = divmod(offset, SMALL)
        else:
            large, first = divmod(offset - SMALL * small, LARGE)
            buffer = small + large
        return self.pool.filled[buffer][first : first + length]


def lay_out(part, layout):
    """Lays out what one part answers."""
    if not isinstance(part.answered, bytes):
        layout.copy(text_of(part.answered))
        return
    layout.copy(b"$%d\r\n" % len(part.answered))
    for piece in part.pieces:
        layout.take(piece)
    layout.copy(b"\r\n")


def read_schedule(text, sessions):
    """Returns what each line asks, and of which session."""
    *lines, last = text.split(b"\n")
    lines += [last] if last else []
    read = []
    for number, line in enumerate(lines, 1):
        found = LINE.fullmatch(line)
        if not found or len(found[2]) > 2 or int(found[2]) >= sessions:
            raise BadLine(number)
        read.append((found[1].decode(), int(found[2])))
    return read
