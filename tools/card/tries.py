"""Frames at the limits of each model: what it sends, and what it doesn't. Behind each it sends another one."""

from card.legacy import descriptors
from card.limits import LEAST_E1000E, MOST_E1000, MOST_E1000E, MOST_PARTS_E1000E
from card.machine import TDH
from card.ring import Ring, require

PLACE, PART, RING = 1_048_576, 4096, 128
# Types of frames, in their bytes 12 and 13: internet packets of two kinds, and two kinds of tags before another type.
LOOKED_INTO = (b"\x08\x00", b"\x86\xdd", b"\x81\x00", b"\x88\xa8")


def pieces(length, parts=None):
    """The segments of a frame of so many bytes, one behind the other: so many parts of a byte and the rest, or of 4,096
    bytes each."""
    sizes = [1] * (parts - 1) + [length - parts + 1] if parts else [PART] * (length // PART) + [length % PART]
    found, at = [], PLACE
    for size in filter(None, sizes):
        found.append((at, size))
        at += size
    return found


def letters(length):
    return bytes(97 + at % 26 for at in range(length))


def typed(kind):
    """A frame of a reply of 8 bytes behind a head of 16, in which bytes 12 and 13 say how many bytes there are."""
    return bytes(12) + kind + bytes(2) + b":12345\r\n"


class Tries:
    def __init__(self, machine, model):
        self.machine, self.ring = machine, Ring(machine, model, 0, RING)

    def send(self, segments, text, is_sent, why=None):
        """A frame, which is sent or isn't, and one behind it."""
        self.post(text, segments, None if is_sent else why)
        is_so = self.ring.waiting[0].why is None
        require(is_sent == is_so, f"{len(text)} bytes in {len(segments)} parts are sent: {is_so}")
        self.end()
        self.post(letters(60), pieces(60))
        self.end()

    def post(self, text, segments, why=None):
        self.machine.put(PLACE, text)
        self.ring.post(descriptors(segments), text, why)

    def end(self):
        self.ring.send(1)
        self.ring.reap()

    def send_cut(self, length):
        """A frame of which all but the low 16 bits of the length are lost."""
        self.post(letters(length), pieces(length), "cut")
        self.ring.move_tail(self.ring.posted)
        found = self.machine.frame(0)
        require(found is not None and len(found) == length % 65_536, f"{length} bytes are sent as {found}")
        self.end()

    def send_halves(self):
        """A frame whose first descriptor the card fetches before there is another: its head moves, and it sends nothing
        until the last one is there."""
        first = self.ring.posted
        self.post(letters(60), pieces(60, 2))
        self.ring.move_tail(first + 1)
        head = self.machine.read(0, TDH)
        require(head == (first + 1) % RING, f"behind a descriptor the head is at {head}")
        require(self.machine.frame(0) is None, "half a frame isn't sent")
        self.end()


def try_e1000(machine):
    tries = Tries(machine, "e1000")
    for length in (1, LEAST_E1000E - 1, MOST_E1000):
        tries.send(pieces(length), letters(length), True)
    tries.send(pieces(1_000, MOST_PARTS_E1000E + 1), letters(1_000), True)
    tries.send(pieces(24), typed(b"\x08\x00"), True)
    tries.send_cut(MOST_E1000 + 2)
    tries.send_halves()


def try_e1000e(machine):
    tries = Tries(machine, "e1000e")
    for length in (LEAST_E1000E, MOST_E1000 + 2, MOST_E1000E):
        tries.send(pieces(length), letters(length), True)
    for length in (1, LEAST_E1000E - 1, MOST_E1000E + 1):
        tries.send(pieces(length), letters(length), False)
    tries.send(pieces(1_000, MOST_PARTS_E1000E), letters(1_000), True)
    tries.send(pieces(1_000, MOST_PARTS_E1000E + 1), letters(1_000), False)
    for kind in LOOKED_INTO:
        tries.send(pieces(14), bytes(12) + kind, False, "of a type that is looked into")
    tries.send(pieces(24), typed(b"\x08\x00"), False, "of a type that is looked into")
    tries.send(pieces(24), typed(b"\x09\x00"), True)
    tries.send_halves()


TRIES = {
    "sends 1 to 65,535 bytes in many descriptors, and of a longer frame what 16 bits count": ("e1000", try_e1000),
    "sends 14 to 69,632 bytes in at most 64 descriptors, and no packet that isn't of its type": ("e1000e", try_e1000e),
}
