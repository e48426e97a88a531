"""A card's ring: descriptors go into the machine's memory, the tail is moved, and what the card then does is judged."""

import collections

from card.legacy import DONE, SIZE, STATUS
from card.limits import why_unsent
from card.machine import ENABLED, TCTL, TDBAH, TDBAL, TDH, TDLEN, TDT

RINGS = 128 << 20  # where the rings lie, behind the largest pool

# A frame that is posted: the place of its last descriptor, how many were posted with it, its bytes, and why it isn't
# sent, if so.
Posted = collections.namedtuple("Posted", "last end text why")


class Wrong(Exception):
    """What a card did that it may not do, or was given that it may not be given."""


def require(holds, what, *more):
    if not holds:
        raise Wrong(" ".join([what, *map(str, more)]))


def shown(some):
    return "nothing" if some is None else f"{len(some)} bytes {some[:24]!r}"


class Ring:
    def __init__(self, machine, model, card, size, is_enabled=True):
        self.machine, self.model, self.card, self.size = machine, model, card, size
        self.base = RINGS + (card << 17)
        self.should_be = bytearray(SIZE * size)
        self.posted = self.reaped = 0  # descriptors, in all rounds
        self.waiting, self.done = collections.deque(), collections.deque()
        self.sent, self.unsent = 0, collections.Counter()
        machine.put(self.base, bytes(self.should_be))
        for register, value in (
            (TCTL, 0),
            (TDBAL, self.base),
            (TDBAH, 0),
            (TDLEN, SIZE * size),
            (TDH, 0),
            (TDT, 0),
            (TCTL, ENABLED if is_enabled else 0),
        ):
            machine.set(card, register, value)

    def post(self, descriptors, text, why=None):
        """Writes the descriptors of a frame with these bytes to the next places. `why` says that it isn't sent."""
        for bits in descriptors:
            last = self.posted % self.size
            self.should_be[SIZE * last : SIZE * (last + 1)] = bits
            self.machine.put(self.base + SIZE * last, bits)
            self.posted += 1
        require(self.posted - self.reaped < self.size, "a place of the ring is left free")
        why = why or why_unsent(self.model, text, len(descriptors))
        self.waiting.append(Posted(last, self.posted, text, why))

    def move_tail(self, end):
        self.machine.set(self.card, TDT, end % self.size)

    def send(self, frames):
        """The tail is moved behind so many frames, which the card then sends."""
        self.move_tail(self.waiting[frames - 1].end)
        self.see(frames)

    def send_all_at_once(self):
        """The tail was moved while the card might not send; now it may, for a moment."""
        self.machine.set(self.card, TCTL, ENABLED)
        self.machine.set(self.card, TCTL, 0)
        self.see(len(self.waiting))

    def see(self, frames):
        """So many frames more must have been sent whole, and nothing else. The card must have set done in the last
        descriptor of each, and nothing else of the ring, and have its head at its tail."""
        for _ in range(frames):
            end = self.take(self.waiting.popleft())
        require(not self.machine.has_more(self.card), "nothing more is sent")
        ring = self.machine.get(self.base, SIZE * self.size)
        for at in range(0, len(ring), SIZE):
            is_so, should_be = ring[at : at + SIZE], bytes(self.should_be[at : at + SIZE])
            require(is_so == should_be, f"place {at // SIZE} is {is_so.hex()}, and should be {should_be.hex()}")
        head, tail = (self.machine.read(self.card, it) for it in (TDH, TDT))
        require(head == tail == end % self.size, f"the head is at {head}, the tail at {tail}")

    def take(self, frame):
        if frame.why:
            self.unsent[frame.why] += 1
        else:
            found = self.machine.frame(self.card)
            require(found == frame.text, f"sent is {shown(found)}, and should be {shown(frame.text)}")
            self.sent += 1
        self.should_be[SIZE * frame.last + STATUS] |= DONE
        self.done.append(frame)
        return frame.end

    def reap(self):
        """Takes the oldest frame back, as a driver does that finds its last descriptor done."""
        require(self.done, "what is reaped was sent")
        frame = self.done.popleft()
        status = self.machine.get(self.base + SIZE * frame.last + STATUS, 1)[0]
        require(status == DONE, "what is reaped is done, not", status)
        self.reaped = frame.end
