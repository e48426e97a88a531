"""A driven run, done again by cards of one model: each session has one, with a ring of its own.

Values are put where they were stored, copied bytes where the replies had them, and each reply's segments become
descriptors. Each card must then send the replies, byte for byte, from the memory as it is when the card looks:

  eager  it looks at each call;
  late   it looks where the run gathered, a reply at a time: values were replaced since, and buffers given back;
  burst  the tail is moved at each call, and the card looks where the run gathered, at all that waits then.
"""

from card.legacy import descriptors
from card.ring import Ring, require
from card.story import Call, Gather

MODES = ("eager", "late", "burst")
STAGES, STAGE, STORED = 1_048_576, 65_536, 3_145_728  # the first stage, its bytes, and the first large buffer


def least_ring(events):
    """The least ring that has room for all that is posted at once, and a place that is free."""
    most, posted = 0, {}
    for event in events:
        waiting = posted.setdefault(event.session, [])
        if isinstance(event, Call):
            del waiting[: event.reaped]
            waiting.append(len(event.segments))
            most = max(most, sum(waiting))
        elif not isinstance(event, Gather):
            del waiting[:1]
    return most // 8 * 8 + 8


class Run:
    """`spoil` changes the descriptors of a reply; `is_overwritten` has stored values overwritten before cards look."""

    def __init__(self, machine, model, events, sessions, spoil=None, is_overwritten=False):
        self.machine, self.model, self.events, self.sessions = machine, model, events, sessions
        self.spoil, self.is_overwritten = spoil or (lambda bits: bits), is_overwritten

    def start(self, mode):
        size, self.mode = least_ring(self.events), mode
        self.rings = [Ring(self.machine, self.model, card, size, mode != "burst") for card in range(self.sessions)]
        self.named = [[] for _ in self.rings]  # the segments of each reply that is posted and not reaped
        self.written = {}  # by address: the bytes that were put there last

    def go(self, mode, rounds):
        """Goes through the run so many times, on rings that begin at their first places and aren't reset between."""
        self.start(mode)
        for _ in range(rounds):
            for event in self.events:
                self.follow(event)
            for card in range(len(self.rings)):
                self.finish(card)
        for address, some in self.written.items():
            require(self.machine.get(address, len(some)) == some, "no card writes to a value or a stage:", address)

    def follow(self, event):
        ring = self.rings[event.session]
        if isinstance(event, Call):
            self.call(ring, event)
        elif isinstance(event, Gather):
            if self.mode == "late":
                self.look(ring, 1)
            elif self.mode == "burst":
                self.look(ring, len(ring.waiting))
        else:
            self.reap(event.session)

    def call(self, ring, event):
        for _ in range(event.reaped):
            self.reap(event.session)
        for address, some in event.stored:
            self.put(address, some)
        at, stage = 0, STAGES + STAGE * event.session
        for address, length in event.segments:
            if stage <= address < stage + STAGE:
                self.put(address, event.text[at : at + length])
            at += length
        self.named[event.session].append(event.segments)
        ring.post(self.spoil(descriptors(event.segments)), event.text)
        if self.mode == "burst":
            ring.move_tail(ring.posted)
        elif self.mode == "eager":
            self.look(ring, 1)

    def put(self, address, some):
        """Puts bytes where no reply that is posted and not reaped has one."""
        for segments in (it for named in self.named for it in named):
            for first, length in segments:
                require(first >= address + len(some) or address >= first + length, "a posted reply names", address)
        self.machine.put(address, some)
        for at in [at for at, it in self.written.items() if at < address + len(some) and address < at + len(it)]:
            del self.written[at]
        if some:
            self.written[address] = some

    def look(self, ring, frames):
        frames = min(frames, len(ring.waiting))
        if not frames:
            return
        if self.is_overwritten:
            for address, some in self.written.items():
                self.machine.put(address, b"!" * len(some) if address >= STORED else some)
        if self.mode == "burst":
            ring.send_all_at_once()
        else:
            ring.send(frames)

    def reap(self, session):
        self.rings[session].reap()
        self.named[session].pop(0)

    def finish(self, session):
        """Sends and takes back what is left."""
        ring = self.rings[session]
        if ring.waiting:
            self.look(ring, len(ring.waiting))
        while ring.done:
            self.reap(session)
        require(not self.named[session], "nothing is left")

    def __str__(self):
        sent = sum(ring.sent for ring in self.rings)
        unsent = sum((ring.unsent for ring in self.rings), type(self.rings[0].unsent)())
        rounds = max(ring.posted / ring.size for ring in self.rings)
        left = "".join(f", {count} {why} not" for why, count in sorted(unsent.items()))
        return f"{sent} sent{left}, rings of {self.rings[0].size} up to {rounds:.1f} times round"
