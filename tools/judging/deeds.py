"""What is searched for an order: each part of a call, with the times between which it was done and what it answered."""

from judging.replay import redis_range
from judging.resp import read_reply
from plain.replies import text_of
from plain.store import answer

READS = (b"GET", b"MGET", b"EXISTS", b"STRLEN", b"GETRANGE")
NEVER = float("inf")
FREE, IMPOSSIBLE = object(), object()  # what is expected of a part where nothing is known, and where no answer fits


class Deed:
    """A part of a call. `expected` is the text of its answer, FREE, IMPOSSIBLE, or a Sum that it shares with the other
    parts of its call. `rank` is a guess of the order, in which no session's deeds are exchanged."""

    def __init__(self, call, index, expected):
        self.call, self.index, self.part, self.expected = call, index, call.parts[index], expected
        self.requested = call.time.requested
        self.replied = NEVER if call.time.replied is None else call.time.replied
        self.rank = (self.replied, call.session, call.number, index)
        self.is_still = expected is not FREE and self.changes_nothing()
        self.finds = self.found() if isinstance(expected, bytes) else None
        self.makes = []

    @property
    def key(self):
        return self.part.key

    def changes_nothing(self):
        """Whether it leaves its key as it is, wherever it stands, by what it answered."""
        if isinstance(self.expected, Sum):
            return False
        if self.part.name == b"SET":
            options = self.part.given[1]
            missing = self.expected == b"$-1\r\n"
            if b"GET" in options:
                return (b"NX" in options and not missing) or (b"XX" in options and missing)
            return missing
        return self.part.name in READS or (self.part.name == b"DEL" and self.expected == b":0\r\n")

    def found(self):
        """Its key and the value that this must have for its answer, None for none; or None where other values do
        too."""
        name, missing = self.part.name, self.expected == b"$-1\r\n"
        if name in (b"GET", b"MGET") or (name == b"SET" and b"GET" in self.part.given[1]):
            read = read_reply(self.expected, 0)
            return (self.key, read.value) if read and read.kind == b"$" else None
        if name == b"SET":
            options = self.part.given[1]
            must_miss = (b"NX" in options and not missing) or (b"XX" in options and missing)
            return (self.key, None) if must_miss else None
        misses = name in (b"DEL", b"EXISTS") and self.expected == b":0\r\n"
        return (self.key, None) if misses else None

    def may_make(self, values):
        """Those of some values that its key may have behind it, where it changes anything."""
        if self.is_still:
            return []
        if self.part.name == b"SET":
            return [value for value in values if value == self.part.given[0]]
        if self.part.name == b"DEL":
            return [value for value in values if value is None]
        if self.part.name != b"APPEND":
            return []
        more = self.part.given[0]
        long = int(self.expected[1:]) if isinstance(self.expected, bytes) and self.expected[:1] == b":" else None
        fits = (value for value in values if value is not None and value.endswith(more))
        return [value for value in fits if long is None or len(value) == long]

    def outcome(self, value):
        """What it answers where its key has a value, or None for none; and what the key has then."""
        store = {} if value is None else {self.key: value}
        answered = answer(store, self.part)
        return answered, store.get(self.key)

    def accepts(self, answered, value):
        """Whether an answer of its own, on a key that had a value, is what was replied. Of a GETRANGE whose end counts
        back past the first byte Redis's answer is taken too."""
        if self.expected is IMPOSSIBLE:
            return False
        if self.expected is FREE or isinstance(self.expected, Sum) or text_of(answered) == self.expected:
            return True
        if self.part.name != b"GETRANGE" or answered:
            return False
        return text_of(redis_range(value or b"", *self.part.given)) == self.expected


class Sum:
    """What the parts of a DEL or EXISTS answered together: more than none of them, and fewer than all."""

    def __init__(self, total, parts):
        self.total, self.parts = total, parts

    def allows(self, so_far, index):
        """Whether the sum of the answers up to a part can still come out."""
        left = self.parts - 1 - index
        return so_far <= self.total <= so_far + left


def expectations(call):
    """What is expected of each part of a call."""
    reply, count = call.reply, len(call.parts)
    if reply is None:
        return count * [FREE]
    if call.name == b"MGET":
        fits = reply.kind == b"*" and reply.value is not None and len(reply.value) == count
        first = reply.start
        return [call.text[it.start - first : it.end - first] for it in reply.value] if fits else count * [IMPOSSIBLE]
    if call.name not in (b"DEL", b"EXISTS") or count == 1:
        return count * [call.text]
    if reply.kind != b":" or not 0 <= reply.value <= count:
        return count * [IMPOSSIBLE]
    if reply.value in (0, count):
        return count * [b":1\r\n" if reply.value else b":0\r\n"]
    return count * [Sum(reply.value, count)]


def deeds_of(sessions):
    """The deeds of all sessions, each session's in its order."""
    return [
        [Deed(call, index, it) for call in session.calls for index, it in enumerate(expectations(call))]
        for session in sessions
    ]
