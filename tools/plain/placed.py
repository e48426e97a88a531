"""A store whose values lie in buffers: what a part of a request finds there and leaves. It shares nothing with the
server."""

from plain.pool import LARGE, NoBuffer
from plain.requests import MOST_VALUE
from plain.store import answer, range_of

NONE_FREE = "OOM no free buffer"
READS = (b"GET", b"MGET")


class Piece:
    """Some bytes of a stored fragment. `is_given` of one that the store no longer holds, and the reply does in its
    place."""

    def __init__(self, buffer, first, size, is_given):
        self.buffer, self.first, self.size, self.is_given = buffer, first, size, is_given


def pieces_of(fragments, first, size, is_given):
    """The pieces of so many bytes of a value from one place on."""
    for number, (buffer, length) in enumerate(fragments):
        begins = max(first - number * LARGE, 0)
        ends = min(first + size - number * LARGE, length)
        if begins < ends:
            yield Piece(buffer, begins, ends - begins, is_given)


class Done:
    """What a part answered, the pieces of stored bytes that its answer has, and the fragments that it stored."""

    def __init__(self, answered, pieces=(), stored=()):
        self.answered, self.pieces, self.stored = answered, list(pieces), list(stored)


class PlacedStore:
    def __init__(self, pool):
        self.pool = pool
        self.values, self.fragments = {}, {}  # by key: its bytes, and the buffers and lengths of its fragments

    def do(self, part):
        """Does a part. What it answers is what a plain store answers, but where no buffer is free."""
        kinds = {b"SET": self.set, b"APPEND": self.append, b"DEL": self.delete}
        try:
            return kinds.get(part.name, self.read)(part)
        except NoBuffer:
            return Done(NONE_FREE)

    def read(self, part):
        value, fragments = self.values.get(part.key, b""), self.fragments.get(part.key, [])
        answered = answer(self.values, part)
        if part.name in READS:
            return Done(answered, pieces_of(fragments, 0, len(value), False))
        if part.name == b"GETRANGE":
            first = first_of(value, *part.given)
            return Done(answered, pieces_of(fragments, first, len(answered), False))
        return Done(answered)

    def set(self, part):
        value, options = part.given
        was, old = self.values.get(part.key), self.fragments.get(part.key, [])
        stores = not (b"NX" in options and was is not None) and not (b"XX" in options and was is None)
        new = self.pool.place(value) if stores else []
        answered = answer(self.values, part)
        assert not stores or self.values[part.key] == value
        found = pieces_of(old, 0, len(was or b""), stores) if b"GET" in options else []
        if stores:
            self.fragments[part.key] = new
            if b"GET" not in options:
                self.release(old)
        return Done(answered, found, new)

    def append(self, part):
        value, old, more = self.values.get(part.key, b""), self.fragments.get(part.key, []), part.given[0]
        if len(value) + len(more) > MOST_VALUE:
            return Done(answer(self.values, part))
        whole = [it for it in old if it[1] == LARGE or not more]
        new = whole + self.pool.place(value[sum(length for _, length in whole) :] + more)
        self.release(old[len(whole) :])
        self.fragments[part.key] = new
        return Done(answer(self.values, part), stored=new)

    def delete(self, part):
        self.release(self.fragments.pop(part.key, []))
        return Done(answer(self.values, part))

    def release(self, fragments):
        self.pool.give_back([buffer for buffer, _ in fragments])


def first_of(value, start, end):
    """Where in a value the bytes of a range begin: its place where there are any."""
    first = max(start + len(value), 0) if start < 0 else start
    return first if range_of(value, start, end) else 0
