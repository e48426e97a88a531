"""A plain store: a dictionary, and what a part of a request answers and leaves there. It shares nothing with the
server."""

from plain.requests import MOST_VALUE

OK, TOO_LONG = "OK", "ERR value too long"


def shard_of(key, shards):
    """FNV-1a of 64 bits, modulo the number of shards."""
    number = 14695981039346656037
    for byte in key:
        number = (number ^ byte) * 1099511628211 % 2**64
    return number % shards


def range_of(value, start, end):
    """The bytes from one place to another, both included; a negative place counts from the end."""
    first, last = (place + len(value) if place < 0 else place for place in (start, end))
    return value[max(first, 0) : last + 1] if last >= 0 else b""


def set_to(store, part):
    """Stores unless an option forbids it. Answers what was there with GET, and else whether it stored."""
    found = store.get(part.key)
    value, options = part.given
    stores = not (b"NX" in options and found is not None) and not (b"XX" in options and found is None)
    if stores:
        store[part.key] = value
    return found if b"GET" in options else OK if stores else None


def append_to(store, part):
    value = store.get(part.key, b"") + part.given[0]
    if len(value) > MOST_VALUE:
        return TOO_LONG
    store[part.key] = value
    return len(value)


ANSWERS = {
    b"GET": lambda store, part: store.get(part.key),
    b"MGET": lambda store, part: store.get(part.key),
    b"SET": set_to,
    b"APPEND": append_to,
    b"DEL": lambda store, part: int(store.pop(part.key, None) is not None),
    b"EXISTS": lambda store, part: int(part.key in store),
    b"STRLEN": lambda store, part: len(store.get(part.key, b"")),
    b"GETRANGE": lambda store, part: range_of(store.get(part.key, b""), *part.given),
}


def answer(store, part):
    """Does a part, and returns what it answers: bytes, None for null, a number, or the text of a line."""
    return ANSWERS[part.name](store, part)


def buffers_of(store):
    """How many small and large buffers the values lie in: a large one for each 4,096 bytes, and what is left over in a
    small one up to 512 bytes."""
    rests = [len(value) % 4096 for value in store.values()]
    small = sum(0 < rest <= 512 for rest in rests)
    return small, sum(len(value) // 4096 for value in store.values()) + sum(rest > 512 for rest in rests)
