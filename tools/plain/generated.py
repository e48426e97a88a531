"""The requests that `gen` serves: made from a number, by a generator of 32 bits. It shares nothing with the server."""


class Draws:
    """Numbers below 65,536, one after another."""

    def __init__(self, seed):
        self.state = seed % 2**32

    def draw(self):
        self.state = (1664525 * self.state + 1013904223) % 2**32
        return self.state // 65536


def shared(number):
    return b"s%d" % number


def own(session, number):
    return b"p%dx%d" % (session, number)


def shared_value(session, number):
    return b"%c" % (65 + session) * (100 + 593 * number)


def own_value(number, length):
    return b"%c" % (97 + number) * length


def request(session, draws):
    """A request behind the first 32, by two draws or three."""
    kind, number = draws.draw() % 7, draws.draw() % 16
    other = (number + 1) % 16
    if kind == 0:
        return b"GET", shared(number)
    if kind == 1:
        return b"GET", own(session, number)
    if kind == 2:
        return b"MGET", shared(number), own(session, number), shared(other), own(session, other)
    if kind == 3:
        return b"SET", shared(number), shared_value(session, number)
    if kind == 4:
        return b"SET", own(session, number), own_value(number, draws.draw() % 9001)
    if kind == 5:
        return b"APPEND", own(session, number), own_value(number, 100)
    return b"DEL", own(session, number)


def generated(seed, session, count):
    """The requests of a session, as lists of words: each shared key and each own key is set once, and then comes what
    is drawn."""
    draws = Draws(seed + session)
    for number in range(min(count, 16)):
        yield [b"SET", shared(number), shared_value(session, number)]
    for number in range(min(count - 16, 16)):
        yield [b"SET", own(session, number), own_value(number, 50 + 600 * number)]
    for _ in range(32, count):
        yield list(request(session, draws))
