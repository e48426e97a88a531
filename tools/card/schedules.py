"""A schedule over sessions that share keys, drawn by chance, with what each session asks for. Values are letters, so
that no card takes two of their bytes for the type of an internet packet."""

import random

from plain.driven_rows import request

KEYS = [b"key%d" % number for number in range(12)]
LENGTHS = [0, 1, 2, 7, 100, 510, 511, 512, 513, 600, 1024, 4095, 4096, 4097, 4608, 5000, 8192, 8193, 9000]


def drawn(seed, sessions, lines):
    """The schedule, and the inputs."""
    chance = random.Random(seed)
    inputs = [b"".join(request(*command(chance)) for _ in range(lines)) for _ in range(sessions)]
    steps = chance.choices(("call", "gather", "reap"), (5, 3, 2), k=lines)
    return "".join(f"{step} {chance.randrange(sessions)}\n" for step in steps).encode(), inputs


def value(chance):
    return bytes(chance.choices(range(97, 123), k=chance.choice(LENGTHS)))


def command(chance):
    key = chance.choice(KEYS)
    kinds = [
        lambda: (b"SET", key, value(chance), *chance.choice(([], [], [b"NX"], [b"XX"], [b"GET"]))),
        lambda: (b"GET", key),
        lambda: (b"MGET", *chance.choices(KEYS + [b"none"], k=chance.choice((1, 2, 3, 5)))),
        lambda: (b"APPEND", key, value(chance)[:3000]),
        lambda: (b"DEL", key, chance.choice(KEYS)),
        lambda: (b"PING", value(chance)),
        lambda: (b"GETRANGE", key, b"%d" % chance.randrange(-9000, 9000), b"%d" % chance.randrange(-9000, 9000)),
        lambda: (b"FLY",),
    ]
    return chance.choices(kinds, (35, 25, 12, 8, 4, 6, 8, 2))[0]()
