"""Schedules over sessions that share keys, drawn by chance: from pools, stages and rings that run full."""

import random

from plain.driven_rows import request

KEYS = [b"", b"a", b"b", b"k", b"long" * 20]
LENGTHS = [0, 1, 2, 99, 511, 512, 513, 600, 4090, 4096, 4097, 4608, 4609, 5000, 8192, 12300, 16385]
BROKEN = [b"PING\r\n", b"*1\r\n$01\r\n", b"*1\r\n+OK\r\n", b"*1025\r\n", b"*1\r\n$1\r\nab\r\n"]
CUT = [b"*1\r\n$4\r\nPI", b"*2\r"]


class Case:
    """Sizes, a schedule and inputs."""

    def __init__(self, seed, sessions=3):
        chance = random.Random(seed)
        self.sizes = {
            "small": 128 * sessions + chance.choice([0, 1, 2, 3, 6, 40]),
            "large": chance.choice([1, 2, 3, 4, 6, 30]),
            "ring": chance.choice([1160, 1160, 1168, 1600, 4096]),
            "threshold": chance.choice([1, 2, 100, 511, 512, 512]),
        }
        self.inputs = [input_of(chance, kind) for kind in chance.choices(["any", "large", "wide"], k=sessions)]
        self.schedule = schedule(chance, sessions)


def value(chance):
    return chance.choice(b"ABCDEFGH").to_bytes(1, "big") * chance.choice(LENGTHS)


def input_of(chance, kind):
    """The bytes of some commands; of large or wide ones a stage or a ring holds few. Some break the protocol, or are
    cut."""
    commands = (request(*command(chance, kind)) for _ in range(chance.randrange(5, 150)))
    return b"".join(commands) + (chance.choice(BROKEN + CUT) if chance.random() < 0.3 else b"")


def command(chance, kind):
    key = chance.choice(KEYS)
    if kind == "large" and chance.random() < 0.4:
        return b"PING", chance.choice(b"xy").to_bytes(1, "big") * chance.choice([1000, 5000, 16384, 16385])
    if kind == "wide" and chance.random() < 0.4:
        return b"MGET", *chance.choices(KEYS, k=chance.choice([20, 50, 64, 65]))
    options = [[], [], [], [b"GET"], [b"NX"], [b"xx"], [b"XX", b"get"], [b"NX", b"GET"], [b"NX", b"XX"]]
    places = [b"0", b"1", b"100", b"511", b"4095", b"4096", b"4999", b"-1", b"-600", b"-5000", b"01"]
    return chance.choice(
        [
            (b"SET", key, value(chance), *chance.choice(options)),
            (b"SET", key, value(chance)),
            (b"GET", key),
            (b"GET", key),
            (b"APPEND", key, value(chance)[:5000]),
            (b"GETRANGE", key, *chance.choices(places, k=2)),
            (b"MGET", *chance.choices(KEYS, k=3)),
            (b"DEL", *chance.choices(KEYS, k=2)),
            (b"EXISTS", key, key),
            (b"STRLEN", key),
            (b"PING",),
            (b"FLY", key),
        ]
    )


def schedule(chance, sessions):
    """Lines that come in runs; where most are calls, stages and rings run full."""
    lines, count, calls = [], chance.randrange(20, 500), chance.choice([3, 3, 9])
    while len(lines) < count:
        what = chance.choices(["call", "gather", "reap"], [calls, 3, 2])[0]
        one = chance.randrange(sessions)
        lines += chance.choice([1, 1, 2, 3, 8]) * [f"{what} {one}"]
    return "\n".join(lines + ([""] if chance.random() < 0.5 else [])).encode()
