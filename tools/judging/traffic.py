"""Clients for checks: commands drawn by chance over a few keys, sent one by one or several at once."""

import random
import socket

from judging.resp import read_reply

KEYS = [b"", b"a", b"k5", b"two words\r\n", b"\x00\xff"]
LENGTHS = [0, 1, 2, 3, 40, 511, 513, 4097]
PLACES = [b"0", b"1", b"3", b"-1", b"-3", b"-50", b"600", b"9223372036854775807"]
OPTIONS = [[], [], [], [b"NX"], [b"XX"], [b"get"], [b"NX", b"GET"], [b"XX", b"GET"]]
FAULTS = [
    (b"FLY", b"a"),
    (b"GET",),
    (b"SET", b"a", b"b", b"NX", b"XX"),
    (b"GETRANGE", b"a", b"01", b"2"),
    (b"PING", b"a", b"b"),
]


def request(*words):
    return b"*%d\r\n" % len(words) + b"".join(b"$%d\r\n%b\r\n" % (len(word), word) for word in words)


def value(chance, name):
    """A value that no other command brings, where it has more than a few bytes."""
    mark = b"%b.%d." % (name, chance.getrandbits(40))
    return (mark * 300)[: chance.choice(LENGTHS)] + mark * chance.choice([0, 1])


def command(chance, name):
    """The words of a command of a client."""
    key, keys = chance.choice(KEYS), chance.choices(KEYS, k=3)
    return chance.choice(
        [
            (b"SET", key, value(chance, name), *chance.choice(OPTIONS)),
            (b"SET", key, value(chance, name)),
            (b"GET", key),
            (b"get", key),
            (b"APPEND", key, value(chance, name)[:60]),
            (b"MGET", *keys),
            (b"DEL", *keys[: chance.choice([1, 1, 2])]),
            (b"EXISTS", *keys),
            (b"STRLEN", key),
            (b"GETRANGE", key, *chance.choices(PLACES, k=2)),
            (b"PING", *chance.choice([(), (name,)])),
            chance.choice(FAULTS),
        ]
    )


def commands(seed, name, count):
    chance = random.Random(f"{seed} {name}")
    return [command(chance, name) for _ in range(count)]


class Client:
    """A connection that sends commands and reads their replies."""

    def __init__(self, place):
        family = socket.AF_INET if isinstance(place, tuple) else socket.AF_UNIX
        self.socket, self.text = socket.socket(family, socket.SOCK_STREAM), b""
        self.socket.settimeout(60)
        self.socket.connect(place)

    def send(self, text):
        self.socket.sendall(text)

    def reply(self):
        """The text of the next reply, or b"" where the server has ended the connection before one."""
        while not (read := read_reply(self.text, 0)):
            try:
                piece = self.socket.recv(65536)
            except ConnectionResetError:
                piece = b""
            if not piece:
                return b""
            self.text += piece
        reply, self.text = self.text[: read.end], self.text[read.end :]
        return reply

    def ask(self, *words):
        self.send(request(*words))
        return self.reply()

    def play(self, many, depth):
        """Sends commands, so many at once, and reads their replies."""
        for at in range(0, len(many), depth):
            pieces = [request(*words) for words in many[at : at + depth]]
            self.send(b"".join(pieces))
            for _ in pieces:
                self.reply()

    def close(self):
        self.socket.close()
