#!/usr/bin/env -S python3 -I -S
"""Writes what card_cases should print of cases, without it: from the datasheet's table of a descriptor, and from a
plain model of how replies are laid out.

  tools/card/expected.py < crates/card_cases/stdin | cmp - crates/card_cases/stdout

Status 1 where a line of the cases isn't three numbers.
"""

import argparse
import collections
import os
import sys

sys.dont_write_bytecode = True
sys.path.insert(0, os.path.dirname(os.path.dirname(os.path.realpath(__file__))))

from card.legacy import descriptors
from plain.layout import Layout
from plain.placed import pieces_of
from plain.pool import Pool

RING = 72  # how many descriptors the program's ring has
SMALL, LARGE = 40_000, 16  # and its pool of small and large buffers
STAGE = range(128)  # the first small ones, from which replies get copied bytes

# The line of a case, its reply's segments, and its bytes.
Reply = collections.namedtuple("Reply", "line segments text")


def value_of(length):
    return bytes((length + at) % 251 for at in range(length))


def replies_of(cases):
    """The reply of each line: to an MGET of so many keys that share a value of so many bytes."""
    pool = Pool(SMALL, LARGE)
    for _ in STAGE:
        pool.claim(True)
    for line in cases.splitlines():
        keys, length, threshold = map(int, line.split())
        fragments, layout = pool.place(value_of(length)), Layout(pool, STAGE, threshold)
        layout.copy(b"*%d\r\n" % keys)
        for _ in range(keys):
            layout.copy(b"$%d\r\n" % length)
            for piece in pieces_of(fragments, 0, length, False):
                layout.take(piece)
            layout.copy(b"\r\n")
        pool.give_back([buffer for buffer, _ in fragments] + layout.held)
        yield Reply(f"case {keys} {length} {threshold}", layout.segments, b"".join(layout.texts))


def lines_of(reply):
    """The line of a case, and one for each descriptor: its bytes, and those that it names."""
    yield reply.line
    at = 0
    for bits, (_, length) in zip(descriptors(reply.segments), reply.segments):
        yield f"{bits.hex()} {reply.text[at : at + length].hex()}"
        at += length


def expected_text(cases):
    return "".join(f"{line}\n" for reply in replies_of(cases) for line in lines_of(reply))


def main():
    parser = argparse.ArgumentParser(description=__doc__, formatter_class=argparse.RawDescriptionHelpFormatter)
    parser.parse_args()
    try:
        text = expected_text(sys.stdin.read())
    except ValueError as it:
        sys.exit(f"expected: a line of the cases isn't three numbers ({it})")
    sys.stdout.write(text)


if __name__ == "__main__":
    main()
