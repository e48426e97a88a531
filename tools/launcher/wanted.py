"""The sizes of a pool that holds all values of some requests, whatever is replaced and whatever waits to be sent."""

from launcher.generated import MOST_LARGE, MOST_SMALL, STAGE, demand_of_value
from launcher.opening import read_again
from launcher.table import SERVE
from launcher.words import value_or_usual
from plain.pool import LARGE
from plain.requests import MOST_VALUE, parts_of, requests
from plain.store import answer

WAITING = 130  # calls behind which a reply is taken back, and with it what it names
NONE = "no pool is sure to hold these values: serve them in several runs"


def sizes_for(files, sizes):
    """Returns the options that hold these values, in words. A dump keeps what was replaced from becoming free."""
    texts = [read_again(file) for file in files]
    if None in texts:
        return "larger --large and --small hold more"
    is_one = len(texts) == 1 and "--dump" not in sizes
    wanted = demand_of_one(requests(texts[0])) if is_one else demand_of_many(map(requests, texts))
    small, large = wanted[0] + STAGE * len(files), wanted[1]
    if small > MOST_SMALL or large > MOST_LARGE:
        return NONE
    options = {"--small": small, "--large": large}.items()
    larger = [f"{name} {rounded(it)}" for name, it in options if it > value_or_usual(sizes, SERVE, name)]
    return f"{' '.join(larger)} {'hold' if larger[1:] else 'holds'} these values" if larger else NONE


def rounded(number):
    """The next power of two."""
    return 1 << (number - 1).bit_length()


def demand_of_one(asked):
    """What a session by itself may hold at once: what the store had before the replies that wait, and all that was
    claimed since."""
    store, held, claimed = {}, [(0, 0)], [(0, 0)]
    live = (0, 0)
    for words in asked:
        claims = (0, 0)
        for part in parts_of(words):
            before = store.get(part.key, b"")
            answer(store, part)
            after = store.get(part.key, b"")
            claims = plus(claims, claims_of(part, before))
            live = plus(live, demand_of_value(len(after)), demand_of_value(len(before)), -1)
        held.append(live)
        claimed.append(plus(claimed[-1], claims))
    most = (0, 0)
    for call, total in enumerate(claimed):
        since = max(call - WAITING, 0)
        most = tuple(map(max, most, plus(held[since], total, claimed[since], -1)))
    return most


def plus(first, second, third=(0, 0), sign=1):
    return tuple(a + b + sign * c for a, b, c in zip(first, second, third))


def claims_of(part, before):
    """The buffers that a part claims for its value."""
    if part.name == b"SET":
        return demand_of_value(len(part.given[0]))
    if part.name != b"APPEND" or len(before) + len(part.given[0]) > MOST_VALUE:
        return (0, 0)
    return demand_of_value(len(before) % LARGE + len(part.given[0]))


def demand_of_many(sessions):
    """What several sessions may claim in all, in whichever order: no buffer is counted on to become free."""
    total = (0, 0)
    for asked in sessions:
        for words in asked:
            for part in parts_of(words):
                total = plus(total, most_of(part))
    return total


def most_of(part):
    """The most that a part claims, whatever its key has."""
    if part.name == b"SET":
        return demand_of_value(len(part.given[0]))
    return (1, 1 + (len(part.given[0]) + LARGE - 1) // LARGE) if part.name == b"APPEND" else (0, 0)
