"""How many buffers generated requests may claim, which the pool that serves them must have."""

from plain.generated import generated
from plain.pool import LARGE, SMALL

MOST_SMALL, MOST_LARGE, STAGE = 65_536, 16_384, 128
MOST_OF_REQUEST = 3  # buffers that one request may claim: a value has at most 9,050 bytes


def demand_of(number, sessions, requests):
    """Returns small and large buffers; where no demand can be too much, none is reckoned."""
    if sessions * requests * MOST_OF_REQUEST <= MOST_LARGE:
        return 0, 0
    small, large = STAGE * sessions, 0
    for session in range(sessions):
        for words in generated(number, session, requests):
            of_request = demand_of_request(words)
            small, large = small + of_request[0], large + of_request[1]
    return small, large


def demand_of_request(words):
    if words[0] == b"APPEND":
        return 1, 2  # a fragment that is not full is written anew, with 100 bytes more
    return demand_of_value(len(words[2])) if words[0] == b"SET" else (0, 0)


def demand_of_value(length):
    """A value takes a large buffer for each full fragment, and one of either kind for the bytes behind these."""
    full, rest = divmod(length, LARGE)
    return (1, full) if 0 < rest <= SMALL else (0, full + (rest > 0))
