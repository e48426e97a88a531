"""Buffers that are counted: who holds one, and which is the next that is free. It shares nothing with the server."""

SMALL, LARGE = 512, 4096
FIRST = 1_048_576  # the address of buffer 0


class NoBuffer(Exception):
    """Every buffer of a kind is held."""


class Pool:
    """The small buffers come first. Of each it has how many hold it, and what it was filled with last."""

    def __init__(self, small, large):
        self.small = small
        self.holds = [0] * (small + large)
        self.filled = {}

    def claim(self, is_small):
        """Takes the first buffer of its kind that nobody holds."""
        kind = (0, self.small) if is_small else (self.small, len(self.holds))
        try:
            buffer = self.holds.index(0, *kind)
        except ValueError:
            raise NoBuffer from None
        self.holds[buffer] = 1
        return buffer

    def pin(self, buffer):
        assert self.holds[buffer] > 0, "who pins a buffer holds it"
        self.holds[buffer] += 1

    def unpin(self, buffer):
        """Whether nobody holds it any more."""
        self.holds[buffer] -= 1
        assert self.holds[buffer] >= 0, "who gives a buffer back held it"
        return self.holds[buffer] == 0

    def address(self, buffer):
        large = max(buffer - self.small, 0)
        return FIRST + SMALL * (buffer - large) + LARGE * large

    def held(self):
        """How many small and how many large buffers are held."""
        small = sum(map(bool, self.holds[: self.small]))
        return small, sum(map(bool, self.holds)) - small

    def place(self, value):
        """Cuts a value after each 4,096 bytes and fills a buffer with each cut, or none where one of them isn't
        free."""
        cuts = [value[at : at + LARGE] for at in range(0, len(value), LARGE)]
        claimed = []
        try:
            for cut in cuts:
                claimed.append(self.claim(len(cut) <= SMALL))
        except NoBuffer:
            self.give_back(claimed)
            raise
        self.filled.update(zip(claimed, cuts))
        return [(buffer, len(cut)) for buffer, cut in zip(claimed, cuts)]

    def give_back(self, buffers):
        """How many of these nobody holds any more."""
        return sum(map(self.unpin, buffers))
