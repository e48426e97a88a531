"""The least part of a history that has no order: what is left where nothing more can be left out."""

from judging.deeds import FREE, NEVER, Deed
from judging.search import OutOfSteps, Search, Steps

STEPS_OF_A_TRY = 200_000


class Least:
    """Deeds of some keys that have no order. What is left out never helps the rest against an order: a deed that
    changes nothing is gone, and the value of a SET that is left out, or none after a DEL, may stand there at any
    time."""

    def __init__(self, queues):
        self.queues = [list(queue) for queue in queues]
        self.loose = {}

    def find(self):
        """Returns the deeds that are left, by the times at which they were asked for."""
        self.cut_behind()
        size = max(sum(map(len, self.queues)) // 2, 1)
        while True:
            has_shrunk = self.try_chunks(size)
            if size == 1 and not has_shrunk:
                break
            size = max(size // 2, 1)
        return sorted((deed for queue in self.queues for deed in queue), key=lambda deed: (deed.requested, deed.rank))

    def has_order(self, queues, loose):
        """Whether there is an order; where the search takes too long there may be one."""
        try:
            return Search(queues, Steps(STEPS_OF_A_TRY), loose).find() is not None
        except OutOfSteps:
            return True

    def cut_behind(self):
        """Leaves the shortest front, by the times of replies, that has no order: what was over later was still under
        way, and what was asked for later wasn't yet."""
        times = sorted({deed.replied for queue in self.queues for deed in queue})
        least, most = 0, len(times) - 1
        while least < most:
            middle = (least + most) // 2
            if self.has_order(front(self.queues, times[middle]), {}):
                least = middle + 1
            else:
                most = middle
        if times and not self.has_order(cut := front(self.queues, times[least]), {}):
            self.queues = cut

    def try_chunks(self, size):
        """Leaves out so many deeds at once, where the rest still has no order; returns whether it did."""
        deeds = sorted((deed for queue in self.queues for deed in queue), key=lambda deed: deed.rank)
        has_shrunk = False
        for at in range(0, len(deeds), size):
            chunk = [deed for deed in deeds[at : at + size] if can_be_left_out(deed)]
            if chunk and self.leave_out(set(chunk)):
                has_shrunk = True
        return has_shrunk

    def leave_out(self, chunk):
        queues = [[deed for deed in queue if deed not in chunk] for queue in self.queues]
        loose = {key: set(values) for key, values in self.loose.items()}
        for deed in chunk:
            if not deed.is_still:
                loose.setdefault(deed.key, set()).add(value_behind(deed))
        if self.has_order(queues, loose):
            return False
        self.queues, self.loose = queues, loose
        return True


def can_be_left_out(deed):
    return deed.is_still or deed.part.name in (b"SET", b"DEL")


def value_behind(deed):
    """What its key has behind a SET that stores or a DEL."""
    return deed.part.given[0] if deed.part.name == b"SET" else None


class UnderWay(Deed):
    """A deed whose reply hasn't come yet."""

    def __init__(self, deed):
        super().__init__(deed.call, deed.index, FREE)
        self.replied, self.rank = NEVER, (NEVER, *deed.rank[1:])


def front(queues, time):
    """The deeds that were asked for until a time; those that were over later are under way."""
    fronts = ([deed for deed in queue if deed.requested <= time] for queue in queues)
    return [[deed if deed.replied <= time else UnderWay(deed) for deed in queue] for queue in fronts]
