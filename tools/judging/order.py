"""An order of the calls of a recording, searched key by key. Nothing of it is trusted: the journal that comes of it is
judged by `check`.

Where the orders of keys can't be merged, since a connection's requests overlap or a call names several keys, those keys
are searched together.
"""

import collections
import heapq

from judging.deeds import Sum, deeds_of
from judging.journal import Entry
from judging.search import OutOfSteps, Search, Steps


class Found:
    """What a search came to: the entries of a journal; or why there are none, with the deeds, in queues, that have no
    order, where that is why."""

    def __init__(self, entries=None, why=None, queues=None):
        self.entries, self.why, self.queues = entries, why, queues


class Groups:
    """Keys that are searched together."""

    def __init__(self, keys):
        self.parents = {key: key for key in keys}

    def of(self, key):
        while self.parents[key] != key:
            self.parents[key] = key = self.parents[self.parents[key]]
        return key

    def join(self, keys):
        first, *others = [self.of(key) for key in keys]
        for other in others:
            self.parents[other] = first


def search(sessions, steps=None):
    """Returns what a search over the calls of these sessions found; their times are known."""
    steps, queues = steps or Steps(), deeds_of(sessions)
    deeds = [deed for queue in queues for deed in queue]
    groups = Groups({deed.key for deed in deeds})
    join_sums(groups, deeds)
    orders = {}
    try:
        while True:
            queues_without = search_groups(queues, groups, orders, steps)
            if queues_without:
                return Found(why=no_order(queues_without), queues=queues_without)
            merged, stuck = merge(queues, groups, orders)
            if not stuck:
                entries = [Entry(0, deed.call.session, deed.call.number, deed.index) for deed in merged]
                return Found(entries)
            for keys in stuck:
                del orders[keys]
            groups.join(stuck)
    except OutOfSteps:
        return Found(why=f"no order was found within {steps.most:,} steps (--steps N allows more)")


def no_order(queues):
    keys = {deed.key for queue in queues for deed in queue}
    return f"{len(keys)} key{'' if len(keys) == 1 else 's'} {'has' if len(keys) == 1 else 'have'} no order"


def join_sums(groups, deeds):
    """Keys of a call whose answers are known as a sum alone are searched together."""
    by_call = collections.defaultdict(list)
    for deed in deeds:
        if isinstance(deed.expected, Sum):
            by_call[deed.expected].append(deed.key)
    for keys in by_call.values():
        groups.join(keys)


def search_groups(queues, groups, orders, steps):
    """Searches each group that has no order yet, and returns the queues of the first that has none; else None."""
    by_group = collections.defaultdict(lambda: [[] for _ in queues])
    for number, queue in enumerate(queues):
        for deed in queue:
            by_group[groups.of(deed.key)][number].append(deed)
    for group, of_group in by_group.items():
        if group not in orders:
            orders[group] = Search(of_group, steps).find()
            if orders[group] is None:
                return of_group
    return None


def merge(queues, groups, orders):
    """Returns all deeds in an order that keeps those of the groups and of the sessions; and where these contradict each
    other, groups that do."""
    before = {deed: [] for queue in queues for deed in queue}
    behind = {deed: [] for deed in before}
    for chain in [*queues, *orders.values()]:
        for first, second in zip(chain, chain[1:]):
            before[second].append(first)
            behind[first].append(second)
    left = {deed: len(firsts) for deed, firsts in before.items()}
    ready = [(deed.rank, deed) for deed, count in left.items() if count == 0]
    heapq.heapify(ready)
    merged = []
    while ready:
        _, deed = heapq.heappop(ready)
        merged.append(deed)
        for second in behind[deed]:
            left[second] -= 1
            if left[second] == 0:
                heapq.heappush(ready, (second.rank, second))
    if len(merged) == len(left):
        return merged, []
    return merged, circle(before, set(left) - set(merged), groups)


def circle(before, stuck, groups):
    """The groups of deeds each of which stands before the next, and the last before the first."""
    deed, path, places = next(iter(stuck)), [], {}
    while deed not in places:
        places[deed] = len(path)
        path.append(deed)
        deed = next(it for it in before[deed] if it in stuck)
    return {groups.of(it.key) for it in path[places[deed] :]}
