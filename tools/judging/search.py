"""A search for an order of the deeds of some keys in which a store of one thread gives their answers."""

from judging.deeds import Sum
from judging.needs import Needs

MOST_STEPS = 5_000_000


class OutOfSteps(Exception):
    """The bound on the steps of the search was met."""


class Steps:
    """How many steps may still be made."""

    def __init__(self, most=MOST_STEPS):
        self.most = self.left = most

    def take(self):
        self.left -= 1
        if self.left < 0:
            raise OutOfSteps


class Done:
    """A deed that was done, and what undoes it."""

    def __init__(self, queue, deed, value, amount):
        self.queue, self.deed, self.value, self.amount = queue, deed, value, amount


class Place:
    """A place that the search came to: the ways that weren't tried there yet, and what was done there."""

    def __init__(self, state, ways):
        self.state, self.ways, self.done = state, ways, None


class Search:
    """A queue of deeds for each session, whose order is kept. Where `loose` has values for a key, it may get any of
    these between two deeds, and None stands for none there."""

    def __init__(self, queues, steps, loose=None):
        self.queues = [queue for queue in queues if queue]
        self.steps, self.loose = steps, loose or {}
        self.next = [0] * len(self.queues)
        self.store, self.sums, self.token = {}, {}, 0
        self.order = []
        self.needs = Needs([deed for queue in self.queues for deed in queue], self.loose)

    def find(self):
        """Returns the deeds in an order that gives their answers, or None where there is none."""
        count, failed = sum(map(len, self.queues)), set()
        places = [Place(self.state(), self.ways())]
        while len(self.order) < count:
            place = places[-1]
            place.done = self.go(place.ways)
            if place.done:
                state = self.state()
                if state in failed:
                    self.undo(place.done)
                else:
                    places.append(Place(state, self.ways()))
                continue
            failed.add(places.pop().state)
            if not places:
                return None
            self.undo(places[-1].done)
        return self.order

    def state(self):
        """What decides how the search goes on. The store comes in as a sum of its keys and values."""
        return (*self.next, self.token)

    def ways(self):
        """Yields the ways to go on: a queue, and the value that the key of its next deed has. A deed that changes
        nothing and is answered as it should be is the only way: what can come later can come now."""
        heads = self.heads()
        for number, deed in heads:
            value = self.store.get(deed.key)
            if deed.is_still and deed.accepts(deed.outcome(value)[0], value):
                yield number, value
                return
        for number, deed in heads:
            yield number, self.store.get(deed.key)
        for number, deed in heads:
            yield from ((number, it) for it in self.loose.get(deed.key, ()) if it != self.store.get(deed.key))

    def heads(self):
        """The deeds that may come next, by their ranks: none was asked for after another was over."""
        places = enumerate(zip(self.queues, self.next))
        waiting = [(number, queue[at]) for number, (queue, at) in places if at < len(queue)]
        first_over = min((deed.replied for _, deed in waiting), default=0)
        return sorted((it for it in waiting if it[1].requested <= first_over), key=lambda it: it[1].rank)

    def go(self, ways):
        """Does the first deed that is answered as it should be; returns what undoes it, or None."""
        for number, value in ways:
            self.steps.take()
            deed = self.queues[number][self.next[number]]
            answered, after = deed.outcome(value)
            if deed.accepts(answered, value):
                total = deed.expected if isinstance(deed.expected, Sum) else None
                amount = self.sums.get(total, 0)
                if total is None or total.allows(amount + answered, deed.index):
                    done = Done(number, deed, self.store.get(deed.key), amount)
                    if self.do(done, after, answered):
                        return done
                    self.undo(done)
        return None

    def do(self, done, after, answered):
        """Does a deed, and returns whether all that later ones are to find may still come."""
        may_go_on = self.needs.take(done.deed, done.value, after)
        self.put(done.deed.key, after)
        if isinstance(done.deed.expected, Sum):
            self.put_sum(done.deed.expected, done.amount + answered)
        self.next[done.queue] += 1
        self.order.append(done.deed)
        return may_go_on

    def undo(self, done):
        self.needs.give_back(done.deed)
        self.put(done.deed.key, done.value)
        if isinstance(done.deed.expected, Sum):
            self.put_sum(done.deed.expected, done.amount)
        self.next[done.queue] -= 1
        self.order.pop()

    def put(self, key, value):
        """Gives a key a value, or removes it."""
        self.token ^= hash((key, self.store.get(key))) ^ hash((key, value))
        if value is None:
            self.store.pop(key, None)
        else:
            self.store[key] = value

    def put_sum(self, total, amount):
        self.token ^= hash((total, self.sums.get(total, 0))) ^ hash((total, amount))
        self.sums[total] = amount
