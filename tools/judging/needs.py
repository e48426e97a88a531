"""Values that deeds are still to find at their keys, and the deeds that may still bring them: where none may, a search
needn't go on."""

import collections


class Needs:
    """Counts, of each key and value, the deeds left that must find it, and those that may leave it there. `loose` has
    values that may come at any time."""

    def __init__(self, deeds, loose):
        self.loose = loose
        self.finders, self.makers = collections.Counter(), collections.Counter()
        wanted = collections.defaultdict(set)
        for deed in deeds:
            if deed.finds:
                wanted[deed.key].add(deed.finds[1])
        for deed in deeds:
            deed.makes = [(deed.key, value) for value in deed.may_make(wanted[deed.key])]
            self.add(deed, 1)

    def add(self, deed, count):
        if deed.finds:
            self.finders[deed.finds] += count
        for made in deed.makes:
            self.makers[made] += count

    def take(self, deed, before, after):
        """A deed is done, with what its key had and has; returns whether all that is to be found may still come."""
        self.add(deed, -1)
        gone = [made for made in deed.makes if made[1] != after]
        if before != after:
            gone.append((deed.key, before))
        return all(self.may_come(it) for it in gone)

    def may_come(self, what):
        key, value = what
        return not self.finders[what] or self.makers[what] > 0 or value in self.loose.get(key, ())

    def give_back(self, deed):
        self.add(deed, 1)
