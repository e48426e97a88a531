"""What the program is built of: the sources of its crate and of those below it."""

import glob
import hashlib
import os

PARTS = {"src": ".rt", "specs": ".antt", "proofs": ".antt"}
LISTED, HANDLES = "crates.txt", "HANDLES"


class Sources:
    def __init__(self, top, crate):
        self.top, self.crate = top, crate

    def crates(self):
        """Returns the names of the crates, in the order in which rt proves them."""
        with open(os.path.join(self.top, LISTED), encoding="utf-8") as it:
            return list(crates_below(it.read(), self.crate))

    def lines(self):
        """Returns what crates.txt says of these crates."""
        with open(os.path.join(self.top, LISTED), encoding="utf-8") as it:
            below = crates_below(it.read(), self.crate)
        return "".join(f"{name}: {line}\n" for name, line in below.items())

    def places(self):
        """Returns the files, those behind links too, each by its name below the top."""
        found = [HANDLES]
        for crate in self.crates():
            for part, ending in PARTS.items():
                for root in glob.glob(os.path.join(glob.escape(self.top), "crates", crate, part)):
                    found += (it for it in below(root) if is_source(it, ending))
        return sorted(os.path.relpath(os.path.join(self.top, it), self.top) for it in found)

    def folders(self):
        """Returns the folders in which they lie, whose times say whether a file was added or removed."""
        found = set()
        for crate in self.crates():
            for part in PARTS:
                root = os.path.join(self.top, "crates", crate, part)
                if os.path.isdir(root):
                    found |= {root, *(os.path.dirname(it) for it in below(root))}
        return sorted(found)

    def sum(self):
        """Returns a sum of all names and bytes."""
        whole = hashlib.sha256(self.lines().encode() + b"\0")
        for place in self.places():
            path = os.path.join(self.top, place)
            if (sum_of_file := file_sum(path)) is not None:
                whole.update(os.fsencode(place) + b"\0" + sum_of_file)
        return whole.hexdigest()

    def changed_after(self, time):
        """Whether a file, a folder or a link was changed after a time."""
        paths = [os.path.join(self.top, it) for it in [LISTED, *self.places()]] + self.folders()
        return any(last_change(it) > time for it in paths)


def crates_below(listed, crate):
    """Returns the crates by their lines, in the order in which rt proves them, the given one last; `listed` is
    crates.txt."""
    lines = (line.partition("#")[0].partition(":") for line in listed.splitlines())
    uses = {name.split()[0]: (name.split()[1:], names.split()) for name, _, names in lines if name.split()}
    found = {}

    def add(name):
        if name not in found and name in uses:
            for it in uses[name][1]:
                add(it)
            found[name] = " ".join(uses[name][0] + uses[name][1])

    add(crate)
    return found or {crate: ""}


def is_source(path, ending):
    """Whether a check reads this: no editor's file, and no page."""
    name = os.path.basename(path)
    return name.endswith(ending) and not name.startswith(".")


def below(root):
    """Yields what lies below a folder; a folder that is met again behind a link is left out."""
    met = set()
    for at, folders, files in os.walk(root, followlinks=True, onerror=stop):
        met.add(os.path.realpath(at))
        folders[:] = [it for it in sorted(folders) if os.path.realpath(os.path.join(at, it)) not in met]
        yield from (os.path.join(at, it) for it in files)


def stop(error):
    raise error


def file_sum(path):
    """Returns the sum of a file, of a link that leads nowhere, or None for what has no bytes to be read."""
    if not os.path.exists(path):
        return hashlib.sha256(os.fsencode(os.readlink(path))).digest() if os.path.islink(path) else None
    if not os.path.isfile(path):
        return None
    with open(path, "rb") as it:
        return hashlib.sha256(it.read()).digest()


def last_change(path):
    """Returns when a place was last changed, and the place that it leads to."""
    places = [os.lstat(path)] if os.path.lexists(path) else []
    places += [os.stat(path)] if os.path.exists(path) else []
    return max((it.st_ctime_ns for it in places), default=0)
