"""How long the proof of each crate takes: as this machine took the last time, or as the machine did on which times.txt
was written."""

import contextlib
import os

LISTED = os.path.join(os.path.dirname(os.path.realpath(__file__)), "times.txt")
USUAL = 60  # seconds of a crate that is in no list


def read_times(path):
    """Returns the seconds of each crate that a list has; none where there is no list."""
    with contextlib.suppress(OSError, ValueError):
        with open(path, encoding="utf-8") as it:
            rows = [line.split() for line in it if line.strip() and not line.startswith("#")]
        return {name: float(seconds) for name, seconds in rows}
    return {}


class Times:
    """`kept` is where this machine's times are, which an earlier proof here left."""

    def __init__(self, kept):
        self.kept, self.listed, self.here = kept, read_times(LISTED), read_times(kept)

    def of(self, crate):
        return self.here.get(crate, self.listed.get(crate, USUAL) * self.pace())

    def pace(self):
        """How much longer than listed this machine takes, over the crates whose times it has."""
        both = [name for name in self.here if name in self.listed]
        listed = sum(self.listed[name] for name in both)
        return sum(self.here[name] for name in both) / listed if listed else 1

    def add(self, crate, seconds):
        """Keeps what a crate took."""
        self.here[crate] = seconds
        with contextlib.suppress(OSError):
            with open(self.kept, "w", encoding="utf-8") as it:
                it.writelines(f"{name} {took:.1f}\n" for name, took in self.here.items())


def shown(seconds):
    """Minutes and seconds, or minutes where they are many."""
    minutes, seconds = divmod(int(seconds), 60)
    return f"{minutes} min" if minutes >= 10 else f"{minutes} min {seconds:02} s" if minutes else f"{seconds} s"
