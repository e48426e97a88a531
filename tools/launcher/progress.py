"""How far a proof is, from what rt writes as it goes."""

import os
import re
import time

from launcher.times import shown

BEGINS = re.compile(rb"rt: chose --jobs \d+ for (\w+)")
SO_FAR = re.compile(rb"so far: (\d+) of (\d+) functions checked")
ENDS = re.compile(rb"crate (\w+): modules")
EACH = 60  # seconds between lines where none can be written over


class Progress:
    """Shows one line: on a terminal it is written over each second; else it comes once a minute and for each crate."""

    def __init__(self, crates, times, voice):
        self.crates, self.times, self.voice = crates, times, voice
        self.at = 0
        self.checked = None
        self.began = self.entered = time.monotonic()
        self.shown = 0.0
        self.is_terminal = os.isatty(2)

    def take(self, line):
        """Takes a line of rt's."""
        if found := SO_FAR.match(line):
            self.checked = tuple(map(int, found.groups()))
        elif found := BEGINS.match(line) or ENDS.match(line):
            name = found[1].decode()
            if name in self.crates:
                self.enter(name, found.re is ENDS)

    def enter(self, name, has_ended):
        place, now = self.crates.index(name), time.monotonic()
        if has_ended and place == self.at and self.checked is not None:
            self.times.add(name, now - self.entered)
        at = place + has_ended
        if self.at < at <= len(self.crates):
            self.at, self.checked, self.shown, self.entered = at, None, 0.0, now

    def left(self):
        """Seconds that are left, by the times of the crates that are not proved."""
        rest = sum(self.times.of(it) for it in self.crates[self.at :])
        return max(rest - (time.monotonic() - self.entered), 0)

    def line(self):
        so_far = f"{self.at} of {len(self.crates)} crates proved, {shown(time.monotonic() - self.began)} so far"
        if self.at == len(self.crates):
            return f"{so_far}: builds the program"
        functions = "" if self.checked is None else ", {} of {} functions".format(*self.checked)
        return f"{so_far}, about {shown(self.left())} left; {self.crates[self.at]}{functions}"

    def show(self):
        now = time.monotonic()
        if self.voice.is_quiet or now - self.shown < (1 if self.is_terminal else EACH):
            return
        self.shown = now
        if self.is_terminal:
            width = (os.get_terminal_size(2).columns or 80) - 1
            os.write(2, b"\r\x1b[K" + self.line()[:width].encode())
        else:
            self.voice.note(self.line())

    def end(self):
        """Leaves the terminal's line to what comes next."""
        if self.is_terminal and not self.voice.is_quiet:
            os.write(2, b"\r\x1b[K")
