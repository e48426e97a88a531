"""How far a run is: how much of each file was read, which the system says of an open file, and what was written."""

import contextlib
import os
import threading
import time

from launcher.opening import is_file
from launcher.times import shown

FIRST, EACH = 2, 1  # seconds before the first line, and between lines


class Watch:
    """Shows one line on a terminal, while the run lasts; whoever asks by SIGUSR1 gets a line for each file."""

    def __init__(self, number, task, voice):
        self.number, self.outputs, self.voice = number, task.outputs, voice
        self.read = {os.path.realpath(it): 0 for it in task.opened if is_file(it)}
        self.began, self.has_ended = time.monotonic(), threading.Event()
        self.thread = None
        if os.isatty(2) and not voice.is_quiet and not (task.says_much() and os.isatty(1)):
            self.thread = threading.Thread(target=self.show_again, daemon=True)
            self.thread.start()

    def look(self):
        """Looks where the program is in its files."""
        folder = f"/proc/{self.number}/fd"
        with contextlib.suppress(OSError):
            for name in os.listdir(folder):
                with contextlib.suppress(OSError):
                    file = os.readlink(f"{folder}/{name}")
                    if file in self.read:
                        self.read[file] = max(self.read[file], place_of(self.number, name))

    def spent(self):
        return shown(time.monotonic() - self.began)

    def written(self):
        return sum(size_of(it) for it in self.outputs)

    def line(self):
        self.look()
        read, size = sum(self.read.values()), sum(map(size_of, self.read))
        part = f"{100 * read // size}% of {size} bytes read, " if size else ""
        return f"{part}{self.written()} bytes of replies written, {self.spent()}"

    def lines(self):
        """A line for each file of requests, and the sum."""
        self.look()
        for file, place in self.read.items():
            yield f"{os.path.basename(file)}: {place} of {size_of(file)} bytes read"
        yield f"{self.written()} bytes of replies written, {self.spent()}"

    def say(self):
        for line in self.lines():
            self.voice.say(line)

    def show_again(self):
        wait = FIRST
        while not self.has_ended.wait(wait):
            with contextlib.suppress(OSError):
                width = (os.get_terminal_size(2).columns or 80) - 1
                os.write(2, b"\r\x1b[K" + self.line()[:width].encode())
            wait = EACH

    def end(self):
        self.has_ended.set()
        if self.thread is not None:
            self.thread.join()
            with contextlib.suppress(OSError):
                os.write(2, b"\r\x1b[K" if time.monotonic() - self.began >= FIRST else b"")


def size_of(file):
    """The bytes of a file; of what is none, 0."""
    try:
        return os.stat(file).st_size if is_file(file) else 0
    except OSError:
        return 0


def place_of(process, name):
    """How many bytes of an open file were read."""
    with open(f"/proc/{process}/fdinfo/{name}", encoding="ascii") as it:
        return next((int(line.split()[1]) for line in it if line.startswith("pos:")), 0)
