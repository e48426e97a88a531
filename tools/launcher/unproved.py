"""The program as `rt try` compiles it: nothing is proved of it. What was compiled is kept, by the sum of its sources.

rt try compiles the program in a folder of its own, runs it there, and removes it then. So it is given a pipe to read:
while the program waits there, its file is copied, with the words by which it was started, since the toolchain may have
a loader of its own.
"""

import contextlib
import errno
import glob
import hashlib
import json
import os
import shutil
import subprocess
import tempfile
import time

from launcher.place import CRATE_FOLDER, shown
from launcher.proved import TOOLCHAIN_MISSING, sum_of_sources
from launcher.times import shown as shown_time
from launcher.voice import Refused, reason

SLOW = "it checks each of its steps, which makes it many times slower: read no speed off it"
TICK = 0.05


class Unproved:
    """Sees to it that there is a program compiled from the sources as they stand. `stack` ends with this command."""

    def __init__(self, children, voice, stack):
        self.children, self.voice, self.stack = children, voice, stack

    def see_to_it(self):
        """Returns the words that start the program."""
        self.sum = sum_of_sources()
        self.folder = self.folder_to_keep()
        self.program = os.path.join(self.folder, "flake_program")
        self.note, self.before = f"{self.program}.compiled", []
        if not self.is_noted():
            self.compile()
        self.voice.say(f"NOTHING IS PROVED of this run, and {SLOW}")
        return [*self.before, self.program]

    def folder_to_keep(self):
        """Returns where what is compiled is kept; in a clone that can't be written, a folder that goes at the end."""
        kept = os.path.join(CRATE_FOLDER, "out", "unproved")
        with contextlib.suppress(OSError):
            os.makedirs(kept, exist_ok=True)
        if os.access(os.path.join(kept, "flake_program"), os.X_OK) or os.access(kept, os.W_OK):
            return kept
        return self.stack.enter_context(tempfile.TemporaryDirectory(prefix="vepkhundi-"))

    def noted(self):
        with open(self.program, "rb") as it:
            return {"sources": self.sum, "program": hashlib.sha256(it.read()).hexdigest()}

    def is_noted(self):
        """Whether the program that is kept was compiled from these sources; then `before` is what starts it."""
        with contextlib.suppress(OSError, ValueError, TypeError):
            with open(self.note, encoding="utf-8") as it:
                noted = json.load(it)
            self.before = noted.pop("before")
            return os.access(self.program, os.X_OK) and noted == self.noted()
        return False

    def compile(self):
        if not shutil.which("rt"):
            raise Refused(TOOLCHAIN_MISSING, 127)
        self.voice.say(f"compiles the program without its proof, once for these sources: {shown(self.folder)}")
        self.began = time.monotonic()
        self.children.shows = lambda: self.voice.say(self.line())
        try:
            with tempfile.TemporaryDirectory(prefix="vepkhundi-") as room:
                self.compile_in(room)
            if sum_of_sources() != self.sum:
                raise Refused("the sources changed while they were compiled, so nothing was run: call this again")
            with open(self.note, "w", encoding="utf-8") as it:
                json.dump({**self.noted(), "before": self.before}, it)
        except OSError as it:
            raise Refused(f"the program can't be compiled and kept ({reason(it)}): nothing was run") from None
        finally:
            self.children.shows = None
            self.clear()
        self.voice.note(f"compiled in {shown_time(time.monotonic() - self.began)}")

    def compile_in(self, room):
        pipe = os.path.join(room, "requests")
        os.mkfifo(pipe)
        with open(os.path.join(room, "said"), "w+b") as said:
            how = {"env": {**os.environ, "TMPDIR": room}, "stdin": subprocess.DEVNULL, "stdout": said, "stderr": said}
            rt = ["rt", "try", "--seconds", "86400", "--", "serve", pipe]
            rt = self.children.start(rt, cwd=CRATE_FOLDER, start_new_session=True, **how)
            try:
                is_copied = self.copy_once_it_reads(pipe, room, rt)
            finally:
                if rt.poll() is None:
                    rt.terminate()
                rt.wait()
            self.children.stop_if_asked(self.voice.say, "nothing was written")
            if not is_copied:
                self.clear()
                said.seek(0)
                with contextlib.suppress(OSError):
                    os.write(2, said.read())
                raise Refused("rt try didn't compile the program (its words are above), so nothing was run")

    def copy_once_it_reads(self, pipe, room, rt):
        """Copies the program while it waits for a byte. Returns whether it did; it doesn't where rt ends before."""
        while (end := open_where_read(pipe)) is None:
            self.show()
            if rt.poll() is not None:
                return False
            time.sleep(TICK)
        try:
            while rt.poll() is None:
                if words := words_that_read(pipe, room):
                    *self.before, file = words
                    shutil.copy(file, f"{self.program}.new")
                    os.chmod(f"{self.program}.new", 0o755)
                    os.replace(f"{self.program}.new", self.program)
                    return True
                time.sleep(TICK)
        finally:
            os.close(end)
        return False

    def line(self):
        return f"compiles the program: {shown_time(time.monotonic() - self.began)} so far"

    def show(self):
        if os.isatty(2) and not self.voice.is_quiet:
            os.write(2, b"\r\x1b[K" + self.line().encode())

    def clear(self):
        if os.isatty(2) and not self.voice.is_quiet:
            os.write(2, b"\r\x1b[K")


def open_where_read(pipe):
    """Returns the pipe's writing end, or None while nobody reads it."""
    try:
        return os.open(pipe, os.O_WRONLY | os.O_NONBLOCK)
    except OSError as it:
        if it.errno != errno.ENXIO:
            raise
    return None


def words_that_read(pipe, room):
    """Returns the words that started the process which has the pipe open, beside this one, up to the program that rt
    made in this room; or none."""
    for link in glob.glob("/proc/[0-9]*/fd/*"):
        with contextlib.suppress(OSError):
            process = link.split("/")[2]
            if int(process) != os.getpid() and os.readlink(link) == pipe:
                return words_of(f"/proc/{process}", room)
    return None


def words_of(process, room):
    folder = os.readlink(f"{process}/cwd")
    with open(f"{process}/cmdline", "rb") as it:
        words = list(map(os.fsdecode, it.read().split(b"\0")))
    files = (os.path.join(folder, word) for word in words)
    for place, file in enumerate(files):
        if file.startswith(f"{room}/") and os.path.isfile(file):
            return [*words[:place], file]
    return None
