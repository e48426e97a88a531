"""The program, proved from the sources as they stand."""

import collections
import contextlib
import fcntl
import hashlib
import os
import select
import shutil
import subprocess
import time

from launcher.place import CRATE, CRATE_FOLDER, TOP, shown
from launcher.progress import Progress
from launcher.sources import Sources
from launcher.times import Times
from launcher.times import shown as shown_time
from launcher.voice import Refused, quoted, reason

TOOLCHAIN_MISSING = "no command rt on the PATH: the Rattle toolchain has it, and it proves and builds the program"


def sum_of_sources():
    try:
        return Sources(TOP, os.path.basename(CRATE)).sum()
    except OSError as it:
        raise Refused(f"the sources can't be read and summed ({reason(it)}): nothing was run") from None


class Proved:
    """Sees to it that the program was proved from the sources: it keeps a note of their sum and of its own."""

    def __init__(self, children, voice):
        self.children, self.voice = children, voice
        self.sources = Sources(TOP, os.path.basename(CRATE))
        self.out = os.path.join(CRATE_FOLDER, "out")
        self.program = os.path.join(self.out, "flake_program")
        self.note = f"{self.program}.proved"
        self.log = os.path.join(self.out, "build.log")

    def see_to_it(self):
        """Returns the words that start the program."""
        if not os.path.isdir(CRATE_FOLDER):
            raise Refused(f"there is no {CRATE} beside this command")
        self.sum = sum_of_sources()
        if not self.is_known():
            self.build()
        self.voice.note("the program that runs was proved from the sources as they stand")
        return [self.program]

    def is_known(self):
        """Whether it was proved from these sources, and that is noted."""
        if self.is_noted():
            return True
        if self.is_of_gate():
            self.write_note()
            return True
        return False

    def noted(self):
        """Returns what the note has where the program was proved from these sources."""
        with open(self.program, "rb") as it:
            return f"{self.sum}\n{hashlib.sha256(it.read()).hexdigest()}\n"

    def is_noted(self):
        with contextlib.suppress(OSError, UnicodeDecodeError):
            with open(self.note, encoding="ascii") as it:
                return os.access(self.program, os.X_OK) and it.read() == self.noted()
        return False

    def write_note(self):
        """Keeps the note for the next call; where it can't be kept, the next call looks again."""
        with contextlib.suppress(OSError):
            with open(self.note, "w", encoding="ascii") as it:
                it.write(self.noted())

    def is_of_gate(self):
        """Whether the gate built the program from these sources: the gate alone leaves a second build, by Rattle's own
        compiler, after the first, and opens its lock when it begins."""
        try:
            began = os.stat(os.path.join(TOP, ".git", "rt-ci.lock")).st_mtime_ns
            first, second = (os.stat(self.program + ending).st_mtime_ns for ending in ("", ".by-rattle"))
            return os.access(self.program, os.X_OK) and second > first and not self.sources.changed_after(began)
        except OSError:
            return False

    def build(self):
        """Has rt prove the program and build it, one call at a time."""
        if not shutil.which("rt"):
            raise Refused(TOOLCHAIN_MISSING, 127)
        with contextlib.ExitStack() as held:
            try:
                os.makedirs(self.out, exist_ok=True)
                self.wait_for_turn(held)
                if self.is_noted():
                    return
                log = held.enter_context(open(self.log, "wb", buffering=0))
            except OSError as it:
                raise Refused(
                    f"this clone can't be written ({reason(it)}), so the program can't be proved and built here: "
                    "nothing was run. Call it in a clone of your own, or with --unproved"
                ) from None
            self.run_rt(log)
            if sum_of_sources() != self.sum:
                raise Refused("the sources changed while they were proved, so nothing was run: call this again")
            self.write_note()  # (before the next call has its turn, so that it finds the note)

    def wait_for_turn(self, held):
        """Waits until no other call builds here. The lock leaves no file, and ends with the call that has it."""
        folder = os.open(self.out, os.O_RDONLY)
        held.callback(os.close, folder)
        waits = False
        while True:
            try:
                return fcntl.flock(folder, fcntl.LOCK_EX | fcntl.LOCK_NB)
            except BlockingIOError:
                if not waits:
                    self.voice.note("another call proves and builds the program: waits for it")
                waits = True
                time.sleep(0.2)
                self.children.stop_if_asked(self.voice.say, "nothing was run")

    def run_rt(self, log):
        times = Times(os.path.join(self.out, "times"))
        progress = Progress(self.sources.crates(), times, self.voice)
        self.voice.note(
            f"proves and builds the program first, {len(progress.crates)} crates: about {shown_time(progress.left())} "
            f"by the last times, and less after an edit (rt's words: {quoted(shown(self.log))})"
        )
        self.children.shows = lambda: self.voice.say(progress.line())
        # (served an empty file, the program ends with status 0 and writes no file)
        words = ["rt", "run", "--", "serve", "/dev/null"]
        how = {"stdin": subprocess.DEVNULL, "stdout": subprocess.PIPE, "stderr": subprocess.STDOUT}
        rt = self.children.start(words, cwd=CRATE_FOLDER, start_new_session=True, **how)
        last = self.follow(rt, log, progress)
        status = rt.wait()
        self.children.shows = None
        left = "the program isn't proved yet, and nothing was run; what was proved is kept"
        self.children.stop_if_asked(self.voice.say, left)
        if status or not os.access(self.program, os.X_OK):
            with contextlib.suppress(OSError):
                os.write(2, b"".join(it + b"\n" for it in last))
            words = quoted(shown(self.log))
            raise Refused(f"the program was NOT proved and built, so nothing was run (all of rt's words: {words})")

    def follow(self, rt, log, progress):
        """Copies what rt writes into the log, shows how far it is, and returns its last lines."""
        last, rest = collections.deque(maxlen=20), b""
        while True:
            if select.select([rt.stdout], [], [], 1)[0]:
                piece = os.read(rt.stdout.fileno(), 65536)
                if not piece:
                    break
                with contextlib.suppress(OSError):
                    log.write(piece)
                *lines, rest = (rest + piece).split(b"\n")
                for line in lines:
                    last.append(line)
                    progress.take(line)
            progress.show()
        progress.end()
        return [*last, rest] if rest else list(last)
