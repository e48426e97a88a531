"""The files of replies, in the folder where they are written: who may write them, and what becomes of those that are
there."""

import fcntl
import itertools
import os
import stat

from launcher.renamed import rename_new
from launcher.voice import Refused, quoted, reason


def replies_of(count):
    """The files to which so many sessions write."""
    return [f"out{number}.resp" for number in range(count)]


def names_of(names):
    """Names of files in words."""
    return quoted(names[0]) if len(names) == 1 else f"{quoted(names[0])} to {quoted(names[-1])}"


def lock_folder(name):
    """Returns what holds a folder for one run: no file, and it ends with the last process that has it."""
    try:
        folder = os.open(name or ".", os.O_RDONLY | os.O_DIRECTORY)
        fcntl.flock(folder, fcntl.LOCK_EX | fcntl.LOCK_NB)
    except BlockingIOError:
        raise Refused(
            "another run is under way in this folder, and both would write out0.resp: nothing was run. "
            "Wait for it, or call this in another folder"
        ) from None
    except OSError as it:
        which = quoted(name) if name else "this folder"
        raise Refused(f"{which} can't be locked for one run ({it.strerror}): nothing was run") from None
    return folder


def refuse_replies_as_requests(files, names):
    """Refuses a file that is read, and that files of replies would overwrite."""
    for file in files:
        for replies in names:
            if is_same(file, replies):
                raise Refused(
                    f"{quoted(file)} is the same file as {quoted(replies)}, which the replies would overwrite: "
                    "nothing was run or touched. Give it another name, or call this in another folder"
                )


def is_same(file, other):
    try:
        return os.path.samefile(file, other)
    except OSError:
        return False


def would_be_lost(replies):
    """Whether something stands where the replies go. A pipe, a device or a folder there loses nothing."""
    try:
        return stat.S_ISREG(os.stat(replies).st_mode)
    except OSError:
        return os.path.lexists(replies)


class Earlier:
    """Replies that were there before a run, which get another name for its time, and keep that where it writes any."""

    def __init__(self, names, voice):
        self.names, self.voice = names, voice
        self.moved = {}

    def move_aside(self):
        """Of a link, the link itself is moved."""
        for replies in filter(would_be_lost, self.names):
            try:
                self.moved[replies] = move_one(replies)
            except OSError as it:
                self.give_names_back()
                would = f"would be taken for this run's replies ({reason(it)}): nothing was run"
                raise Refused(f"{quoted(replies)} can't be moved aside, and {would}") from None
            name, aside = quoted(replies), quoted(self.moved[replies])
            self.voice.say(f"{name} of before is now {aside}; to have it back: mv -- {aside} {name}")

    def are_written(self):
        """Whether the run wrote a file of replies."""
        return any(map(would_be_lost, self.names))

    def bring_back(self):
        """Where no replies were written, those of before have their names again."""
        if self.moved and not self.are_written():
            self.give_names_back()

    def give_names_back(self):
        for replies, aside in self.moved.items():
            try:
                rename_new(aside, replies)
            except OSError as it:
                self.voice.say(f"{quoted(aside)} can't be renamed back to {quoted(replies)} ({reason(it)})")
            else:
                self.voice.say(f"nothing was written: {quoted(replies)} is again the one of before")
        self.moved = {}


def move_one(replies):
    """Moves one file to the next name that is free, and returns that."""
    for number in itertools.count(1):
        aside = f"{replies}.~{number}~"
        if os.path.lexists(aside):
            continue
        try:
            rename_new(replies, aside)
        except FileExistsError:
            continue
        return aside
    raise AssertionError("numbers don't end")
