"""One run of the program over what words ask for."""

import os
import signal
import subprocess

from launcher import faults
from launcher.children import end_by
from launcher.opening import inherited
from launcher.table import CHECK, JOIN
from launcher.voice import Refused, reason
from launcher.watch import Watch


class Ran:
    """What the program came to. `said` is what it said, where it says few lines, which are handed on once it has
    ended; `why_unsaid` is why they couldn't be."""

    def __init__(self, status, said, why_unsaid):
        self.status, self.said, self.why_unsaid = status, said, why_unsaid


def run(program, task, children, voice, held):
    """Runs the program, which these words start; `held` are open files that it keeps for as long as it runs."""
    how = {"pass_fds": tuple({*held, *inherited(task.opened)}), "restore_signals": False, "cwd": task.folder or None}
    if not task.says_much():
        how["stdout"] = subprocess.PIPE
    try:
        # (it doesn't get this command's own leave to be ended by a full limit or a closed pipe: then a write fails)
        child = children.start([*program, *task.for_program()], **how)
    except OSError as it:
        raise Refused(f"the program can't be started ({reason(it)}): nothing was run") from None
    watch = Watch(child.pid, task, voice)
    children.shows = watch.say
    try:
        said = child.stdout.read() if child.stdout else b""
        status = child.wait()
    finally:
        children.shows = None
        watch.end()
    if status < 0:
        return Ran(status, said, None)
    why = hand_on(said)
    return Ran(status_of(status, said, why, task), said, why)


def hand_on(said):
    """Says what the program said. Returns why it can't be."""
    try:
        while said:
            said = said[os.write(1, said) :]
    except OSError as it:
        return it.strerror
    return None


def status_of(status, said, why_unsaid, task):
    """The program's status, as it would be had the program met what this command did with its lines."""
    if why_unsaid is None:
        return status
    if task.command == CHECK:
        return 5 if said == b"same\n" else status
    if task.command == JOIN:
        return status
    return 5 if status in (0, 3, 4) else status


def end_by_signal(ran, task, earlier, voice):
    """Says what is left where a signal ended the program, and ends so."""
    name = signal.Signals(-ran.status).name
    if task.command == CHECK:
        left = "nothing was written"
    elif earlier.are_written():
        left = faults.written(task)
    else:
        left = "no replies were written"
    voice.say(f"the program was ended by {name}: {left}")
    earlier.bring_back()
    end_by(-ran.status)
