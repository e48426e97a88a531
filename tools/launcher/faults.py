"""Why replies, or lines, couldn't be written, as far as it can be seen."""

import os
import resource
import select
import stat

from launcher.replies import names_of
from launcher.voice import quoted

NO_ROOM = "there is no room left on the disk"
FULL = os.makedev(1, 7)  # /dev/full


def written(task):
    """What is left of the replies, and of a dump."""
    there = [quoted(it) for it in task.outputs if os.path.exists(it)]
    if not there:
        return "no replies were written"
    what = "the replies that were" if task.dump is None else "what was"
    return f"{' and '.join(there)} {'have' if there[1:] else 'has'} {what} written until then"


def why_unwritten(ran, task):
    """A line for each file that shows a reason, and one for standard output; where nothing shows any, one for all."""
    whys = {name: why_not(name, task.folder or ".") for name in task.outputs}
    found = [f"{quoted(name)} couldn't be written whole: {why}" for name, why in whys.items() if why]
    if why := ran.why_unsaid or why_no_output():
        found.append(why_unsaid(why))
    unseen = "or what was said couldn't be written whole, for a reason that doesn't show"
    return found or [f"{names_of(task.outputs)} {unseen}"]


def why_unsaid(why):
    return f"standard output couldn't be written: {why}"


def why_not(name, folder):
    """Why a file of replies may not be written, or None."""
    try:
        found = os.stat(name)
    except FileNotFoundError:
        return None if os.access(folder, os.W_OK) else "its folder may not be written"
    except OSError as it:
        return it.strerror
    if stat.S_ISDIR(found.st_mode):
        return "it is a folder"
    if not os.access(name, os.W_OK):
        return "it may not be written"
    if stat.S_ISCHR(found.st_mode):
        return NO_ROOM if found.st_rdev == FULL else None
    if stat.S_ISFIFO(found.st_mode):
        return "nobody reads this pipe any more"
    limit = resource.getrlimit(resource.RLIMIT_FSIZE)[0]
    if limit != resource.RLIM_INFINITY and found.st_size >= limit:
        return f"a file may have {limit} bytes here (ulimit -f)"
    return NO_ROOM if has_no_room(name) else None


def has_no_room(name):
    found = os.statvfs(name)
    return found.f_bavail == 0


def why_no_output():
    """Why standard output takes nothing, or None."""
    try:
        found = os.fstat(1)
    except OSError:
        return "it is closed"
    if stat.S_ISCHR(found.st_mode) and found.st_rdev == FULL:
        return NO_ROOM
    watched = select.poll()
    watched.register(1, select.POLLOUT)
    if any(event & select.POLLERR for _, event in watched.poll(0)):
        return "its pipe is closed"
    if stat.S_ISREG(found.st_mode) and os.fstatvfs(1).f_bavail == 0:
        return NO_ROOM
    return None
