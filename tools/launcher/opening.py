"""Whether the files that words name can be opened, and which of this command's own open files they are."""

import os
import re
import stat

INHERITED = re.compile(r"/(?:dev|proc/self)/fd/(0|[1-9][0-9]{0,5})")


def why_unopened(file):
    """Returns why a file can't be opened for reading, or None. A pipe isn't opened for this, which its writer would
    see."""
    try:
        if stat.S_ISFIFO(os.stat(file).st_mode):
            return None if os.access(file, os.R_OK) else "Permission denied"
        os.close(os.open(file, os.O_RDONLY | os.O_NONBLOCK | os.O_NOCTTY))
    except OSError as it:
        return it.strerror
    return None


def first_unopened(files):
    """Returns the place of the first file that can't be opened, and why; or None."""
    for place, file in enumerate(files):
        if why := why_unopened(file):
            return place, why
    return None


def inherited(files):
    """Returns the numbers of open files that names such as those of <(..) stand for; the program is to get them."""
    found = (INHERITED.fullmatch(file) for file in files)
    numbers = {int(it[1]) for it in found if it}
    return tuple(number for number in sorted(numbers) if number > 2 and is_open(number))


def is_open(number):
    try:
        os.fstat(number)
    except OSError:
        return False
    return True


def is_file(name):
    """Whether this is a file that can be read twice."""
    try:
        return stat.S_ISREG(os.stat(name).st_mode)
    except OSError:
        return False


def read_again(name, most=-1):
    """Returns the bytes of such a file, or None."""
    try:
        if is_file(name):
            with open(name, "rb") as it:
                return it.read(most)
    except OSError:
        pass
    return None
