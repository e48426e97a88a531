"""Gives a file another name, where no other file has that name."""

import ctypes
import errno
import os

AT_FDCWD, NO_REPLACE = -100, 1
UNKNOWN = (errno.EINVAL, errno.ENOSYS, errno.ENOTSUP)


def rename_new(old, new):
    """Renames in one step. Raises FileExistsError where the new name is taken, and then nothing was done."""
    try:
        call = ctypes.CDLL(None, use_errno=True).renameat2
    except (OSError, AttributeError):
        return link_new(old, new)
    if call(AT_FDCWD, os.fsencode(old), AT_FDCWD, os.fsencode(new), NO_REPLACE) == 0:
        return None
    number = ctypes.get_errno()
    if number in UNKNOWN:
        return link_new(old, new)
    raise OSError(number, os.strerror(number), old)


def link_new(old, new):
    """Does so in two steps, where the file system doesn't know how: both names are there in between."""
    os.link(old, new, follow_symlinks=False)
    os.unlink(old)
