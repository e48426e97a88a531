"""Where this clone and the program's crate are, and how paths are shown."""

import os

from launcher.voice import quoted

TOP = os.path.dirname(os.path.dirname(os.path.dirname(os.path.realpath(__file__))))
CRATE = os.path.join("crates", "flake_program")
CRATE_FOLDER = os.path.join(TOP, CRATE)


def folder_of_call():
    """Returns this folder; of one that is gone, the top."""
    try:
        return os.getcwd()
    except OSError:
        return TOP


HERE = folder_of_call()


def shown(path):
    """Returns a path as it is shortest from the folder of the call."""
    return min(path, os.path.relpath(path, HERE), key=len)


def command():
    """Returns ./vepkhundi as a shell takes it in the folder of the call."""
    path = shown(os.path.join(TOP, "vepkhundi"))
    return quoted(path if "/" in path else f"./{path}")


def tool(name):
    """Returns a tool of this clone as a shell takes it, so that the folder of the call finds it."""
    return quoted(shown(os.path.join(TOP, "tools", name)))
