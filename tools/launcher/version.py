"""Which commit, kit and sources this is, and whether the program is proved."""

import os
import shutil
import subprocess

from launcher.place import TOP
from launcher.proved import Proved, sum_of_sources

VERSION_WORDS = ("version", "--version", "-V")
SHOWN = 16  # letters of a sum


def started(*words):
    """Starts a command whose one line is needed later."""
    if not shutil.which(words[0]):
        return None
    how = {"cwd": TOP, "stdin": subprocess.DEVNULL, "stdout": subprocess.PIPE, "stderr": subprocess.DEVNULL}
    return subprocess.Popen(words, **how)


def line_of(child):
    """Returns what it says, or None."""
    said = child.communicate()[0].decode("utf-8", "replace").strip() if child else ""
    return said.splitlines()[0] if said else None


def version(children, voice):
    commit = started("git", "describe", "--always", "--dirty= with changes", "--exclude=*")
    kit = started("rt", "version")
    proved = Proved(children, voice)
    proved.sum = sum_of_sources()
    is_proved = os.path.exists(proved.program) and proved.is_known()
    return "\n".join(
        [
            f"vepkhundi {line_of(commit) or 'of no known commit'}",
            f"kit: {line_of(kit) or 'no rt on the PATH'}",
            f"sources: {proved.sum[:SHOWN]}",
            f"program: {'proved from these sources' if is_proved else 'not proved from these sources here'}",
            "",
        ]
    )
