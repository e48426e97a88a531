"""What tools/judge says of recorded replies, and of a verdict of check."""

import os
import subprocess

from launcher.place import TOP
from launcher.voice import Refused

JUDGE = os.path.join(TOP, "tools", "judge")


def become_judge(words):
    """Runs the judge in this command's place."""
    try:
        os.execv(JUDGE, [JUDGE, *words])
    except OSError as it:
        raise Refused(f"tools/judge can't be run ({it.strerror})") from None


def explained(words, verdict):
    """Returns the lines that the judge has for a verdict other than `same`; `words` are a journal and pairs."""
    if not os.access(JUDGE, os.X_OK):
        return []
    how = {"stdin": subprocess.DEVNULL, "stdout": subprocess.PIPE, "stderr": subprocess.DEVNULL}
    try:
        ended = subprocess.run([JUDGE, "--explain", *words, verdict], check=False, **how)
    except OSError:
        return []
    return ended.stdout.decode("utf-8", "surrogateescape").splitlines()
