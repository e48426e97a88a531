"""The program that judges: `check` of `./vepkhundi`, or of a program that was built."""

import os
import subprocess

TOP = os.path.dirname(os.path.dirname(os.path.dirname(os.path.realpath(__file__))))


class NotRun(Exception):
    """The program gave no verdict: why, and its status."""

    def __init__(self, why, status):
        super().__init__(why)
        self.status = status


class Program:
    """By which words the program is called: the launcher, or the path of a program, of which nothing is known."""

    def __init__(self, path=None, unproved=False):
        launcher = [os.path.join(TOP, "vepkhundi"), "--quiet", *(["--unproved"] if unproved else [])]
        self.words = [os.path.abspath(path)] if path else launcher

    def check(self, folder, files):
        """Returns the verdict's line on the files of a folder, and the status."""
        try:
            words = [*self.words, "check", *files]
            ended = subprocess.run(words, cwd=folder, stdin=subprocess.DEVNULL, stdout=subprocess.PIPE)
        except OSError as it:
            raise NotRun(f"{self.words[0]} can't be run: {it.strerror}", 125) from None
        said = ended.stdout.decode("ascii", "replace").splitlines()
        if ended.returncode not in (0, 7, 8, 9) or not said:
            raise NotRun(f"the program gave no verdict (status {ended.returncode})", ended.returncode or 125)
        return said[0], ended.returncode
