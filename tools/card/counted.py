"""Checks that are counted, each with a line that says how it ended."""

import subprocess

from card.machine import Silent
from card.ring import Wrong
from card.story import Unread

FAULTS = (Wrong, Silent, Unread, ValueError, OSError, subprocess.SubprocessError)


class Checks:
    def __init__(self):
        self.passed = self.failed = 0

    def check(self, what, work):
        """The check passes where the work, which may say more, finds nothing wrong."""
        try:
            more = work()
        except FAULTS as it:
            self.failed += 1
            print(f"FAILED  {what}: {it}", flush=True)
        else:
            self.passed += 1
            print(f"passed  {what}{f': {more}' if more else ''}", flush=True)

    def finds(self, what, work):
        """The check passes where a card is found to do something wrong."""

        def found():
            try:
                work()
            except Wrong as it:
                return it
            raise Wrong("nothing was found")

        self.check(f"finds {what}", found)

    def end(self):
        """Says the sums. The answer is the status to end with."""
        print(f"{self.passed} passed, {self.failed} failed")
        return int(self.failed > 0)
