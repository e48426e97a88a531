"""The children of this command, and the signals that end it."""

import contextlib
import os
import signal
import subprocess
import sys

ENDING = (signal.SIGHUP, signal.SIGINT, signal.SIGQUIT, signal.SIGTERM)


class Children:
    """Runs one child at a time. A signal that asks to end is handed on to it, and obeyed once it has ended. At SIGUSR1
    `shows`, where it is set, says how far the child is."""

    def __init__(self):
        self.asked = None
        self.running = None
        self.shows = None
        for number in ENDING:
            if signal.getsignal(number) is not signal.SIG_IGN:
                signal.signal(number, self.hand_on)
        signal.signal(signal.SIGUSR1, self.show)

    def hand_on(self, number, _frame):
        self.asked = self.asked or number
        if self.running is None or self.running.returncode is not None:
            return
        with contextlib.suppress(ProcessLookupError):
            if os.getpgid(self.running.pid) == self.running.pid:
                os.killpg(self.running.pid, number)
            else:
                self.running.send_signal(number)

    def show(self, _number, _frame):
        if self.shows is not None:
            self.shows()

    def start(self, words, **how):
        """Starts a child; one with `start_new_session` gets a signal with all that it started."""
        self.running = subprocess.Popen(words, **how)
        if self.asked:
            self.hand_on(self.asked, None)
        return self.running

    def stop_if_asked(self, say, what):
        if self.asked:
            say(f"stopped by {signal.Signals(self.asked).name}: {what}")
            end_by(self.asked)


def end_by(number):
    """Ends this command by a signal, as who called it would see it end by itself."""
    signal.signal(number, signal.SIG_DFL)
    os.kill(os.getpid(), number)
    sys.exit(128 + number)
