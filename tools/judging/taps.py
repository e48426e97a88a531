"""What is kept of a connection: the bytes of both directions as they come, and when they came."""

import bisect
import os
import time

from judging.recording import SESSIONS


class Tap:
    """One direction of a session: its file, and the times at which so many bytes had come."""

    def __init__(self, folder, name):
        self.file = open(os.path.join(folder, name), "xb")
        self.ends, self.times = [], []

    def take(self, piece):
        self.times.append(time.monotonic_ns())
        self.ends.append((self.ends[-1] if self.ends else 0) + len(piece))
        self.file.write(piece)

    def time_of(self, end):
        """When so many bytes had come, or None."""
        place = bisect.bisect_left(self.ends, end)
        return self.times[place] if place < len(self.times) else None


class Taps:
    """Both directions of a session, the address of its client as the server sees it, and who ended it."""

    def __init__(self, folder, number, address):
        self.folder, self.number, self.address, self.ended_by = folder, number, address, "recorder"
        self.requests, self.replies = Tap(folder, f"in{number}.resp"), Tap(folder, f"reply{number}.resp")

    def close(self):
        self.requests.file.close()
        self.replies.file.close()

    def write_times(self, session):
        """Writes a line for each call: when its request had come, and when its reply had."""
        lines = []
        for call in session.calls:
            came = self.requests.time_of(len(session.requests) if call.broken else call.end)
            answered = self.replies.time_of(call.reply.end) if call.reply else None
            lines.append(f"{came} {'-' if answered is None else answered}\n")
        with open(os.path.join(self.folder, f"times{self.number}.txt"), "x", encoding="ascii") as it:
            it.writelines(lines)


def write_sessions(folder, all_taps):
    """Writes a line for each session: its number, its client's address at the server, and who ended it."""
    with open(os.path.join(folder, SESSIONS), "x", encoding="ascii") as it:
        it.writelines(f"{taps.number} {taps.address} {taps.ended_by}\n" for taps in all_taps)
