"""Replies in frames of a bounded size: a header of 16 bytes, and then bytes of a reply. It shares nothing with the
server."""

import struct

HEADER = struct.Struct("<IIIHBB")  # call, index, count, how many bytes of the reply, and two bytes that are 0
LEAST, MOST = 64, 9216  # what the most bytes of a frame can be


class Refused(Exception):
    """The first frame that is refused, by its number from 1, and why."""

    def __init__(self, number, why):
        super().__init__(f"frame {number}: {why}")


class Frame:
    """A frame as its bytes have it."""

    def __init__(self, text):
        self.call, self.index, self.count, self.len, self.low, self.high = HEADER.unpack_from(text)
        self.bytes = text[HEADER.size :]


def cut(text):
    """Yields the bytes of each frame: each header says how many follow it. A rest that is shorter is one too."""
    at = 0
    while at < len(text):
        end = len(text)
        if end - at >= HEADER.size:
            end = min(end, at + HEADER.size + HEADER.unpack_from(text, at)[3])
        yield text[at:end]
        at = end


class Reading:
    """Frames that are read one after another. What only `most` or `calls` refuses is let through where that is None."""

    def __init__(self, most=None, calls=None):
        self.room = (most or MOST) - HEADER.size
        self.is_known = most is not None
        self.calls = calls
        self.counts = {}
        self.places = {}

    def size_of(self, frame):
        """Returns what is wrong with how many bytes of its reply a frame has, or None."""
        if frame.len == 0:
            return "it has no bytes of its reply"
        if frame.len > self.room:
            return f"it has {frame.len} bytes of its reply, and at most {self.room} fit"
        if self.is_known and frame.len < self.room and frame.index + 1 != frame.count:
            return f"it has {frame.len} bytes of its reply, and all frames but the last have {self.room}"
        return None

    def alone(self, text, frame):
        """Returns why a frame is refused whatever came before it, or None."""
        if len(text) != HEADER.size + frame.len:
            return f"it has {len(text)} bytes, and its header says {frame.len} behind the header's {HEADER.size}"
        if frame.low or frame.high:
            return f"byte {14 if frame.low else 15} of its header isn't 0"
        if frame.index >= frame.count:
            return f"its index {frame.index} isn't below its count {frame.count}"
        if self.size_of(frame):
            return self.size_of(frame)
        if self.calls is not None and frame.call >= self.calls:
            return f"there is no call {frame.call}, only {self.calls} calls"
        return None

    def beside(self, frame):
        """Returns why a frame is refused beside those before it, or None."""
        count = self.counts.setdefault(frame.call, frame.count)
        if count != frame.count:
            return f"its count is {frame.count}, and an earlier frame of call {frame.call} has {count}"
        if self.places.setdefault((frame.call, frame.index), frame.bytes) != frame.bytes:
            return f"an earlier frame {frame.index} of call {frame.call} has other bytes"
        return None

    def frames(self, text):
        """Yields the frames of a file, until one is refused."""
        for number, each in enumerate(cut(text), 1):
            if len(each) < HEADER.size:
                raise Refused(number, f"it has {len(each)} bytes, and a header has {HEADER.size}")
            frame = Frame(each)
            why = self.alone(each, frame) or self.beside(frame)
            if why:
                raise Refused(number, why)
            yield frame
