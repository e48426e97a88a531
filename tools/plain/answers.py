"""The replies of a file, read one by one: bytes of a string, None for null, a number, a list, or a line."""

import re

LINE_END = re.compile(rb"[\r\n]")
LENGTH = re.compile(rb"0|[1-9][0-9]{0,18}|-1")
NUMBER = re.compile(rb"0|-?[1-9][0-9]{0,18}")
DEPTH = 9  # arrays within arrays, as deep as redis-cli reads them


class NoReply(Exception):
    """What is no reply, and the number of bytes before it."""

    def __init__(self, place, why):
        super().__init__(why)
        self.place = place


class Status(bytes):
    """A line such as OK."""


class Error(bytes):
    """The line of an error."""


class Answers:
    """The replies of a text; `at` is the number of bytes that were read."""

    def __init__(self, text):
        self.text = text
        self.at = 0

    def all(self):
        while self.at < len(self.text):
            yield self.next()

    def line(self):
        """Reads to the next CR LF."""
        found = LINE_END.search(self.text, self.at)
        end = found.start() if found else len(self.text)
        closing = self.text[end : end + 2]
        if closing in (b"", b"\r"):
            raise NoReply(len(self.text), "the file ends within a line")
        if closing != b"\r\n":
            raise NoReply(end, "a line ends in CR LF, and holds no other CR or LF")
        start, self.at = self.at, end + 2
        return self.text[start:end]

    def number(self, form, what):
        start, line = self.at, self.line()
        if not form.fullmatch(line) or not -(2**63) <= int(line) < 2**63:
            raise NoReply(start, f"this is no {what}")
        return int(line)

    def bulk(self, length):
        end = self.at + length
        closing = self.text[end : end + 2]
        if not b"\r\n".startswith(closing):
            raise NoReply(end + (closing[:1] == b"\r"), f"CR LF belongs here, behind the {length} bytes of a string")
        if len(closing) < 2:
            raise NoReply(len(self.text), f"the file ends within a string of {length} bytes")
        start, self.at = self.at, end + 2
        return self.text[start:end]

    def array(self, count, depth):
        if count and depth == DEPTH:
            raise NoReply(self.at, f"arrays stand in one another at most {DEPTH} deep")
        return [self.next(depth + 1) for _ in range(count)]

    def next(self, depth=0):
        """Reads a reply."""
        start, kind = self.at, self.text[self.at : self.at + 1]
        self.at += 1
        if kind == b"+":
            return Status(self.line())
        if kind == b"-":
            return Error(self.line())
        if kind == b":":
            return self.number(NUMBER, "integer of 64 bits")
        if kind in (b"$", b"*"):
            length = self.number(LENGTH, "length")
            if length < 0:
                return None
            return self.bulk(length) if kind == b"$" else self.array(length, depth)
        raise NoReply(start, "a reply begins with + - : $ or *" if kind else "the file ends within an array")
