"""The calls of a session: each request with its reply, and whether it can be judged."""

from judging import errors, outside
from judging.resp import protocol_error, read_replies, read_requests
from plain.requests import MOST_VALUE, MOST_WORD, MOST_WORDS, OPTIONS, WORDS, fault_of, parts_of

LIMITS = ("ERR too many keys", "ERR key too long", "ERR value too long")
JUDGED, LEFT_OUT, REFUSED = "judged", "left out", "refused"
KNOWN_TEXTS = 200  # bytes of an error that are looked at


class Call:
    """A request with its number in the session, from 0, and its reply, or None where no whole one came. What breaks
    the protocol is a call too, which has the text of its error and no words."""

    def __init__(self, session, number, request, reply, broken=None):
        self.session, self.number, self.reply, self.broken = session, number, reply, broken
        self.words = request.words if request else []
        self.start, self.end = (request.start, request.end) if request else (None, None)
        self.fault = broken or fault_of(self.words)
        self.own_parts = [] if broken else parts_of(self.words)
        self.parts = [] if self.has_no_memory() else self.own_parts  # those that were done
        self.text = b""  # of the reply, as it came
        self.time = None  # when the request came and when its reply, where that is known

    @property
    def name(self):
        return self.words[0].upper() if self.words else b""

    def error(self):
        """The line of the error that was answered, or None."""
        return self.reply.line[:KNOWN_TEXTS] if self.reply and self.reply.is_error else None

    def has_no_memory(self):
        """Whether it was answered that there is no room for a value; then nothing was stored."""
        error = self.error()
        return bool(error) and self.name in (b"SET", b"APPEND") and errors.ours(error) == errors.NO_MEMORY

    def own_error(self):
        """This program's text where the reply is the error that belongs here, in this or another server's text."""
        error = self.error()
        expected = self.fault or (errors.NO_MEMORY if self.has_no_memory() else None)
        if error is None or expected is None:
            return None
        return expected if expected in (error.decode("latin-1"), errors.ours(error)) else None

    def standing(self):
        """Returns JUDGED, LEFT_OUT or REFUSED, and of what is refused the reason."""
        if self.broken:
            why = f"bytes that break the protocol here: {self.broken}"
            return (JUDGED, None) if self.own_error() else (REFUSED, why)
        if len(self.words) > MOST_WORDS or max(map(len, self.words)) > MOST_WORD:
            return REFUSED, f"a request of more than {MOST_WORDS:,} words, or with one of more than {MOST_WORD:,} bytes"
        if self.name not in WORDS:
            return self.standing_of_unknown()
        error = self.error()
        if error and errors.state(error):
            return REFUSED, f"a server that runs nothing as it is: {errors.state(error)}"
        return self.standing_of_known()

    def standing_of_unknown(self):
        if self.own_error():
            return JUDGED, None
        if outside.touches_no_key(self.words):
            return LEFT_OUT, None
        return REFUSED, f"{shown_name(self.words)}, which this program doesn't have"

    def standing_of_known(self):
        if self.fault in LIMITS and self.error() != self.fault.encode():
            return REFUSED, f"{shown_name(self.words)} past a limit of this program: {self.fault[4:]}"
        if self.fault == "ERR syntax error" and not self.own_error() and (other := other_option(self.words)):
            return REFUSED, f"SET with {other}, which this program doesn't have"
        value = self.reply.value if self.reply and self.reply.kind == b":" else 0
        if self.name in (b"APPEND", b"STRLEN") and value > MOST_VALUE:
            return REFUSED, f"a value of more than {MOST_VALUE:,} bytes, behind {shown_name(self.words)}"
        return JUDGED, None


def shown_name(words):
    """The name of a command as it is listed, with the word behind it where that says what is done."""
    groups = (b"CLIENT", b"CLUSTER", b"CONFIG", b"HELLO", b"SELECT")
    shown = words[:2] if words[0].upper() in groups else words[:1]
    return " ".join(word[:40].upper().decode("ascii", "backslashreplace") for word in shown)


def other_option(words):
    """The first option of a SET that this program doesn't have, or None."""
    others = [word for word in words[3:] if word.upper() not in OPTIONS]
    return others[0][:40].upper().decode("ascii", "backslashreplace") if others else None


class Session:
    """What a connection sent and was answered. `may_lack_replies` says that its client went away, or that the
    recording ended, before all replies had come. `rest` is the place behind the last reply that a call has."""

    def __init__(self, number, requests, replies, may_lack_replies=False):
        self.number, self.requests, self.replies, self.may_lack_replies = number, requests, replies, may_lack_replies
        read, self.behind = read_requests(requests)
        broken = protocol_error(requests, self.behind)
        answered, self.rest = read_replies(replies, len(read) + bool(broken))
        answered += [None] * (len(read) + bool(broken) - len(answered))
        self.calls = [Call(number, place, *both) for place, both in enumerate(zip(read, answered))]
        if broken:
            self.calls.append(Call(number, len(read), None, answered[-1], broken))
        for call in self.calls:
            call.text = replies[call.reply.start : call.reply.end] if call.reply else b""

    def left_over(self):
        """What was answered behind the last reply that a call has."""
        return self.replies[self.rest :]
