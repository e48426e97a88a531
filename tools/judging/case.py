"""What is judged of sessions and a journal: the calls that can be, with their replies in this program's texts."""

import collections
import os

from judging.calls import JUDGED, LEFT_OUT, REFUSED
from judging.journal import NO_CALL, Journal
from judging.replay import Replay

AS_IT_CAME, OWN_TEXT, BY_CHOICE, NO_REPLY = "as it came", "own text", "by choice", "no reply"


class Kept:
    """A session's calls that are judged, by their place, and the text of their replies; `rest` are bytes behind
    them."""

    def __init__(self, session, calls):
        self.session, self.calls = session, calls
        self.texts, self.rest = [], b""
        self.kinds = collections.Counter()

    def add(self, text, kind):
        self.texts.append(text)
        self.kinds[kind] += 1

    def requests(self):
        """The text of the requests that are judged."""
        session = self.session
        texts = [session.requests[call.start : call.end] for call in self.calls if not call.broken]
        return b"".join(texts) + (session.requests[session.behind :] if self.is_broken() else b"")

    def is_broken(self):
        return bool(self.calls) and bool(self.calls[-1].broken)

    def replies(self):
        return b"".join(self.texts) + self.rest


class Case:
    """Sessions and the text of a journal, which counts the calls as the sessions have them. `strict` has each reply
    judged as it came, and `as_they_are` each call besides."""

    def __init__(self, sessions, journal, as_they_are=False, strict=False):
        self.left_out, self.refused, self.kept = collections.Counter(), [], []
        self.numbers = {}  # of each call that is judged, by those of the source
        for session in sessions:
            calls = session.calls if as_they_are else self.judged_calls(session)
            if calls or as_they_are:
                self.keep(session, calls)
        self.source = Journal(journal)
        self.journal = self.source if as_they_are else Journal(self.renumbered())
        self.replay = Replay(self.journal, [kept.calls for kept in self.kept])
        for number, kept in enumerate(self.kept):
            self.write(number, kept, as_they_are or strict)

    def judged_calls(self, session):
        judged = []
        for call in session.calls:
            standing, why = call.standing()
            if standing == JUDGED:
                judged.append(call)
            elif standing == LEFT_OUT:
                self.left_out[call.name.decode()] += 1
            elif standing == REFUSED:
                self.refused.append((why, call))
        return judged

    def keep(self, session, calls):
        for place, call in enumerate(calls):
            self.numbers[session.number, call.number] = (len(self.kept), place)
        self.kept.append(Kept(session, calls))

    def renumbered(self):
        """The journal's text with the numbers of what is judged. A line that stands in no journal stays as it is."""
        lines = self.source.lines[:1]
        for line, entry in zip(self.source.lines[1:], self.source.entries):
            if entry:
                session, call = self.numbers.get((entry.session, entry.call), (0, NO_CALL))
                line = b"%d %d %d %d" % (entry.shard, session, call, entry.part)
            lines.append(line)
        return b"".join(line + b"\n" for line in lines)

    def write(self, number, kept, strict):
        """Writes the replies of a session as they are judged."""
        answered = [call for call in kept.calls if call.reply]
        for place, call in enumerate(answered):
            kept.add(*self.reply_text(number, place, call, strict))
        kept.rest = kept.session.left_over()
        if kept.session.may_lack_replies and not strict:
            self.complete(number, kept, len(answered))

    def reply_text(self, number, place, call, strict):
        if strict:
            return call.text, AS_IT_CAME
        error = call.own_error()
        if error and call.reply.line != error.encode():
            return b"-%b\r\n" % error.encode(), OWN_TEXT
        others = self.replay.other_range(number, place) if call.name == b"GETRANGE" else None
        if others is not None and call.reply.value == others:
            return b"$0\r\n\r\n", BY_CHOICE
        return call.text, AS_IT_CAME

    def complete(self, number, kept, answered):
        """Where a client went away before its last replies came, these are what the journal gives: nothing is said of
        them. A reply that is cut is completed so where it begins as the journal's."""
        for place in range(answered, len(kept.calls)):
            expected = self.replay.reply(number, place)
            if expected is None or not expected.startswith(kept.rest):
                return
            kept.add(expected, NO_REPLY)
            kept.rest = b""

    def kinds(self):
        return sum((kept.kinds for kept in self.kept), collections.Counter())

    def commands(self):
        return sum(len(kept.calls) for kept in self.kept)

    def write_files(self, folder):
        """Writes the files that are judged, and returns the words by which `check` takes them."""
        files = {"journal.txt": b"".join(line + b"\n" for line in self.journal.lines)}
        for number, kept in enumerate(self.kept):
            files[f"in{number}.resp"], files[f"reply{number}.resp"] = kept.requests(), kept.replies()
        for name, text in files.items():
            with open(os.path.join(folder, name), "wb") as it:
                it.write(text)
        return list(files)
