"""The lines that the program says of its sessions, for a run in which it says its journal in their place."""

from launcher.opening import is_file, read_again
from launcher.refused_commands import Errors
from launcher.voice import quoted
from plain.inputs import BAD_COUNT, BAD_LENGTH, CLEAN, CUT, INLINE, NO_BULK, TOO_LONG, how_it_ends

KINDS = {BAD_COUNT: 1, NO_BULK: 2, BAD_LENGTH: 3, INLINE: 4}


def ended(text):
    """How an input ends, as the program says it."""
    how, place, taken = how_it_ends(text)
    if how in KINDS:
        return f"protocol {KINDS[how]} at {place} taken {taken}"
    return {
        CLEAN: f"clean taken {taken}",
        CUT: f"truncated at {place} taken {taken}",
        TOO_LONG: f"toolong taken {taken}",
    }[how]


def line_of(session, file, replies):
    """A line of what can be seen: how the input ends where it is a file, and what was written."""
    text = read_again(replies) or b""
    count = Errors(text).replies
    requests = read_again(file) if is_file(file) else None
    if requests is None:
        return f"session {session}: {count} replies in {quoted(replies)}, {len(text)} bytes"
    return f"session {session} {ended(requests)} replies {count} in {quoted(replies)}, {len(text)} bytes"


def session_lines(task):
    for number, names in enumerate(zip(task.files, task.replies)):
        yield line_of(number, *names)
    if task.dump is not None:
        yield f"dump in {quoted(task.dump)}, {len(read_again(task.dump) or b'')} bytes"
