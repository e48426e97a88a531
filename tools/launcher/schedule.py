"""Whether a text is a schedule, and else which of its lines is of no form."""

import re

from launcher.opening import read_again
from launcher.voice import Refused, quoted

MOST = 67_108_864
LINE = re.compile(rb"(?:call|gather|reap) (0|[1-9][0-9]?)")


def judge_schedule(name, sessions):
    """Refuses a file that the program would refuse as a schedule; a pipe is left to it."""
    text = read_again(name, MOST + 1)
    if text is None:
        return
    if len(text) > MOST:
        raise Refused(f"{quoted(name)}: a schedule has at most {MOST} bytes. Nothing was served", 9, "too large 0")
    number, line = first_bad(text, sessions)
    if number:
        raise Refused(f"{why_bad(name, sessions, number, line)}. Nothing was served", 7, f"bad line {number}")


def first_bad(text, sessions):
    """Returns the number of the first line that is of no form, from 1, and the line; or 0 and none."""
    last = sessions - 1
    numbers = f"1[0-{last - 10}]|[0-9]" if last >= 10 else f"[0-{last}]"
    whole = re.compile(f"(?:(?:call|gather|reap) (?:{numbers})\n)*".encode())
    at = whole.match(text).end()
    rest = text[at:].split(b"\n", 1)[0]
    is_last = at + len(rest) == len(text)
    if is_last and (not rest or whole.fullmatch(rest + b"\n")):
        return 0, b""
    return text.count(b"\n", 0, at) + 1, rest


def why_bad(name, sessions, number, line):
    shown = repr(line[:40].decode("latin-1")) + (" .." if line[40:] else "") if line else "empty"
    which = "and N is 0" if sessions == 1 else f"and N is 0 to {sessions - 1}"
    return f"{quoted(name)}, line {number} is {shown}: lines are call N, gather N and reap N, with one blank, {which}"
