"""What to do where the program ends with a status other than 0."""

import os
import re

from launcher import faults
from launcher.opening import first_unopened, is_file, read_again
from launcher.place import tool
from launcher.schedule import MOST, first_bad, why_bad
from launcher.table import CHECK, DRIVE, FRAMES, GEN, JOIN, SERVE
from launcher.voice import quoted
from plain.inputs import CLEAN, CUT, INLINE, TOO_LONG, how_it_ends

DONE = {CHECK: "checked", JOIN: "joined"}  # what becomes of the files; those of other commands are served
JUDGED = 67_108_864
SESSION = re.compile(rb"session (\d+) (\w+)(?: (\d) at (\d+)| at (\d+))? taken (\d+) replies \d+ wire (whole|failed)")
HEAD = "a journal begins with shards and a number from 1 to 16, as serve --journal prints it"
ENTRY = "an entry is four plain numbers: shard, session, call and part"


def after(ran, task):
    """Returns lines; none where the program's own say all."""
    if ran.status == 2:
        return [cannot_open(task)]
    of_command = {
        SERVE: of_served,
        FRAMES: of_served,
        GEN: of_generated,
        DRIVE: of_driven,
        CHECK: of_checked,
        JOIN: of_joined,
    }
    return list(of_command[task.command](ran, task))


def cannot_open(task):
    """A file that could be opened before, and not when the program came to it."""
    place, why = first_unopened(task.opened) or (0, "it couldn't be opened")
    return unopened(task, place, why)


def unopened(task, place, why):
    done = DONE.get(task.command, "served")
    typed = "" if task.command in DONE else f": commands as they are typed become requests by {tool('to_resp')}"
    return f"{quoted(task.opened[place])}: {why}. Nothing was {done}{typed}"


def of_served(ran, task):
    """Of each session that went wrong a line, by what the program said of it; without its lines, by the files."""
    lines = [it for it in map(SESSION.fullmatch, (ran.said or b"").splitlines()) if it]
    if len(lines) != len(task.files):
        yield from of_files(ran, task)
        return
    for file, line in zip(task.files, lines):
        how = line[2].decode()
        if how in ("protocol", "truncated", "toolong"):
            place = int(line[4] or line[5] or 0)
            yield not_whole(file, how, place, line[3] == b"4")
        elif how == "readfault":
            yield read_fault(file)
    yield from of_writes(ran, task)


def of_files(ran, task):
    """What the files themselves show, where the program has no line for each session."""
    if ran.status == 3:
        found = [it for it in map(ends_of, task.files) if it]
        yield from found or ["a file isn't whole RESP2 requests to its end; what stands before that was served"]
    if ran.status == 4:
        yield from (read_fault(file) for file in unreadable(task.files))
    yield from of_writes(ran, task)


def of_writes(ran, task):
    if ran.status == 5:
        yield from faults.why_unwritten(ran, task)
    if ran.status == 6:
        lost = "no dump was taken, and " if b"dump none" in (ran.said or b"").splitlines() else ""
        yield f"memory ran out: {lost}{faults.written(task)}"


def not_whole(file, how, place, is_typed):
    """Why a file isn't whole requests to its end, and what to do."""
    name = quoted(file)
    if how == "toolong":
        split = f"{tool('split_resp')} {name} cuts it between requests, and --workers 1 serves the parts in their order"
        return f"{name} has more than {JUDGED} bytes, and those behind them weren't served: {split}"
    if is_typed:
        begins = "it begins with a typed command" if place == 0 else f"a typed command stands behind {place} bytes"
        return f"{name}: {begins}, and a RESP2 request with '*': {tool('to_resp')} {name} > requests.resp"
    if how == "truncated":
        return f"{name}: the request behind {place} bytes isn't whole; what stands before it was served"
    return f"{name}: no RESP2 request has the byte behind {place} bytes; what stands before that request was served"


def ends_of(file):
    """How a file ends that isn't whole, or None."""
    text = read_again(file, JUDGED + 1)
    how, place, _ = (CLEAN, 0, 0) if text is None else how_it_ends(text)
    kinds = {CUT: "truncated", TOO_LONG: "toolong"}
    return None if how == CLEAN else not_whole(file, kinds.get(how, "protocol"), place, how == INLINE)


def unreadable(files):
    return [file for file in files if os.path.isdir(file)] or files[:1]


def read_fault(file):
    if os.path.isdir(file):
        return f"{quoted(file)}: it is a folder, and has no requests"
    return f"{quoted(file)}: a read failed, and what came before it was served"


def of_generated(ran, task):
    return of_writes(ran, task)


def of_driven(ran, task):
    schedule = quoted(task.schedule)
    if ran.status == 4 and os.path.isdir(task.schedule):
        yield f"{schedule}: it is a folder, and no schedule. Nothing was served"
    elif ran.status == 7:
        text = read_again(task.schedule, MOST)
        number, line = (0, b"") if text is None else first_bad(text, task.sessions)
        why = why_bad(task.schedule, task.sessions, number, line) if number else f"{schedule} isn't a schedule"
        yield f"{why}. Nothing was served"
    elif ran.status == 9:
        yield f"{schedule}: a schedule has at most {MOST} bytes. Nothing was served"
    else:
        yield from of_files(ran, task)


def of_checked(ran, task):
    """Of a check, the file that is meant."""
    journal = quoted(task.opened[0])
    number = next(iter(re.findall(rb"\d+", ran.said)), None)
    if ran.status == 4 and number is not None:
        file = task.opened[int(number)]
        why = "it is a folder" if os.path.isdir(file) else "a read failed"
        yield f"{quoted(file)}: {why}. Nothing was checked"
    elif ran.status == 7 and number is not None:
        yield f"{journal}, line {int(number)} {line_of(task.opened[0], int(number))}"
    elif ran.status == 8:
        yield from differs(ran.said, task)
    elif ran.status == 9 and number is not None:
        most = 67_108_864 if is_input(task, int(number)) else 134_217_728
        yield f"{quoted(task.opened[int(number)])} has more than {most} bytes. Nothing was checked"
    elif ran.status in (5, 6):
        yield {5: faults.why_unsaid(ran.why_unsaid), 6: "memory ran out, so there is no verdict"}[ran.status]


def of_joined(ran, task):
    """Of frames that aren't put together, what is wrong with them."""
    file = quoted(task.opened[0])
    numbers = [int(it) for it in re.findall(rb"\d+", ran.said or b"")]
    if ran.status == 4:
        why = "it is a folder" if os.path.isdir(task.opened[0]) else "a read failed"
        yield f"{file}: {why}. Nothing was joined"
    elif ran.status == 7 and numbers:
        yield f"{file}: frame {numbers[0]}, counted from 1, is refused, and nothing was joined: {tool('show_frames')} {file}"
    elif ran.status == 8 and len(numbers) == 2:
        yield f"{file}: call {numbers[0]} has no frame {numbers[1]}, counted from 0. Nothing was joined"
    elif ran.status == 9:
        yield f"{file} has more than {JUDGED} bytes. Nothing was joined"
    else:
        yield from of_writes(ran, task)


def differs(said, task):
    if said.startswith(b"bad journal"):
        yield f"{quoted(task.opened[0])}: it is no journal of these inputs, so no reply was compared"
        return
    session = int(next(iter(re.findall(rb"\d+", said)), b"0"))
    pair = [it for it in task.words[1:] if it != "--"][1 + 2 * session :][:2]
    replies = "its replies" if pair[1:] in ([], ["none"]) else quoted(pair[1])
    yield f"{replies} isn't what the journal gives for {quoted(pair[0])}: places and bytes are counted from 0"


def is_input(task, place):
    """Whether the file at a place among those that were named is one of requests."""
    names = [it for it in task.words[1:] if it != "--"]
    opened = [number for number, name in enumerate(names) if number % 2 or number == 0 or name != "none"]
    return place < len(opened) and opened[place] % 2 == 1


def line_of(file, number):
    """What a journal has in a line, and what belongs there."""
    form = HEAD if number == 1 else ENTRY
    text = read_again(file, JUDGED) if is_file(file) else None
    lines = [] if text is None else text.split(b"\n")
    if number > len(lines):
        return f"is none of a journal: {form}"
    line = lines[number - 1]
    return f"is {repr(line[:40].decode('latin-1')) if line else 'empty'}: {form}"
