"""What ./vepkhundi does with its words: they are judged first, then comes the program, and then advice."""

import os

from launcher import advice, help, judge, ran
from launcher.children import Children
from launcher.completion import completion
from launcher.manual import manual
from launcher.opening import first_unopened
from launcher.own import BadOwn, read_own
from launcher.place import command
from launcher.proved import Proved
from launcher.refused_commands import refused_commands
from launcher.replies import Earlier, lock_folder, refuse_replies_as_requests
from launcher.schedule import judge_schedule
from launcher.session_lines import session_lines
from launcher.table import CHECK, COMMANDS, JOIN, SERVE
from launcher.unproved import Unproved
from launcher.version import VERSION_WORDS, version
from launcher.voice import Refused, Voice, quoted
from launcher.words import BadWords, read_task

STRICT = 124


def main(words, stack):
    """Returns the exit status. What `stack` has ends with this command."""
    try:
        own, words = read_own(words)
    except BadOwn as it:
        return refuse(Refused(f"bad words: {it} (--help says more)", 1, "bad words"), Voice(False))
    voice = Voice(own.is_quiet)
    try:
        if not words:
            os.write(2, help.of_all().encode())
            return 1
        text = asked_text(words, voice)
        if text is not None:
            return show(text)
        if words[0] == "judge":
            judge.become_judge(words[1:])
        return run_task(read_good_words(words), own, voice, stack)
    except Refused as it:
        return refuse(it, voice)


def asked_text(words, voice):
    """Returns the text that the words ask for, if they ask for one."""
    first, rest = words[0], words[1:]
    if first in help.HELP_WORDS:
        if rest and rest[0] not in COMMANDS:
            raise Refused(f"bad words: {quoted(rest[0])} is no command: {', '.join(COMMANDS)}", 1, "bad words")
        return help.of_command(rest[0]) if rest else help.of_all()
    before = rest[: rest.index("--")] if "--" in rest else rest
    if first in COMMANDS and first != "judge" and any(it in ("--help", "-h") for it in before):
        return help.of_command(first)
    if first in VERSION_WORDS:
        return version(Children(), voice)
    return {"completion": completion, "manual": manual}.get(first, lambda: None)()


def show(text):
    """Writes a text that was asked for."""
    try:
        left = text.encode()
        while left:
            left = left[os.write(1, left) :]
    except OSError as it:
        raise Refused(f"standard output can't be written: {it.strerror}", 5) from None
    return 0


def refuse(refused, voice):
    """Says why nothing was run; on standard output, what the program would say."""
    if refused.said:
        ran.hand_on(refused.said.encode() + b"\n")
    voice.say(str(refused))
    return refused.status


def read_good_words(words):
    try:
        return read_task(words)
    except BadWords as it:
        more = f"{command()} help {words[0]}" if words[0] in COMMANDS else "--help"
        done = advice.DONE.get(words[0], "served")
        raise Refused(f"bad words: {it}. Nothing was {done} ({more} says more)", 1, "bad words") from None


def folder_of_replies(task, own):
    """Returns the folder of --out; none is this one."""
    if own.out is None:
        return ""
    if task.command == CHECK:
        raise Refused("bad words: check writes no replies, so --out stands before serve, drive, gen, frames or join", 1, "bad words")
    if not os.path.isdir(own.out):
        why = "it is no folder" if os.path.lexists(own.out) else "there is no such folder"
        raise Refused(f"--out {quoted(own.out)}: {why}. Nothing was run")
    return own.out


def run_task(task, own, voice, stack):
    """Judges what can be judged, has the program proved or compiled, and runs it."""
    task.folder = folder_of_replies(task, own)
    unopened = first_unopened(task.opened)
    if unopened:
        raise Refused(advice.unopened(task, *unopened), 2, f"cannot open {unopened[0]}")
    held = []
    if task.command != CHECK:
        held = [lock_folder(task.folder)]
        refuse_replies_as_requests(task.opened, task.outputs)
    if task.schedule is not None:
        judge_schedule(task.schedule, task.sessions)
    children = Children()
    program = (Unproved(children, voice, stack) if own.is_unproved else Proved(children, voice)).see_to_it()
    return run_program(program, task, own, children, voice, held)


def run_program(program, task, own, children, voice, held):
    """Runs the program, with earlier replies out of its way, and says what came of it."""
    children.stop_if_asked(voice.say, "nothing was run or touched")
    earlier = Earlier(task.outputs, voice)
    earlier.move_aside()
    try:
        came = ran.run(program, task, children, voice, held)
    except Refused:
        earlier.bring_back()
        raise
    if came.status < 0:
        ran.end_by_signal(came, task, earlier, voice)
    earlier.bring_back()
    return report(came, task, own, voice)


def report(came, task, own, voice):
    """Says what is to be known of a run, and returns the status."""
    if task.command == CHECK:
        say_each(of_check(came, task, voice), voice)
        return came.status
    if task.command == SERVE and "--journal" in task.given and not voice.is_quiet:
        say_each(session_lines(task), voice)
    say_each(advice.after(came, task), voice)
    errors = refused_commands(task) if has_replies(came, task) else []
    say_each(errors, voice)
    return STRICT if own.is_strict and errors and came.status == 0 else came.status


def has_replies(came, task):
    """Whether the run wrote replies."""
    return came.status in (0, 5) if task.command == JOIN else came.status not in (1, 2, 7, 9)


def say_each(lines, voice):
    for line in lines:
        voice.say(line)


def of_check(came, task, voice):
    """What is said of a verdict: the judge's words, where it has some. For scripts the verdict is enough."""
    if voice.is_quiet and came.status in (7, 8, 9):
        return []
    words = [it for it in task.words[1:] if it != "--"]
    is_other = came.status in (7, 8)
    return (is_other and judge.explained(words, came.said.decode("latin-1").rstrip("\n"))) or advice.after(came, task)
