"""The words of a command, judged as the program judges them, with the reason where they are bad."""

import os

from launcher.generated import MOST_LARGE, MOST_SMALL, demand_of
from launcher.replies import replies_of
from launcher.table import CHECK, COMMANDS, DRIVE, FRAMES, GEN, JOIN, MOST_FILES, OWN_OPTIONS, SERVE, STAGE
from launcher.voice import quoted

MOST_NUMBER = 2**32 - 1
FRAME = 64, 9216  # bytes of a frame, at most
STANDARD_INPUT = "/dev/stdin"


class BadWords(Exception):
    """Words that the program would refuse, and why."""


class Task:
    """What good words ask of the program. `opened` are the names of files in the order in which it opens them, of
    which `files` are those of requests; `sessions` is how many files of replies it may write, into `folder`, and behind
    them that of a dump. A file's place is its place among the words."""

    def __init__(self, words, given, places):
        self.command, self.given, self.places = words[0], given, places
        self.words = [STANDARD_INPUT if it in places and word == "-" else word for it, word in enumerate(words)]
        self.folder = ""
        is_driven = self.command == DRIVE
        self.schedule_place = places[0] if is_driven else None
        self.file_places = {SERVE: places, FRAMES: places, DRIVE: places[1:]}.get(self.command, [])
        of_files = 1 if self.command == JOIN else len(self.file_places)
        self.sessions = value_or_usual(given, GEN, "--sessions") if self.command == GEN else of_files

    @property
    def opened(self):
        return [self.words[place] for place in self.places]

    @property
    def files(self):
        return [self.words[place] for place in self.file_places]

    @property
    def schedule(self):
        return None if self.schedule_place is None else self.words[self.schedule_place]

    @property
    def replies(self):
        return [os.path.join(self.folder, name) for name in replies_of(self.sessions)]

    @property
    def dump(self):
        """The file of the dump; None where none is asked for."""
        return os.path.join(self.folder, replies_of(self.sessions + 1)[-1]) if "--dump" in self.given else None

    @property
    def outputs(self):
        """All files that the program may write."""
        return self.replies if self.dump is None else [*self.replies, self.dump]

    def says_much(self):
        """Whether the program may say more than a line for each session."""
        return self.command in (DRIVE, GEN) or "--journal" in self.given

    def for_program(self):
        """Returns the words that the program gets: where it runs in another folder, names have this one's before
        them."""
        words = list(self.words)
        for place in self.places if self.folder else ():
            words[place] = words[place] and os.path.join(os.getcwd(), words[place])
        return words


def is_option(word):
    return word.startswith("-") and word != "-"


def is_plain(text, least, most):
    """Whether this is a plain decimal within these limits."""
    plain = text.isascii() and text.isdigit() and (text == "0" or text[0] != "0") and len(text) <= 10
    return plain and least <= int(text) <= most


def is_utf8(word):
    return not any("\ud800" <= letter <= "\udfff" for letter in word)


def read_task(words):
    """Returns what the words ask for; they are not none."""
    for word in words:
        if not is_utf8(word):
            raise BadWords(f"{quoted(word)}: names must be UTF-8")
    command = COMMANDS.get(words[0])
    if command is None or not command.program:
        raise BadWords(unknown(words))
    given, places = read_words(words, command)
    if sum(words[place] == "-" for place in places) > 1:
        raise BadWords("-: standard input is read once")
    fit = {
        SERVE: fit_files,
        FRAMES: fit_frames,
        DRIVE: fit_driven,
        CHECK: fit_pairs,
        GEN: fit_number,
        JOIN: fit_join,
    }
    return Task(words, given, fit[words[0]](words, given, places))


def unknown(words):
    if len(words) == 1 and os.path.isfile(words[0]):
        return f"to serve {quoted(words[0])}, put the word serve before it"
    names = ", ".join(name for name, it in COMMANDS.items() if it.program or name == "judge")
    return f"{quoted(words[0][:60])} is no command: {names}"


def read_words(words, command):
    """Returns what the options say, and the places of the other words behind the command."""
    given, others = {}, []
    rest = iter(range(1, len(words)))
    for place in rest:
        name, is_joined, text = words[place].partition("=")
        option = command.option(name)
        if words[place] == "--":
            others += rest
        elif option is not None:
            if name in given:
                raise BadWords(f"{name} stands twice")
            if option.takes_number() and not is_joined:
                text = words[next(rest, 0)] if place + 1 < len(words) else None
            given[name] = value_of(option, text, is_joined)
        elif is_option(words[place]):
            raise BadWords(no_option(words[place], command.name))
        else:
            others.append(place)
    return given, others


def no_option(word, command):
    if any(it.name == word for it in OWN_OPTIONS):
        return f"{word} stands before {command}"
    return f"{quoted(word)} is no option of {command}; behind -- each word is a file"


def value_of(option, text, is_joined):
    """Returns what an option says: its number, or that it stands there."""
    if not option.takes_number():
        if is_joined:
            raise BadWords(f"{option.name} takes no number")
        return True
    limits = f"{option.least} to {option.most}"
    if text is None:
        raise BadWords(f"{option.name}: a number belongs behind it, {limits}")
    if not is_plain(text, option.least, option.most):
        raise BadWords(f"{option.name} {quoted(text)}: {limits}")
    if int(text) % option.step:
        raise BadWords(f"{option.name} {text}: a multiple of {option.step}")
    return int(text)


def value_or_usual(given, command, name):
    return given.get(name, COMMANDS[command].option(name).usual)


def fit_files(words, given, places):
    """The places of files of requests, with small buffers for each."""
    return fit_count(words[0], given, places, len(places))


def fit_driven(words, given, places):
    if not places:
        raise BadWords("drive takes a schedule, and then 1 to 16 files")
    return fit_count("drive behind the schedule", given, places, len(places) - 1)


def fit_frames(words, given, places):
    """The places of files of requests, behind the most bytes of a frame."""
    if not places:
        raise BadWords("frames takes a frame's most bytes, and then 1 to 16 files")
    judge_number("M", words[places[0]], FRAME)
    return fit_count("frames behind M", given, places[1:], len(places) - 1)


def fit_count(what, given, places, count):
    small = value_or_usual(given, SERVE, "--small")
    if count == 0:
        raise BadWords(f"no file: {what} takes 1 to {MOST_FILES}")
    most = MOST_FILES - ("--dump" in given)
    if count > most:
        raise BadWords(f"{count} files: at most {most}{' with --dump' if most < MOST_FILES else ''}")
    if STAGE * count > small:
        raise BadWords(f"--small {small}: {count} files have {STAGE * count}, {STAGE} for each")
    return places


def fit_pairs(words, _given, places):
    """The places of the files of a check that are opened."""
    count = len(places)
    if not 3 <= count <= 2 * MOST_FILES + 1 or count % 2 == 0:
        raise BadWords(f"{count} names: a journal, and 1 to {MOST_FILES} pairs of requests and their replies, or none")
    return [place for number, place in enumerate(places) if number % 2 or number == 0 or words[place] != "none"]


def fit_number(words, given, places):
    if len(places) != 1:
        raise BadWords(f"{len(places)} numbers: gen takes one, 0 to {MOST_NUMBER}")
    text = words[places[0]]
    if not is_plain(text, 0, MOST_NUMBER):
        raise BadWords(f"gen {quoted(text)}: 0 to {MOST_NUMBER}, as a plain number")
    sessions, requests = (value_or_usual(given, GEN, name) for name in ("--sessions", "--requests"))
    small, large = demand_of(int(text), sessions, requests)
    if small > MOST_SMALL or large > MOST_LARGE:
        claimed = f"{small} small and {large} large buffers"
        raise BadWords(f"these requests may claim {claimed}, and a pool has at most {MOST_SMALL} and {MOST_LARGE}")
    return []


def fit_join(words, _given, places):
    """The place of the file of frames."""
    if len(places) != 3:
        raise BadWords(f"{len(places)} words: join takes a frame's most bytes, the number of calls and a file")
    for place, name, limits in zip(places, ("M", "CALLS"), (FRAME, (0, MOST_NUMBER))):
        judge_number(name, words[place], limits)
    return places[2:]


def judge_number(name, text, limits):
    """Refuses what is no plain number within these limits."""
    if not is_plain(text, *limits):
        raise BadWords(f"{name} {quoted(text)}: {limits[0]} to {limits[1]}, as a plain number")
