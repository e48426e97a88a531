"""The commands and their options: help, completion, the manual and the judge of words are all made of this table."""

SERVE, CHECK, GEN, DRIVE, FRAMES, JOIN = "serve", "check", "gen", "drive", "frames", "join"
MOST_FILES = 16
STAGE = 128  # small buffers that each session has for itself


class Option:
    """An option that stands behind a command: a number within limits, or, where it has none, a word by itself."""

    def __init__(self, name, what, least=None, most=None, usual=None, step=1):
        self.name, self.what, self.usual = name, what, usual
        self.least, self.most, self.step = least, most, step

    def takes_number(self):
        return self.least is not None

    def shown(self):
        return f"{self.name} N" if self.takes_number() else self.name


class Own:
    """An option of ./vepkhundi itself, which stands before the command."""

    def __init__(self, name, what, argument=None):
        self.name, self.what, self.argument = name, what, argument

    def shown(self):
        return f"{self.name} {self.argument}" if self.argument else self.name


class Command:
    """`program` says whether it is the program's, and not ./vepkhundi's own."""

    def __init__(self, name, words, what, options=(), program=True):
        self.name, self.words, self.what, self.options, self.program = name, words, what, options, program

    def option(self, name):
        return next((it for it in self.options if it.name == name), None)


WORKERS = Option("--workers", "sessions that are served at once", 1, 16, "all")
SIZES = (
    Option("--shards", "parts of the store", 1, 16, 8),
    Option("--small", "buffers of 512 bytes, at least 128 for each file", 128, 65_536, 4096),
    Option("--large", "buffers of 4096 bytes", 1, 16_384, 1024),
    Option("--ring", "descriptors of the ring, a multiple of 8", 1160, 4096, 1160, 8),
    Option("--threshold", "bytes from which on a value is sent from where it lies", 1, 512, 512),
)
DUMP = Option(
    "--dump",
    "writes what all keys have before this call of the first file, as requests to the file behind the replies",
    0,
    2**32 - 1,
)
JOURNAL = Option("--journal", "prints what each shard did in which order; the sessions' lines go to standard error")
GENERATED = (
    Option("--sessions", "sessions", 1, 16, 4),
    Option("--requests", "requests of each session", 1, 4000, 1000),
    WORKERS,
)

OWN_OPTIONS = (
    Own("--quiet", "says only what goes wrong and what was moved aside: for scripts"),
    Own("--strict", "ends with status 124 where the status would be 0 and a reply is an error"),
    Own("--out", "writes the replies there, and not in this folder", "FOLDER"),
    Own("--unproved", "compiles the program without its proof, once, and runs that"),
)

COMMANDS = {
    it.name: it
    for it in (
        Command(
            SERVE,
            "[--journal] [--dump N] [SIZES] FILE..",
            "Serves the RESP2 requests in 1 to 16 files at once, each a session of its own, over one store that is\n"
            "empty at first. The replies go to out0.resp, out1.resp, .. in the order of the files. The name - is\n"
            "standard input.",
            (JOURNAL, DUMP, *SIZES, WORKERS),
        ),
        Command(
            CHECK,
            "JOURNAL INPUT REPLIES ..",
            "Says whether replies are those that the journal of a run gives for its inputs: same, or the first byte\n"
            "that differs, or the first place at which the journal isn't in order. JOURNAL is what serve --journal\n"
            "prints. Behind it come 1 to 16 pairs of files; the word none stands for replies that there are not.",
        ),
        Command(
            GEN,
            "[--sessions N] [--requests N] [--workers N] NUMBER",
            "Serves requests that are generated from NUMBER, 0 to 4294967295: the same number gives the same\n"
            "requests. The replies go to out0.resp, out1.resp, ..",
            GENERATED,
        ),
        Command(
            DRIVE,
            "[SIZES] SCHEDULE FILE..",
            "Serves 1 to 16 files of requests on one thread, in the order of a schedule, and says of each of its\n"
            "lines what came of it. The lines are `call N`: session N runs its next command, `gather N`: its next\n"
            "reply is sent, and `reap N`: the next of those is taken back. Replies that are left are sent at the end.",
            SIZES,
        ),
        Command(
            FRAMES,
            "[SIZES] M FILE..",
            "Serves 1 to 16 files of requests at once, as serve does, but each reply goes to out0.resp, out1.resp, .. in\n"
            "frames of at most M bytes, 64 to 9216. join puts the replies of one file together again.",
            (*SIZES, WORKERS),
        ),
        Command(
            JOIN,
            "M CALLS FILE",
            "Puts the replies to CALLS calls, 0 to 4294967295, together again from their frames of at most M bytes,\n"
            "64 to 9216, which stand in a file in any order. They go to out0.resp in the order of the calls.",
        ),
        Command(
            "judge",
            "FOLDER | judge IN REPLIES",
            "Says of recorded replies of any Redis-like server whether they are right. This is tools/judge; its\n"
            "verdicts are those of check. judge --help says more.",
            program=False,
        ),
        Command("help", "[COMMAND]", "Shows all this, or one command.", program=False),
        Command("version", "", "Says commit, kit, sum of sources, and whether the program is proved.", program=False),
        Command("completion", "", "Prints the completion of these words for bash.", program=False),
        Command("manual", "", "Prints the manual page, for man.", program=False),
    )
}

STATUSES = (
    ("0", "all was served or joined; of check: same"),
    ("1", "bad words"),
    ("2", "a file can't be opened"),
    ("3", "a file isn't whole requests to its end"),
    ("4", "a read failed"),
    ("5", "a write failed"),
    ("6", "memory ran out"),
    ("7", "a line of the schedule or of the journal, or a frame, isn't of its form"),
    ("8", "of check: not the same; of join: a frame is missing"),
    ("9", "a file is too large"),
    ("124", "with --strict: a reply is an error"),
    ("125", "nothing was run, for the reason that is said"),
    ("127", "there is no rt"),
)
