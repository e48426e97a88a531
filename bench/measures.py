"""What the scripts beside it share: the program that is measured, its requests, and what a run costs."""

import collections
import itertools
import os
import re
import statistics
import subprocess
import sys
import threading
import time

TOP = os.path.dirname(os.path.dirname(os.path.realpath(__file__)))
sys.path.insert(0, os.path.join(TOP, "tools"))

from plain.store import shard_of

BUILT = os.path.join(TOP, "crates", "flake_program", "out", "flake_program")

# Of requests, and of bytes of values, that a session asks for, where a script doesn't say another number.
REQUESTS, BYTES = 100_000, 40_000_000
SHARDS = 8  # as many as `serve` has, where it isn't told another number

# Seconds of processor time, in the program and in the kernel; those of them in the kernel; seconds of the clock; and the
# most memory at once, in KiB.
Cost = collections.namedtuple("Cost", "processor kernel clock memory")
# What one more request takes: instructions, and how often memory is taken.
Count = collections.namedtuple("Count", "instructions taken")


def refuse(why):
    sys.exit(f"{os.path.relpath(os.path.realpath(sys.argv[0]), TOP)}: {why}")


def program():
    """The program that the gate or ./vepkhundi built, or the one that the variable PROGRAM names."""
    path = os.path.realpath(os.environ.get("PROGRAM") or BUILT)
    if not os.access(path, os.X_OK):
        refuse(f"{path} is no program that can be run: build it first, by ./vepkhundi serve FILE")
    return path


def request(*words):
    return b"*%d\r\n" % len(words) + b"".join(b"$%d\r\n%s\r\n" % (len(word), word) for word in words)


def write(folder, name, requests):
    with open(os.path.join(folder, name), "wb") as file:
        file.writelines(requests)
    return name


class Load:
    """Requests of one command for values of one length, in a file for each session. A session has keys of its own and
    first sets all of them, to values that fit together into a pool of the usual size; then it asks for each in turn.
    Where sessions are `apart`, no two have keys in the same of so many shards."""

    KEYS = 10

    def __init__(self, folder, command, length, sessions=1, requests=None, apart=None):
        self.folder, self.command, self.length = folder, command, length
        self.sessions, self.apart = sessions, apart
        self.turns = max(1, (requests or min(REQUESTS, BYTES // length)) // self.KEYS)
        self.files = [write(folder, f"in{session}.resp", self.requests(session)) for session in range(sessions)]
        self.count = sessions * self.KEYS * (1 + self.turns)
        self.first_replies = self.turn_replies = self.KEYS * len(b"+OK\r\n")
        if command == "GET":
            self.turn_replies = self.KEYS * (len(b"$%d\r\n\r\n" % length) + length)
        self.replies = self.first_replies + self.turns * self.turn_replies

    def of(self, session):
        """The requests that set a session's keys, and those of one turn."""
        keys = (b"s%dk%d" % (session, number) for number in itertools.count())
        if self.apart:
            keys = (key for key in keys if shard_of(key, self.apart) // (self.apart // self.sessions) == session)
        keys = list(itertools.islice(keys, self.KEYS))
        first = b"".join(request(b"SET", key, self.length * b"v") for key in keys)
        return first, first if self.command == "SET" else b"".join(request(b"GET", key) for key in keys)

    def requests(self, session):
        first, turn = self.of(session)
        yield first
        for _ in range(self.turns):
            yield turn


class Run:
    """A program that runs in a folder, until its end, or until the block of a `with` ends otherwise."""

    def __init__(self, command, folder):
        self.command, self.memory = command, 0
        self.began = time.monotonic()
        self.child = subprocess.Popen(command, cwd=folder, stdin=subprocess.DEVNULL, stdout=subprocess.DEVNULL)
        threading.Thread(target=self._watch, daemon=True).start()

    def __enter__(self):
        return self

    def __exit__(self, *_):
        if self.child.returncode is None:
            self.child.kill()
            self.child.wait()

    # What wait4 says of memory may be that of the caller, before it became the program.
    def _watch(self):
        while self.look():
            time.sleep(0.005)

    def look(self):
        """Reads how much memory the program had at most, as long as it runs."""
        try:
            with open(f"/proc/{self.child.pid}/status", encoding="ascii", errors="replace") as file:
                found = re.search(r"^VmHWM:\s*(\d+)", file.read(), re.M)
        except OSError:
            return False
        self.memory = int(found[1]) if found else self.memory
        return found is not None

    def end(self):
        _, status, usage = os.wait4(self.child.pid, 0)
        clock = time.monotonic() - self.began
        self.child.returncode = -os.WTERMSIG(status) if os.WIFSIGNALED(status) else os.WEXITSTATUS(status)
        if self.child.returncode != 0:
            refuse(f"{' '.join(map(str, self.command))} ended with status {self.child.returncode}")
        return Cost(usage.ru_utime + usage.ru_stime, usage.ru_stime, clock, self.memory)


def remove_replies(folder):
    for name in os.listdir(folder):
        if re.fullmatch(r"out\d+\.resp", name):
            os.unlink(os.path.join(folder, name))


def reply_bytes(folder):
    names = (name for name in os.listdir(folder) if re.fullmatch(r"out\d+\.resp", name))
    return sum(os.path.getsize(os.path.join(folder, name)) for name in names)


def serve(path, folder, files, options=()):
    """What it costs to serve these files."""
    remove_replies(folder)
    with Run([path, "serve", *options, *files], folder) as run:
        return run.end()


def serve_load(path, load, options=()):
    cost = serve(path, load.folder, load.files, options)
    wanted, found = len(load.files) * load.replies, reply_bytes(load.folder)
    if found != wanted:
        refuse(f"{path} wrote {found} bytes of replies to {load.command} of {load.length} bytes, and not {wanted}")
    return cost


def median(costs):
    return Cost(*map(statistics.median, zip(*costs)))


def least(costs):
    return Cost(*map(min, zip(*costs)))


def in_turns(ways, turns):
    """The costs of each way, which take turns, so that whatever else the machine does meets all of them."""
    costs = {name: [] for name in ways}
    for _ in range(turns):
        for name, way in ways.items():
            costs[name].append(way())
    return costs


def counted(path, folder, name, options=(), command=("serve",)):
    """The instructions that serve a file, or do with it what a command does, and how often memory is taken, by
    callgrind."""
    remove_replies(folder)
    command = ["valgrind", "--tool=callgrind", "--callgrind-out-file=counts", path, *command, *options, name]
    subprocess.run(command, cwd=folder, check=True, stdout=subprocess.DEVNULL, stderr=subprocess.DEVNULL)
    with open(os.path.join(folder, "counts"), encoding="utf-8", errors="replace") as file:
        return Count(*read_counts(file))


def read_counts(file):
    """The sum of a callgrind file, and how often it has malloc or realloc called. A function has its name where its
    number stands first."""
    instructions, taken, takers, callee = 0, 0, set(), None
    for line in file:
        named = re.match(r"c?fn=(\(\d+\))(?: (.*))?", line)
        if named:
            callee = named[1]
            takers |= {callee} if named[2] in ("malloc", "realloc") else set()
        elif line.startswith("calls="):
            taken += int(line[6:].split()[0]) if callee in takers else 0
        elif line.startswith("summary:"):
            instructions = int(line.split()[1])
    return instructions, taken


def each(path, folder, before, asked, few, many, options=(), command=("serve",)):
    """What one more such request takes: the difference of two files that have few and many of them."""
    counts = []
    for number in (few, many):
        write(folder, "asked.resp", [before, *(asked[at % len(asked)] for at in range(number))])
        counts.append(counted(path, folder, "asked.resp", options, command))
    return Count(*((more - less) / (many - few) for less, more in zip(*counts)))


def is_there(command):
    return any(os.access(os.path.join(folder, command), os.X_OK) for folder in os.get_exec_path())


def need(command):
    """Ends, and says so, where there is no such command: nothing is measured then, and nothing failed."""
    if not is_there(command):
        print(f"not run: there is no {command}")
        sys.exit(0)
