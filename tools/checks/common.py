"""What the checks share: where things are, runs of the program, requests and replies, files, and the count of checks.

A check names its cases in a dictionary: what each is about, then a function and its arguments. The function returns, or
yields, a line for each thing that is wrong.
"""

import os
import re
import subprocess
import sys
import tempfile

sys.dont_write_bytecode = True
TOP = os.path.dirname(os.path.dirname(os.path.dirname(os.path.realpath(__file__))))
TOOLS = os.path.join(TOP, "tools")
VEPKHUNDI = os.path.join(TOP, "vepkhundi")
BUILT = os.path.join(TOP, "crates", "flake_program", "out", "flake_program")
MOST_SHOWN = 10
sys.path.insert(0, TOOLS)


class LeftOut(Exception):
    """Why a case can't be tried here: its means are missing. It isn't counted."""


def run(room, *words, **how):
    """Calls ./vepkhundi quietly in a folder. Returns its status, and what it said on standard output."""
    return call(room, VEPKHUNDI, "--quiet", *words, **how)


def call(room, *words, **how):
    """Calls any command so, as BUILT, which has no launcher before it."""
    how = {"stdin": subprocess.DEVNULL, "stdout": subprocess.PIPE, "stderr": subprocess.DEVNULL, **how}
    ended = subprocess.run(words, cwd=room, **how)
    return ended.returncode, ended.stdout


def built_program():
    """Returns the program that ./vepkhundi has proved and built."""
    with tempfile.TemporaryDirectory() as room:
        status, _ = run(room, "serve", os.devnull)
    if status:
        sys.exit(f"the program isn't there: ./vepkhundi serve {os.devnull} ended with status {status}")
    return BUILT


def read(room, name):
    """Returns the bytes of a file; of one that isn't there, None."""
    try:
        with open(os.path.join(room, name), "rb") as it:
            return it.read()
    except FileNotFoundError:
        return None


def write(room, name, text):
    with open(os.path.join(room, name), "wb") as it:
        it.write(text)


def request(*words):
    """Returns words as a request: an array of bulk strings."""
    return b"*%d\r\n" % len(words) + b"".join(map(bulk, words))


def bulk(value):
    """Returns a value as a bulk string."""
    return b"$%d\r\n%b\r\n" % (len(value), value)


def count(cases):
    """Tries each case, prints a line for it and the sums in the last line, and ends with status 1 where one failed.
    Where CHECK_ONLY is set, those alone are tried whose name matches it."""
    passed = failed = 0
    only = os.environ.get("CHECK_ONLY", "")
    for what, (check, *given) in cases.items():
        if not re.search(only, what):
            continue
        try:
            found = list(check(*given) or ())
        except LeftOut as it:
            print(f"not run {what}: {it}", flush=True)
            continue
        lines = [f"{'FAILED' if found else 'passed'}  {what}", *(f"        {it}" for it in found[:MOST_SHOWN])]
        print(*lines, sep="\n", flush=True)
        failed, passed = failed + bool(found), passed + (not found)
    print(f"{passed} passed, {failed} failed")
    sys.exit(failed > 0)
