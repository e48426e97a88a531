"""The commands that pages have in blocks of code and in tables: that each is there, and takes its options."""

import functools
import os
import re
import shlex

from common import TOP
from sources import read, tools

# what a reader's system has, or what a page says that it needs
SYSTEM = set("cat cd cp printf rt git time python3 bash for do done if mkdir rm ls diff cmp head tail wait".split())
SYSTEM |= set("kill sleep redis-server redis-cli redis-benchmark qemu-system-x86_64 valgrind strace nice cc".split())
FILE = re.compile(r"^(?:examples|tools|bench|docs|crates)/[\w./-]+$")
OWN = re.compile(r"`((?:\./vepkhundi|tools/|bench/|rt |\.ci/run)[^`]*)`")


def blocks(text):
    """Yields the lines of a page's blocks of code that hold commands: fenced ones, and those that are indented."""
    for language, body in re.findall(r"^```(\w*)\n(.*?)^```", text, re.M | re.S):
        if language in ("", "sh", "console"):
            yield from re.sub(r"\\\n\s*", " ", body).splitlines()
    yield from re.findall(r"^    (\S.*)$", text, re.M)


def calls_in(line):
    """Yields the calls of a line, each as its words, without what is said behind a # and without redirections."""
    lexer = shlex.shlex(re.sub(r"^\s*\$ ", "", line), posix=True, punctuation_chars="|&;()<>")
    lexer.whitespace_split = True
    call = []
    try:
        for word in lexer:
            if set(word) <= set("|&;()"):
                yield call
                call = []
            else:
                call.append(word)
    except ValueError:
        return
    yield call


def is_command(line):
    """Returns whether a line of a block is a command, and not what one prints or a drawing."""
    first = re.sub(r"^\s*\$ ", "", line).split(" ")[0]
    return first in SYSTEM or first in (".ci/run", "./vepkhundi") or first.startswith(("tools/", "bench/", "./"))


@functools.lru_cache(maxsize=None)
def text_of(tool):
    """Returns what a tool's options stand in: its own text, and that of its modules."""
    folder = {"vepkhundi": "tools/launcher", "tools/record": "tools/judging"}.get(tool, "")
    names = os.listdir(os.path.join(TOP, folder)) if folder and os.path.isdir(os.path.join(TOP, folder)) else []
    return read(tool) + "".join(read(f"{folder}/{it}") for it in names if it.endswith(".py"))


def wrong_in(page, words):
    """Yields what is wrong with one call."""
    while words and re.match(r"^\w+=", words[0]):
        words = words[1:]
    if not words:
        return
    first = words[0][2:] if words[0].startswith("./") else words[0]
    if len(words) == 1 and os.path.exists(os.path.join(TOP, first)):
        return
    if first not in SYSTEM | {".ci/run"} and first not in tools():
        yield f"{page} calls {words[0]}, which isn't there"
        return
    for word in words[1:]:
        option = re.match(r"--[a-z][a-z-]*", word)
        if option and first in tools() and option[0] not in text_of(first) + "--help":
            yield f"{page} calls {first} with {option[0]}, which it doesn't have"
        if FILE.match(word) and "NAME" not in word and not os.path.exists(os.path.join(TOP, word)):
            yield f"{page} names {word}, which isn't there"


def wrong_calls(page):
    """Yields what is wrong with the commands of a page."""
    text = read(page)
    lines = [line for line in blocks(text) if is_command(line)] + OWN.findall(text)
    for line in lines:
        for words in calls_in(line):
            yield from wrong_in(page, words)
