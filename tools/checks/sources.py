"""What the sources have, for the checks of pages: names, functions, definitions and fields of records; and what no file
of them may name."""

import functools
import glob
import os
import re

from common import TOP

SHARED = re.compile(r"\.\s*shared\b(?!\s*\.\s*(?:table_id|key)\b)")  # clauses may name the table, and its key
WORD = r"[A-Za-z_][A-Za-z0-9_]*"


def read(path):
    with open(os.path.join(TOP, path), encoding="utf-8") as it:
        return it.read()


@functools.lru_cache(maxsize=None)
def paths(pattern):
    """Returns the files of a pattern below the top, by their paths from there."""
    found = glob.glob(os.path.join(glob.escape(TOP), pattern), recursive=True)
    return sorted(os.path.relpath(it, TOP) for it in found if os.path.isfile(it))


@functools.lru_cache(maxsize=None)
def sources():
    """Returns the text of each source of a crate, by its path."""
    found = paths("crates/*/*/**/*.rt") + paths("crates/*/*/**/*.antt")
    return {it: read(it) for it in found if it.split("/")[2] in ("src", "specs", "proofs")}


@functools.lru_cache(maxsize=None)
def crates():
    """Returns the crates of crates.txt in their order, with the libraries that each lists."""
    lines = [line.partition("#")[0].partition(":") for line in read("crates.txt").splitlines()]
    return {head.split()[0]: tail.split() for head, colon, tail in lines if colon}


@functools.lru_cache(maxsize=None)
def words_of(*names):
    """Returns the words in the sources and specs of these crates; without a name, of all and of all files' paths."""
    texts = [text for path, text in sources().items() if not names or path.split("/")[1] in names]
    if not names:
        texts += [read("crates.txt"), *map(read, paths("tools/**/*.py")), *map(read, tools())]
        texts += [*paths("*"), *paths("tools/**"), *paths("bench/*"), *paths("examples/*")]
    return set(re.findall(WORD, " ".join(texts)))


def tools():
    """Returns the programs for people: the launcher, the tools, the checks and the measures."""
    found = ["vepkhundi", *paths("tools/*"), *paths("tools/checks/*"), *paths("bench/*")]
    return [it for it in found if os.access(os.path.join(TOP, it), os.X_OK)]


@functools.lru_cache(maxsize=None)
def functions():
    return set(re.findall(r"\bfn (\w+)", " ".join(sources().values())))


def defines(path, name):
    """Returns whether a file of specs defines the name."""
    return bool(re.search(rf"\b(?:abbrev|record|data)(?: pub)? {name}\b", sources().get(path, "")))


def fields_of(path, record):
    """Returns the fields of a record, in their order."""
    body = re.search(rf"record {record}\b(?s:.*?)\bwhere\n((?:[ \t].*\n|\n)*)", sources()[path] + "\n")
    return re.findall(r"^ +pub (\w+) :", body[1], re.M) if body else []


def libraries_unnamed():
    """A crate's line lists what its files name, and no more: a library that isn't needed has the crate proved again
    when it changes, and some kits of the toolchain go over its sources once for each path of listed libraries to it."""
    for name, libraries in crates().items():
        text = "".join(text for path, text in sources().items() if path.split("/")[1] == name)
        for library in libraries:
            if not re.search(rf"\bRattle\.{library}\b|\b{library}::|\buse {library}\b", text):
                yield f"crates.txt lists {library} for {name}, and no file of it names that"


def steps_elsewhere():
    """The steps on a pool's words, and on a ring's, stand in one module each, whose short functions say what they
    are."""
    for crate in ("pinned_pool", "tx_ring"):
        steps = f"crates/{crate}/src/atomic.rt"
        for path in paths(f"crates/{crate}/src/**/*.rt"):
            code = re.sub(r"//.*", "", read(path))
            if bool(SHARED.search(code)) != (path == steps):
                yield f"{path} {'has no step' if path == steps else 'names what the seats of a table share'}"


def wires_looked_into():
    """Only tests ask a wire to show its bytes. A body that did so could do one thing on wires that show them, of which
    contracts know the bytes, and another on a real file, of which they know the numbers alone."""
    for path in paths("crates/*/src/**/*.rt"):
        code = re.sub(r"//.*", "", read(path))
        if not path.split("/")[1].startswith("test_") and re.search(r"(?:\.|::)\s*shown\s*\(", code):
            yield f"{path} asks a wire to show its bytes"
