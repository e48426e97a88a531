"""What the tools share: how they read files, and how they end where something is refused."""

import os
import re
import sys

CONTROLS = re.compile("[\0-\x1f\x7f-\x9f]")


def escaped(text):
    """Returns text without what a terminal obeys."""
    return CONTROLS.sub(lambda found: f"\\x{ord(found[0]):02x}", text)


def end(why):
    """Says why nothing more comes, and ends."""
    print(f"{os.path.basename(sys.argv[0])}: {escaped(why)}", file=sys.stderr)
    sys.exit(2)


def read(file):
    """Returns the bytes of a file, standard input where it is -, or ends where it can't be read."""
    try:
        with open(0 if file == "-" else file, "rb") as it:
            return it.read()
    except OSError as it:
        return end(f"{file}: {it.strerror}")


def end_of_output(error):
    """Ends where standard output can't be written."""
    end(f"standard output: {error.strerror}")


def parsed(parser):
    """Returns what the words say. Where help was asked for and can't be written, that is said."""
    try:
        return parser.parse_args()
    except SystemExit:
        try:
            sys.stdout.flush()
        except OSError as it:
            os.dup2(os.open(os.devnull, os.O_WRONLY), 1)
            end_of_output(it)
        raise
