"""The manual page, for man."""

from launcher.help import TOOLS, limits, line_of
from launcher.table import COMMANDS, OWN_OPTIONS, SIZES, STATUSES

NAME = "vepkhundi \\- serves RESP2 requests from files, and the program is proved"


def plain(text):
    """Returns text as the page has it, in which backslashes, dashes and dots at the front are no requests."""
    text = text.replace("\\", "\\e").replace("-", "\\-")
    return f"\\&{text}" if text.startswith((".", "'")) else text


def listed(pairs):
    for first, second in pairs:
        yield from (".TP", f"\\fB{plain(first)}\\fR", plain(second))


def manual():
    lines = ['.TH VEPKHUNDI 1 "" "" "Vepkhundi"', ".SH NAME", NAME, ".SH SYNOPSIS"]
    for command in COMMANDS.values():
        lines += [f".B vepkhundi {plain('[OPTIONS] ' if command.program else '')}{plain(line_of(command))}", ".br"]
    lines.append(".SH COMMANDS")
    for command in COMMANDS.values():
        lines += [".TP", f"\\fB{plain(line_of(command))}\\fR", *map(plain, command.what.split("\n"))]
    lines += [".SH OPTIONS", "They stand before the command.", *listed((it.shown(), it.what) for it in OWN_OPTIONS)]
    for command in COMMANDS.values():
        own = [it for it in command.options if it not in SIZES]
        if own:
            lines += [f".SH OPTIONS OF {command.name.upper()}", *listed((it.shown(), limits(it)) for it in own)]
    lines += [".SH SIZES", "They stand behind serve, frames and drive.", *listed((it.shown(), limits(it)) for it in SIZES)]
    lines += [".SH EXIT STATUS", *listed(STATUSES), ".SH SEE ALSO", *listed(TOOLS)]
    return "\n".join(lines) + "\n"
