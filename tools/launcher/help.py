"""Help, as text: all of it, or that of one command."""

from launcher.table import COMMANDS, OWN_OPTIONS, SIZES, STATUSES

HELP_WORDS = ("help", "--help", "-h")
TOOLS = (
    ("tools/to_resp commands.txt > in.resp", "makes requests of commands as they are typed"),
    ("tools/show_replies --with in.resp out0.resp", "shows replies as redis-cli does, behind their commands"),
    ("tools/split_resp big.resp", "cuts requests into parts that can be served"),
    ("tools/lesson commands.txt > picture.svg", "draws what the server does with commands"),
)


def rows(pairs):
    """Lines of two columns."""
    width = max(len(first) for first, _ in pairs)
    return [f"  {first.ljust(width)}  {second}" for first, second in pairs]


def limits(option):
    if not option.takes_number():
        return option.what
    usual = "none" if option.usual is None else option.usual
    return f"{option.what}: {option.least} to {option.most}, without it {usual}"


def line_of(command):
    return f"{command.name} {command.words}".rstrip()


def of_command(name):
    """What `help NAME` shows."""
    command = COMMANDS[name]
    own = "[OPTIONS] " if command.program else ""
    lines = [f"usage: ./vepkhundi {own}{line_of(command)}", "", command.what]
    if command.options:
        lines += ["", *rows([(it.shown(), limits(it)) for it in command.options])]
    if command.program:
        lines += ["", "OPTIONS stand before the command:", "", *rows([(it.shown(), it.what) for it in OWN_OPTIONS])]
    return "\n".join(lines) + "\n"


def of_all():
    """What `help` shows."""
    lines = ["usage: ./vepkhundi [OPTIONS] COMMAND ..", ""]
    for command in COMMANDS.values():
        lines += [line_of(command), *(f"    {it}" for it in command.what.split("\n")), ""]
    lines += ["OPTIONS stand before the command:", "", *rows([(it.shown(), it.what) for it in OWN_OPTIONS]), ""]
    lines += ["SIZES stand behind serve, frames and drive; help COMMAND shows what else does:", "", *rows([(it.shown(), limits(it)) for it in SIZES]), ""]
    lines += ["Statuses:", "", *rows(STATUSES), "", *rows(TOOLS), ""]
    lines += ["The program is proved and built first, where it wasn't proved from the sources as they stand."]
    return "\n".join(lines) + "\n"
