"""The options of ./vepkhundi itself, which stand before the command."""

from launcher.table import OWN_OPTIONS
from launcher.voice import quoted


class BadOwn(Exception):
    """An option that stands there and may not."""


class Own:
    """What they say."""

    def __init__(self, given):
        self.is_quiet, self.is_strict = "--quiet" in given, "--strict" in given
        self.is_unproved, self.out = "--unproved" in given, given.get("--out")


def read_own(words):
    """Returns what the options say, and the words behind them."""
    given, at = {}, 0
    while at < len(words) and words[at].startswith("-"):
        name, is_joined, text = words[at].partition("=")
        option = next((it for it in OWN_OPTIONS if it.name == name), None)
        if option is None:
            break
        if option.argument is None and is_joined:
            raise BadOwn(f"{name} takes no word")
        at += 1
        if option.argument is not None and not is_joined:
            if at == len(words):
                raise BadOwn(f"{name}: a {option.argument.lower()} belongs behind it")
            text, at = words[at], at + 1
        given[name] = text
    if at < len(words) and words[at].startswith("-") and words[at] not in ("--help", "-h", "--version", "-V"):
        raise BadOwn(f"{quoted(words[at])} is no option of ./vepkhundi")
    return Own(given), words[at:]
