"""Commands that this program doesn't have and that touch no key: they and their replies can be left out of what is
judged, since nothing else depends on them. Every other command that it doesn't have can't be judged."""

ANY = None  # whatever stands behind the name

# The words that may stand behind each name; none stands for the name alone.
KEYLESS = {
    b"AUTH": ANY,
    b"CLIENT": {b"GETNAME", b"HELP", b"ID", b"INFO", b"LIST", b"NO-EVICT", b"NO-TOUCH", b"SETINFO", b"SETNAME"},
    b"CLUSTER": {b"HELP", b"INFO", b"KEYSLOT", b"MYID", b"NODES", b"SHARDS", b"SLOTS"},
    b"COMMAND": ANY,
    b"CONFIG": {b"GET", b"HELP", b"RESETSTAT"},
    b"DBSIZE": ANY,
    b"ECHO": ANY,
    b"HELLO": {b"", b"2"},
    b"INFO": ANY,
    b"LASTSAVE": ANY,
    b"QUIT": ANY,
    b"SELECT": {b"0"},
    b"TIME": ANY,
}


def touches_no_key(words):
    """Whether a command is one of these."""
    name = words[0].upper()
    allowed = KEYLESS.get(name, set())
    return allowed is ANY or (words[1].upper() if words[1:] else b"") in allowed
