"""Wrong descriptors and changed transcripts, which a card must not send as the replies."""

from card.legacy import COMMAND, END_OF_PACKET, EXTENSION, REPORT_STATUS


def with_command(change):
    """Descriptors whose commands are changed."""
    return lambda frame: [bits[:COMMAND] + bytes([change(bits[COMMAND])]) + bits[COMMAND + 1 :] for bits in frame]


def each(change):
    return lambda frame: list(map(change, frame))


SPOILT = {
    "no end of packet": with_command(lambda it: it & ~END_OF_PACKET),
    "an end of packet in each": with_command(lambda it: it | END_OF_PACKET),
    "no report of the status": with_command(lambda it: it & ~REPORT_STATUS),
    "a report in each": with_command(lambda it: it | REPORT_STATUS),
    "the other kind of descriptor": with_command(lambda it: it | EXTENSION),
    "addresses with the high byte first": each(lambda bits: bits[7::-1] + bits[8:]),
    "lengths with the high byte first": each(lambda bits: bits[:8] + bits[9:7:-1] + bits[10:]),
    "the command one byte on": each(lambda bits: bits[:11] + b"\0" + bits[11:12] + bits[13:]),
    "the last descriptor first": lambda frame: frame[-1:] + frame[:-1],
    "the last descriptor left out": lambda frame: frame[:-1] or frame,
}

# What is changed in the transcript of the example `pin`: each text stands there once.
CHANGED = {
    "a piece begins a byte late": ("3145728:600 1049094:2", "3145729:600 1049094:2"),
    "a piece is a byte longer, and the next shorter": ("3145728:600 1049094:2", "3145728:601 1049094:1"),
    "two pieces are swapped": ("1049088:6 3145728:600", "3145728:600 1049088:6"),
    "a piece lies in another buffer": ("1049088:6 3145728:600", "1049088:6 3149824:600"),
    "a value is stored a byte late": ("1048576:5 store 3145728:600\ncall 0 1", "1048576:5 store 3145729:600\ncall 0 1"),
    "a value is stored where a posted reply has one": ("store 3149824:600", "store 3145728:600"),
    "a reply is taken back that wasn't sent": ("gather 0 3 5\n", ""),
}


def changed(transcript, pair):
    old, new = (it.encode() for it in pair)
    if transcript.count(old) != 1:
        raise ValueError(f"{old!r} isn't there once")
    return transcript.replace(old, new)
