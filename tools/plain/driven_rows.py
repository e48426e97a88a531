"""Schedules, with what is to be said of them: reckoned by hand from how values are cut, laid out and held. And
inputs, with how they end."""

from plain.inputs import BAD_COUNT, BAD_LENGTH, CLEAN, CUT, INLINE, NO_BULK
from plain.pool import FIRST, LARGE, SMALL

LARGES = FIRST + 4096 * SMALL  # the address of the first large buffer, where there are 4,096 small ones
OWN = FIRST + 128 * SMALL  # that of the first small one behind the stage of one session


def request(*words):
    return b"*%d\r\n" % len(words) + b"".join(b"$%d\r\n%s\r\n" % (len(word), word) for word in words)


def bulk(value):
    return b"$%d\r\n%s\r\n" % (len(value), value)


def lines(count, line):
    return (line + "\n") * count


class Row:
    """Requests of one session and a schedule, and what is said and answered. `fails` are the puts that fail, in so
    far as something can have them fail."""

    def __init__(self, requests, schedule, said, replies, status=0, fails=(), **sizes):
        self.input = b"".join(request(*words) for words in requests)
        self.schedule, self.said, self.replies = schedule.encode(), said.encode(), replies
        self.status, self.fails, self.sizes = status, fails, sizes


OK = b"+OK\r\n"
SET_K = (b"SET", b"k", 600 * b"A")
GET_K = (b"GET", b"k")
SET_AND_GET = "call 0 0 send 1048576:5 store 3145728:600\ncall 0 1 send 1049088:6 3145728:600 1049094:2\n"


def three_lengths():
    """Values of 511, 512 and 513 bytes: the first is copied, the others are sent from where they lie, and the last
    needs a large buffer."""
    values = [(b"a", 511 * b"A"), (b"b", 512 * b"B"), (b"c", 513 * b"C")]
    requests = [(b"SET", *it) for it in values] + [(b"GET", key) for key, _ in values]
    said = (
        "call 0 0 send 1048576:5 store 1114112:511\n"
        "call 0 1 send 1049088:5 store 1114624:512\n"
        "call 0 2 send 1049600:5 store 3145728:513\n"
        "call 0 3 send 1050112:512 1050624:7\n"
        "call 0 4 send 1051136:6 1114624:512 1051142:2\n"
        "call 0 5 send 1051648:6 3145728:513 1051654:2\n"
        "held 2 1\n"
    )
    return Row(requests, lines(6, "call 0"), said, 3 * OK + b"".join(bulk(value) for _, value in values))


def held_by_a_reply():
    """The first buffer of k stays as it is while the reply to GET has it, though k has another value then."""
    requests = [SET_K, GET_K, (b"SET", b"k", 600 * b"B"), (b"SET", b"j", 600 * b"C"), (b"SET", b"m", 600 * b"D")]
    schedule = lines(4, "call 0") + lines(4, "gather 0") + lines(4, "reap 0") + "call 0\n"
    said = (
        SET_AND_GET + "call 0 2 send 1049600:5 store 3149824:600\n"
        "call 0 3 send 1050112:5 store 3153920:600\n"
        "gather 0 0 5\ngather 0 1 608\ngather 0 2 5\ngather 0 3 5\n"
        "reap 0 0 0\nreap 0 1 1\nreap 0 2 0\nreap 0 3 0\n"
        "call 0 4 send 1048576:5 store 3145728:600\n"
        "held 0 3\n"
    )
    return Row(requests, schedule, said, OK + bulk(600 * b"A") + 3 * OK)


def named_twice():
    said = (
        "call 0 0 send 1048576:5 store 3145728:600\n"
        "call 0 1 send 1049088:10 3145728:600 1049098:8 3145728:600 1049106:7\n"
        "held 0 1\n"
    )
    replies = OK + b"*3\r\n" + 2 * bulk(600 * b"A") + b"$-1\r\n"
    return Row([SET_K, (b"MGET", b"k", b"k", b"x")], lines(2, "call 0"), said, replies)


def appended():
    """The fragment that is not full goes to new buffers, and the reply to the first GET has the old one."""
    requests = [(b"SET", b"k", 4090 * b"A"), GET_K, (b"APPEND", b"k", 10 * b"B"), GET_K]
    schedule = lines(4, "call 0") + lines(4, "gather 0") + lines(2, "reap 0")
    said = (
        "call 0 0 send 1048576:5 store 3145728:4090\n"
        "call 0 1 send 1049088:7 3145728:4090 1049095:2\n"
        "call 0 2 send 1049600:7 store 3149824:4096 1114112:4\n"
        "call 0 3 send 1050112:7 3149824:4096 1050119:6\n"
        "gather 0 0 5\ngather 0 1 4099\ngather 0 2 7\ngather 0 3 4109\n"
        "reap 0 0 0\nreap 0 1 1\n"
        "held 1 1\n"
    )
    value = 4090 * b"A"
    return Row(requests, schedule, said, OK + bulk(value) + b":4100\r\n" + bulk(value + 10 * b"B"))


def many_short_values(refused, reaped, **sizes):
    """64 values of 511 bytes in one reply, which is 33,221 bytes in 65 buffers of the stage, the last of 453 bytes.
    It may need 66 buffers, of which 64 are free, and 1,154 descriptors, of which so many are free as the ring
    allows. So many replies as that takes are reaped, and their buffers come first."""
    keys = [b"k%02d" % number for number in range(64)]
    requests = [(b"SET", key, 511 * b"v") for key in keys] + [(b"MGET", *keys)]
    schedule = lines(65, "call 0") + lines(64, "gather 0") + "call 0\n"
    sets = [f"call 0 {n} send {FIRST + SMALL * n}:5 store {OWN + SMALL * n}:511\n" for n in range(64)]
    *full, last = [*range(reaped), *range(64, 129 - reaped)]
    gets = "".join(f" {FIRST + SMALL * n}:512" for n in full) + f" {FIRST + SMALL * last}:453\n"
    gathers = "".join(f"gather 0 {n} 5\n" for n in range(64))
    said = f"{''.join(sets)}call 0 {refused}\n{gathers}call 0 64 reaped {reaped} send{gets}held 64 0\n"
    return Row(requests, schedule, said, 64 * OK + b"*64\r\n" + 64 * bulk(511 * b"v"), **sizes)


def stage_that_is_full():
    """129 replies of one buffer each: the last has none."""
    said = "".join(f"call 0 {n} send {FIRST + SMALL * n}:7\n" for n in range(128)) + "call 0 stage 1 0\nheld 0 0\n"
    return Row(129 * [(b"PING",)], lines(129, "call 0"), said, 128 * b"+PONG\r\n")


def ring_that_is_full():
    """One descriptor of a SET and six of each GET: 127 of 1,159 are taken, and the MGET may need 1,154."""
    value = 16384 * b"A"
    requests = [(b"SET", b"k", value), *21 * [GET_K], (b"MGET", *64 * [b"k"])]
    stored = "".join(f" {LARGES + LARGE * n}:4096" for n in range(4))
    gets = (f"call 0 {n} send {FIRST + SMALL * n}:8{stored} {FIRST + SMALL * n + 8}:2\n" for n in range(1, 22))
    said = f"call 0 0 send 1048576:5 store{stored}\n" + "".join(gets) + "call 0 ring 1154 1032\nheld 0 4\n"
    return Row(requests, lines(23, "call 0"), said, OK + 21 * bulk(value))


def wire_that_fails():
    """The third put, of 512 bytes of the stored value, fails and keeps a half of them; each frame is still
    completed."""
    schedule = lines(3, "call 0") + lines(3, "gather 0") + lines(3, "reap 0")
    said = (
        SET_AND_GET + "call 0 2 send 1049600:7\n"
        "gather 0 0 5\ngather 0 1 dropped 608\ngather 0 2 dropped 7\n"
        "reap 0 0 0\nreap 0 1 0\nreap 0 2 0\n"
        "held 0 1\n"
    )
    return Row([SET_K, GET_K, (b"PING",)], schedule, said, OK + b"$600\r\n" + 256 * b"A", 5, ((2,),))


def given_over():
    """A SET that answers the old value hands its buffer to the reply."""
    schedule = lines(2, "call 0") + lines(2, "gather 0") + lines(2, "reap 0")
    said = (
        "call 0 0 send 1048576:5 store 3145728:600\n"
        "call 0 1 send 1049088:6 3145728:600 1049094:2 store 3149824:600\n"
        "gather 0 0 5\ngather 0 1 608\nreap 0 0 0\nreap 0 1 1\n"
        "held 0 1\n"
    )
    return Row([SET_K, (b"SET", b"k", 600 * b"B", b"GET")], schedule, said, OK + bulk(600 * b"A"))


def four_buffers_and_a_byte():
    said = (
        "call 0 0 send 1048576:5 store 3145728:4096 3149824:4096 3153920:4096 3158016:4096 1114112:1\n"
        "call 0 1 send 1049088:8 3145728:4096 3149824:4096 3153920:4096 3158016:4096 1049096:3\n"
        "held 1 4\n"
    )
    value = 16385 * b"A"
    return Row([(b"SET", b"k", value), GET_K], lines(2, "call 0"), said, OK + bulk(value))


def one_byte_from_where_it_lies():
    said = "call 0 0 send 1048576:5 store 1114112:1\ncall 0 1 send 1049088:4 1114112:1 1049092:2\nheld 1 0\n"
    return Row([(b"SET", b"a", b"x"), (b"GET", b"a")], lines(2, "call 0"), said, OK + bulk(b"x"), threshold=1)


def range_within_fragments():
    said = (
        "call 0 0 send 1048576:5 store 3145728:4096 3149824:904\n"
        "call 0 1 send 1049088:7 3145828:3996 3149824:904 1049095:2\n"
        "held 0 2\n"
    )
    requests = [(b"SET", b"k", 5000 * b"A"), (b"GETRANGE", b"k", b"100", b"4999")]
    return Row(requests, lines(2, "call 0"), said, OK + bulk(4900 * b"A"))


def nothing_appended():
    """It is done, and what is stored is what was."""
    said = "call 0 0 send 1048576:5 store 3145728:600\ncall 0 1 send 1049088:6 store 3145728:600\nheld 0 1\n"
    return Row([SET_K, (b"APPEND", b"k", b"")], lines(2, "call 0"), said, OK + b":600\r\n")


def end_and_nothing_left():
    said = (
        "call 0 0 send 1048576:7\n"
        "gather 0 0 7\ngather 0 empty\nreap 0 0 0\nreap 0 none\n"
        "call 0 end\ncall 0 end\nheld 0 0\n"
    )
    schedule = "call 0\ngather 0\ngather 0\nreap 0\nreap 0\ncall 0\ncall 0"
    return Row([(b"PING",)], schedule, said, b"+PONG\r\n")


def nothing_asked():
    return Row([(b"PING",)], "", "held 0 0\n", b"")


ROWS = {
    "511, 512 and 513 bytes": three_lengths(),
    "a value and its reply": Row([SET_K, GET_K], lines(2, "call 0"), SET_AND_GET + "held 0 1\n", OK + bulk(600 * b"A")),
    "a buffer that a reply holds": held_by_a_reply(),
    "a buffer that a reply names twice": named_twice(),
    "bytes behind a value": appended(),
    "no bytes behind a value": nothing_appended(),
    "64 short values in one reply": many_short_values("ring 1154 1095", 59),
    "64 short values in one reply, and a large ring": many_short_values("stage 66 64", 2, ring=4096),
    "a stage that is full": stage_that_is_full(),
    "a ring that is full": ring_that_is_full(),
    "a wire that fails": wire_that_fails(),
    "an old value that is answered": given_over(),
    "four large buffers and a byte": four_buffers_and_a_byte(),
    "a byte that is sent from where it lies": one_byte_from_where_it_lies(),
    "a range within fragments": range_within_fragments(),
    "an input that has ended, and nothing left": end_and_nothing_left(),
    "a schedule of no lines": nothing_asked(),
}

PING = request(b"PING")
ENDS = {
    b"": CLEAN,
    PING: CLEAN,
    b"*0\r\n*-1\r\n" + PING: CLEAN,
    **{PING + PING[:size]: CUT for size in range(1, len(PING))},
    b"*1\r\n$01\r\n": BAD_LENGTH,
    b"*1\r\n$-1\r\n": BAD_LENGTH,
    b"*1\r\n$1048577\r\n": BAD_LENGTH,
    PING[:-2] + b"X": BAD_LENGTH,
    b"*1025\r\n": BAD_COUNT,
    b"*-2\r\n": BAD_COUNT,
    b"*1\n": BAD_COUNT,
    b"*1\r\n+OK\r\n": NO_BULK,
    b"PING\r\n": INLINE,
    PING + b"PING\r\n": INLINE,
}
