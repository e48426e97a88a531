"""Of what a reply is made: bytes of a stage, and stored bytes where they lie. It shares nothing with the server."""

from plain.pool import SMALL
from plain.requests import fault_of, options_of


class Need:
    """How many descriptors and how many buffers of the stage must be free before a command is called."""

    def __init__(self, descriptors, stage):
        self.descriptors, self.stage = descriptors, stage


def buffers(size):
    return -(-size // SMALL)


def need_of(words):
    """The need of a command, or of an error, which is a text."""
    if isinstance(words, str) or fault_of(words):
        return Need(1, 1)
    name = words[0].upper()
    if name == b"GET" or name == b"SET" and b"GET" in options_of(words[3:]):
        return Need(19, 2)
    if name == b"MGET":
        count = len(words) - 1
        stage = buffers(len(b"*%d\r\n" % count) + 521 * count)
        return Need(16 * count + (count + 1) + (stage - 1), stage)
    if name == b"GETRANGE":
        return Need(20, 3)
    if name == b"PING" and words[1:]:
        stage = buffers(len(b"$%d\r\n\r\n" % len(words[1])) + len(words[1]))
        return Need(stage, stage)
    return Need(1, 1)


class Layout:
    """Takes a reply from its front to its end. Short bytes go into the buffers of a stage, one after another, and of a
    piece of at least so many bytes, the threshold, it holds the stored buffer."""

    def __init__(self, pool, stage, threshold):
        self.pool, self.stage, self.threshold = pool, stage, threshold
        self.copied = 0
        self.segments, self.held, self.texts = [], [], []
        self.goes_on = False  # whether the last segment can grow

    def copy(self, some):
        """Copies bytes behind those that were copied last; each buffer, and each break by a stored piece, ends a
        segment."""
        self.texts.append(some)
        while some:
            buffer, used = self.stage[self.copied // SMALL], self.copied % SMALL
            fit = some[: SMALL - used]
            self.pool.filled[buffer] = self.pool.filled.get(buffer, b"")[:used] + fit
            if self.goes_on and used > 0:
                address, length = self.segments.pop()
                self.segments.append((address, length + len(fit)))
            else:
                self.segments.append((self.pool.address(buffer) + used, len(fit)))
            self.copied, some, self.goes_on = self.copied + len(fit), some[len(fit) :], True

    def take(self, piece):
        """Takes stored bytes. A piece that was given away by the store is the reply's now, or nobody's."""
        bytes_of_piece = self.pool.filled[piece.buffer][piece.first : piece.first + piece.size]
        if piece.size < self.threshold:
            self.copy(bytes_of_piece)
            if piece.is_given:
                self.pool.unpin(piece.buffer)
            return
        if not piece.is_given:
            self.pool.pin(piece.buffer)
        self.held.append(piece.buffer)
        self.segments.append((self.pool.address(piece.buffer) + piece.first, piece.size))
        self.texts.append(bytes_of_piece)
        self.goes_on = False

    def used(self):
        """The buffers of the stage that it has filled."""
        return self.stage[: buffers(self.copied)]
