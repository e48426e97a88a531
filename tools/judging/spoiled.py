"""A server that answers wrongly, for checks: it stands before a right one, and spoils the replies that it is given
to."""

import socket
import threading

from judging.resp import read_replies, read_requests
from judging.server import address_of


def flip_a_bit(text):
    """A reply with one bit of its last byte before the line's end turned."""
    return text[:-3] + bytes([text[-3] ^ 1]) + text[-2:]


class Pair:
    """A client's connection and that to the right server. `requests` are those that wait for their replies."""

    def __init__(self, server, client):
        self.server, self.client = server, client
        self.right = socket.create_connection(server.right)
        self.requests, self.unread, self.held, self.lock = [], b"", b"", threading.Lock()
        server.names[address_of(self.right)] = "%s:%d" % client.getpeername()
        self.start(client, self.right, self.take_requests)
        self.start(self.right, client, self.take_replies)

    @staticmethod
    def start(source, target, take):
        threading.Thread(target=pump, args=(source, target, take), daemon=True).start()

    def take_requests(self, piece):
        with self.lock:
            self.unread += piece
            read, at = read_requests(self.unread)
            self.requests += [it.words for it in read]
            self.unread = self.unread[at:]
        return piece

    def take_replies(self, piece):
        """Returns what goes to the client: whole replies, spoiled or not, and MONITOR's lines with its clients' own
        addresses."""
        self.held += piece
        replies, at = read_replies(self.held, len(self.held))
        texts = [self.held[it.start : it.end] for it in replies]
        self.held = self.held[at:]
        with self.lock:
            asked, self.requests = self.requests[: len(texts)], self.requests[len(texts) :]
        if len(asked) < len(texts):
            return self.renamed(b"".join(texts))
        return b"".join(self.server.spoil(list(zip(asked, texts))))

    def renamed(self, text):
        for there, here in list(self.server.names.items()):
            text = text.replace(b" %b]" % there.encode(), b" %b]" % here.encode())
        return text


def pump(source, target, take):
    try:
        while piece := source.recv(1 << 16):
            target.sendall(take(piece))
        target.shutdown(socket.SHUT_WR)
    except OSError:
        pass


class Spoiled:
    """Listens on a free port. `spoil` gets the requests and the replies that came at once, and returns the replies that
    are handed on."""

    def __init__(self, right, spoil):
        self.right, self.spoil, self.names = right, spoil, {}
        self.listener = socket.create_server(("127.0.0.1", 0))
        threading.Thread(target=self.accept, daemon=True).start()

    @property
    def port(self):
        return self.listener.getsockname()[1]

    def accept(self):
        while True:
            try:
                client, _ = self.listener.accept()
            except OSError:
                return
            Pair(self, client)

    def close(self):
        self.listener.close()


def change(wanted, how):
    """Spoils the reply to a request with these words."""
    return lambda both: [how(text) if words == wanted else text for words, text in both]


def swap(wanted):
    """Hands the reply to the request with these words on behind that to the next one."""

    def spoil(both):
        texts = [text for _, text in both]
        place = next((n for n, (words, _) in enumerate(both[:-1]) if words == wanted), None)
        if place is not None:
            texts[place : place + 2] = texts[place + 1], texts[place]
        return texts

    return spoil
