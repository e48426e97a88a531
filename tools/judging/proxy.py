"""A proxy between clients and a server: it hands on all bytes as they come, and keeps them."""

import selectors
import socket
import time

from judging.server import address_of
from judging.taps import Taps

MOST_SESSIONS = 16
MOST_PENDING = 1 << 22  # bytes that wait to be handed on
PIECE = 1 << 18
REFUSAL = b"-ERR max number of clients reached: a recording has at most 16 connections\r\n"
TURN = 0.1  # seconds until the loop looks whether it is to end
LAST_REPLIES = 2  # seconds that a server has for them at the end
LAST_CLIENTS = 0.3  # seconds behind the last client's end


class Flow:
    """One direction of a connection: what waits to be handed on, and whether its source has ended."""

    def __init__(self, source, target):
        self.source, self.target = source, target
        self.pending, self.has_ended, self.is_shut = bytearray(), False, False

    def read(self):
        """Returns what has come; the source's end is noted."""
        try:
            piece = self.source.recv(PIECE)
        except (BlockingIOError, InterruptedError):
            return b""
        except OSError:
            piece = b""
        self.has_ended = self.has_ended or not piece
        self.pending += piece
        return piece

    def write(self):
        """Hands on what the target takes, and the end behind it. A target that is gone loses what is left."""
        try:
            if self.pending:
                del self.pending[: self.target.send(self.pending)]
        except (BlockingIOError, InterruptedError):
            return
        except OSError:
            self.pending.clear()
        if self.has_ended and not self.pending and not self.is_shut:
            self.is_shut = True
            try:
                self.target.shutdown(socket.SHUT_WR)
            except OSError:
                pass


class Connection:
    """A client and its connection to the server. It is a session once its client sends anything."""

    def __init__(self, client, server):
        self.client, self.server, self.taps = client, server, None
        for end in (client, server):
            end.setblocking(False)
        self.requests, self.replies = Flow(client, server), Flow(server, client)

    def take_requests(self, proxy):
        piece = self.requests.read()
        if piece and not self.taps:
            self.taps = proxy.new_taps(address_of(self.server))
        if piece:
            self.taps.requests.take(piece)
        if self.requests.has_ended and self.taps and not self.replies.has_ended:
            self.taps.ended_by = "client"
        self.requests.write()

    def take_replies(self):
        piece = self.replies.read()
        if piece and self.taps:
            self.taps.replies.take(piece)
        if self.replies.has_ended and self.taps and not self.requests.has_ended:
            self.taps.ended_by = "server"
        self.replies.write()

    def is_over(self):
        return self.replies.has_ended and not self.replies.pending

    def wants(self, end):
        """The events for which one of its ends is to be waited for."""
        out, back = (self.requests, self.replies) if end is self.client else (self.replies, self.requests)
        reads = not out.has_ended and len(out.pending) < MOST_PENDING
        return (selectors.EVENT_READ if reads else 0) | (selectors.EVENT_WRITE if back.pending else 0)

    def close(self):
        self.client.close()
        self.server.close()


class Proxy:
    """Listens, connects each client to the server, and keeps what both send."""

    def __init__(self, listener, address, folder, say):
        self.listener, self.address, self.folder, self.say = listener, address, folder, say
        self.selector = selectors.DefaultSelector()
        self.open, self.all_taps, self.refused = [], [], 0
        self.is_asked_to_end, self.last_left = False, None
        listener.setblocking(False)
        self.selector.register(listener, selectors.EVENT_READ, self.accept)

    def listen_to(self, hearing):
        self.selector.register(hearing.socket, selectors.EVENT_READ, lambda _: self.hear(hearing))

    def hear(self, hearing):
        hearing.hear()
        if hearing.has_ended:
            self.selector.unregister(hearing.socket)

    def new_taps(self, address):
        self.all_taps.append(Taps(self.folder, len(self.all_taps), address))
        return self.all_taps[-1]

    def accept(self, _):
        client, _ = self.listener.accept()
        if len(self.all_taps) + sum(not it.taps for it in self.open) >= MOST_SESSIONS:
            self.refuse(client)
            return
        client.setsockopt(socket.IPPROTO_TCP, socket.TCP_NODELAY, 1)
        try:
            server = self.address.connect()
        except OSError as it:
            self.say(f"a client came, and {self.address.text} can't be reached: {it.strerror or it}")
            client.close()
            return
        connection = Connection(client, server)
        self.open.append(connection)
        for end in (client, server):
            self.selector.register(end, selectors.EVENT_READ, connection)

    def refuse(self, client):
        if not self.refused:
            self.say("a 17th connection was refused: a recording has at most 16, all in all; use fewer clients")
        self.refused += 1
        try:
            client.sendall(REFUSAL)
        except OSError:
            pass
        client.close()

    def step(self, connection, end, events):
        """Hands on what one end of a connection is ready for."""
        if events & selectors.EVENT_READ:
            connection.take_requests(self) if end is connection.client else connection.take_replies()
        if events & selectors.EVENT_WRITE:
            (connection.replies if end is connection.client else connection.requests).write()
        if connection.is_over():
            self.leave(connection)
        else:
            self.wait_for(connection)

    def wait_for(self, connection):
        for end in (connection.client, connection.server):
            wants, waits = connection.wants(end), end in self.selector.get_map()
            if wants and waits:
                self.selector.modify(end, wants, connection)
            elif wants:
                self.selector.register(end, wants, connection)
            elif waits:
                self.selector.unregister(end)

    def leave(self, connection):
        for end in (connection.client, connection.server):
            if end in self.selector.get_map():
                self.selector.unregister(end)
        connection.close()
        if connection.taps:
            connection.taps.close()
        self.open.remove(connection)
        self.last_left = time.monotonic()

    def turn(self):
        """Does what there is to do, or waits a little."""
        for key, events in self.selector.select(TURN):
            if not isinstance(key.data, Connection):
                key.data(events)
            elif key.data in self.open:
                self.step(key.data, key.fileobj, events)

    def is_idle(self, seconds):
        """Whether all clients have left, so long ago."""
        left = not self.open and self.last_left is not None and self.all_taps
        return seconds is not None and left and time.monotonic() - self.last_left >= seconds

    def run(self, idle, has_ended):
        """Goes on until it is asked to end, or until nobody came for so many seconds, or a little while after clients
        have ended, where `has_ended` knows."""
        while not self.is_asked_to_end and not self.is_idle(idle):
            if has_ended() and (not self.open and not self.all_taps or self.is_idle(LAST_CLIENTS)):
                break
            self.turn()
        self.end()

    def end(self):
        """Takes no more requests, and waits a little for the last replies."""
        self.selector.unregister(self.listener)
        self.listener.close()
        for connection in self.open:
            connection.requests.has_ended = True
            connection.requests.write()
        deadline = time.monotonic() + LAST_REPLIES
        while self.open and time.monotonic() < deadline:
            for connection in list(self.open):
                self.wait_for(connection)
            self.turn()
        for connection in list(self.open):
            self.leave(connection)
