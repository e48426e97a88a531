"""Connections to a run of the program: each is a session, whose requests go into a pipe that the run reads and whose
replies come out of one that it writes. The run answers whatever has come when its input pauses."""

import contextlib
import os
import select
import socket
import threading
import time

from judging.resp import protocol_error, read_replies, read_requests
from judging.taps import Taps

MOST_SESSIONS = 16
PIECE = 1 << 16
REFUSAL = b"-ERR max number of clients reached: a run has at most 16 connections\r\n"
BROKEN = b"ERR Protocol error"


class Pipes:
    """The pipes of a session, in a folder of their own."""

    def __init__(self, folder, number):
        self.input, self.output = os.path.join(folder, f"in{number}"), os.path.join(folder, f"out{number}.resp")
        os.mkfifo(self.input)
        os.mkfifo(self.output)
        self.replies, self.requests = os.open(self.output, os.O_RDONLY | os.O_NONBLOCK), None

    def open_requests(self, run):
        """Opens the end into which requests go once the run reads there; returns whether it does."""
        while self.requests is None and run.poll() is None:
            try:
                self.requests = os.open(self.input, os.O_WRONLY | os.O_NONBLOCK)
            except OSError:
                time.sleep(0.02)
        if self.requests is not None:
            os.set_blocking(self.requests, True)
        return self.requests is not None

    def put(self, piece):
        with contextlib.suppress(OSError):  # (a session that has ended takes no more)
            while piece:
                piece = piece[os.write(self.requests, piece) :]

    def end_requests(self):
        if self.requests is not None:
            os.close(self.requests)
            self.requests = None

    def replies_come(self):
        """Yields what the run writes, until it has ended."""
        waits = select.poll()
        waits.register(self.replies, select.POLLIN)
        while True:
            waits.poll()
            piece = os.read(self.replies, PIECE)
            if not piece:
                return
            yield piece


class Count:
    """How many requests were sent and how many replies came, and whether one of these says that the session has
    ended."""

    def __init__(self):
        self.requests = self.replies = 0
        self.sent = self.answered = b""
        self.has_ended = self.is_broken = False
        self.lock = threading.Lock()

    def send(self, piece):
        with self.lock:
            self.sent += piece
            read, at = read_requests(self.sent)
            self.requests, self.sent = self.requests + len(read), self.sent[at:]

    def end(self):
        with self.lock:
            self.has_ended = True
            self.requests += protocol_error(self.sent, 0) is not None

    def answer(self, piece):
        with self.lock:
            self.answered += piece
            read, at = read_replies(self.answered, len(self.answered))
            self.replies, self.answered = self.replies + len(read), self.answered[at:]
            self.is_broken = bool(read) and read[-1].is_error and read[-1].line.startswith(BROKEN)

    def is_over(self):
        with self.lock:
            return self.is_broken or (self.has_ended and self.replies >= self.requests)


class Session:
    """A client and its pipes. What passes is kept where `taps` are given."""

    def __init__(self, client, pipes, taps):
        self.client, self.pipes, self.taps, self.count = client, pipes, taps, Count()
        self.is_asked_to_end = False
        self.answering = threading.Thread(target=self.answer, daemon=True)
        self.answering.start()

    def take(self, piece):
        """Hands requests on, from the first piece to the client's end."""
        while piece:
            if self.taps:
                self.taps.requests.take(piece)
            self.count.send(piece)
            self.pipes.put(piece)
            piece = receive(self.client)
        self.count.end()
        if self.taps and not self.count.is_broken and not self.is_asked_to_end:
            self.taps.ended_by = "client"
        self.pipes.end_requests()
        self.leave_where_over()

    def answer(self):
        for piece in self.pipes.replies_come():
            if self.taps:
                self.taps.replies.take(piece)
            self.count.answer(piece)
            with contextlib.suppress(OSError):  # (a client that has left gets no more)
                self.client.sendall(piece)
            if self.count.is_broken and self.taps:
                self.taps.ended_by = "server"
            self.leave_where_over()
        self.leave()

    def leave_where_over(self):
        if self.count.is_over():
            self.leave()

    def leave(self):
        with contextlib.suppress(OSError):
            self.client.shutdown(socket.SHUT_RDWR)

    def end(self):
        """Takes no more requests."""
        self.is_asked_to_end = True
        with contextlib.suppress(OSError):
            self.client.shutdown(socket.SHUT_RD)


def receive(client):
    try:
        return client.recv(PIECE)
    except OSError:
        return b""


class Bridge:
    """Gives each client that sends anything the next session of a run."""

    def __init__(self, all_pipes, folder, say):
        self.all_pipes, self.folder, self.say = all_pipes, folder, say
        self.sessions, self.lock, self.has_refused, self.is_closed = [], threading.Lock(), False, False

    def serve(self, client):
        """Serves a client to its end, on a thread of its own."""
        client.setsockopt(socket.IPPROTO_TCP, socket.TCP_NODELAY, 1)
        piece = receive(client)
        session = self.next_session(client) if piece else None
        if session:
            session.take(piece)
        elif piece:
            self.refuse(client)
        session and session.answering.join()
        client.close()

    def next_session(self, client):
        with self.lock:
            number = len(self.sessions)
            if number == len(self.all_pipes) or self.is_closed:
                return None
            taps = Taps(self.folder, number, "%s:%d" % client.getpeername()) if self.folder else None
            self.sessions.append(Session(client, self.all_pipes[number], taps))
            return self.sessions[-1]

    def refuse(self, client):
        with self.lock:
            says = not self.has_refused and not self.is_closed
            self.has_refused = True
        if says:
            most = len(self.all_pipes)
            self.say(f"connection {most + 1} was refused: a run has at most {most}, all in all")
        with contextlib.suppress(OSError):
            client.sendall(REFUSAL)

    def end(self):
        """Ends all sessions, and those that nobody used."""
        with self.lock:
            self.is_closed = True
        for session in self.sessions:
            session.end()
        for pipes in self.all_pipes[len(self.sessions) :]:
            pipes.end_requests()
