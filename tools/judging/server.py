"""The server that is recorded: where it is, a connection that asks it, and one that hears what MONITOR says."""

import os
import socket
import time

from judging import monitor
from judging.resp import read_reply

PATIENCE = 10  # seconds without anything new


class Address:
    """HOST:PORT, or the path of a socket."""

    def __init__(self, text):
        host, _, port = text.rpartition(":")
        self.text, self.is_path = text, "/" in text or not port.isdigit()
        self.place = text if self.is_path else (host or "127.0.0.1", int(port))

    def connect(self):
        it = socket.socket(socket.AF_UNIX if self.is_path else socket.AF_INET, socket.SOCK_STREAM)
        try:
            it.settimeout(PATIENCE)
            it.connect(self.place)
        except OSError:
            it.close()
            raise
        if not self.is_path:
            it.setsockopt(socket.IPPROTO_TCP, socket.TCP_NODELAY, 1)
        return it


def address_of(it):
    """The address of this end of a connection, as the server sees it. Those of unix sockets have none of their own."""
    name = it.getsockname()
    return f"{name[0]}:{name[1]}" if isinstance(name, tuple) else "unix"


class Asking:
    """A connection of the recorder's own."""

    def __init__(self, address):
        self.socket, self.text = address.connect(), b""

    def send(self, *words):
        text = b"".join(b"$%d\r\n%b\r\n" % (len(word), word) for word in words)
        self.socket.sendall(b"*%d\r\n%b" % (len(words), text))

    def ask(self, *words):
        """Returns the reply to a request."""
        self.send(*words)
        while not (reply := read_reply(self.text, 0)):
            piece = self.socket.recv(65536)
            if not piece:
                raise ConnectionResetError(None, "the server closed the connection")
            self.text += piece
        self.text = self.text[reply.end :]
        return reply

    def close(self):
        self.socket.close()


class Hearing:
    """MONITOR's lines, as they come; they are kept in a file too."""

    def __init__(self, address, path):
        self.asking = Asking(address)
        self.reply = self.asking.ask(b"MONITOR")
        self.file = open(path, "xb")
        self.has_ended = self.reply.is_error
        self.lines, self.rest = [], b""
        self.take(self.asking.text)
        self.asking.socket.setblocking(False)

    @property
    def socket(self):
        return self.asking.socket

    def take(self, piece):
        self.file.write(piece)
        *whole, self.rest = (self.rest + piece).split(b"\r\n")
        self.lines += filter(None, map(monitor.read_line, whole))

    def hear(self):
        """Takes what has come."""
        try:
            piece = self.socket.recv(1 << 20)
        except BlockingIOError:
            return
        except OSError:
            piece = b""
        self.has_ended = self.has_ended or not piece
        self.take(piece)

    def hear_all(self, asking):
        """Has the server run a command that it then shows, behind all that it ran before; returns whether it was
        seen."""
        marker = [b"PING", b"recorded-%s" % os.urandom(8).hex().encode()]
        asking.ask(*marker)
        self.socket.settimeout(0.1)
        came, looked = time.monotonic(), 0
        while not self.has_ended and time.monotonic() - came < PATIENCE:
            if len(self.lines) > looked:
                came = time.monotonic()
            if any(shown.words == marker for shown in self.lines[looked:]):
                return True
            looked = len(self.lines)
            self.hear()
        return False

    def close(self):
        self.file.close()
        self.asking.close()
