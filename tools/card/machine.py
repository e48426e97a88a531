"""QEMU's models of Intel cards, driven by its test protocol: no guest runs, and no kernel.

What a card sends goes to a pair of connected sockets, a frame with its length before it. Nothing else is opened."""

import base64
import os
import select
import shutil
import socket
import struct
import subprocess
import tempfile
import time

PROGRAM = "qemu-system-x86_64"
NAMES = {"e1000": 0x100E8086, "e1000e": 0x10D38086}  # the models, and what the first word of their configuration is
TCTL, TDBAL, TDBAH, TDLEN, TDH, TDT = 0x400, 0x3800, 0x3804, 0x3808, 0x3810, 0x3818
ENABLED = 2  # the bit of TCTL that lets a card send
MEGABYTES = 256
BARS = 0xE1000000  # where the cards' registers are mapped, 128 KiB for each
FIRST_SLOT = 3
PATIENCE = 10  # seconds: an answer, or the rest of a frame, comes in that time on a busy machine too
TURNS = 20  # QEMU sends a frame while it answers, or where the socket was full at one of its next turns


def is_there():
    return shutil.which(PROGRAM) is not None


class Silent(Exception):
    """QEMU didn't start, or doesn't answer."""


class Machine:
    """A machine with some cards of one model."""

    def __init__(self, model, cards):
        self.folder = tempfile.mkdtemp(prefix="card")
        self.control, self.sockets, self.process = None, [], None
        try:
            self.start(model, cards)
        except BaseException:
            self.end()
            raise

    def __enter__(self):
        return self

    def __exit__(self, *_):
        self.end()

    def start(self, model, cards):
        pairs = [socket.socketpair() for _ in range(cards)]
        self.sockets = [ours for ours, _ in pairs]
        with socket.socket(socket.AF_UNIX) as listening:
            listening.bind(self.path("qtest"))
            listening.listen(1)
            listening.settimeout(PATIENCE)
            with open(self.path("errors"), "wb") as errors:
                self.process = subprocess.Popen(
                    self.words(model, [its.fileno() for _, its in pairs]),
                    stdin=subprocess.DEVNULL,
                    stdout=subprocess.DEVNULL,
                    stderr=errors,
                    pass_fds=[its.fileno() for _, its in pairs],
                )
            for _, its in pairs:
                its.close()
            try:
                self.control = listening.accept()[0]
            except socket.timeout:
                raise Silent(f"{PROGRAM} didn't connect: {self.errors()}") from None
        self.control.settimeout(PATIENCE)
        self.answers = self.control.makefile("rb")
        for card in range(cards):
            self.map_registers(card, NAMES[model])

    def path(self, name):
        return os.path.join(self.folder, name)

    def words(self, model, numbers):
        """The command. A processor that is stopped lets no frame out, so it runs, and its whole program halts: 64 KiB
        of HLT, with CLI and a jump back where it begins."""
        with open(self.path("halt"), "wb") as halt:
            halt.write(b"\xf4" * 65_520 + b"\xfa\xf4\xeb\xfd" + b"\xf4" * 12)
        words = [PROGRAM, "-M", "q35", "-accel", "tcg", "-bios", self.path("halt"), "-m", str(MEGABYTES)]
        words += ["-nodefaults", "-display", "none", "-vga", "none", "-monitor", "none", "-serial", "none"]
        words += ["-qtest", f"unix:{self.path('qtest')}", "-qtest-log", "none"]
        for card, number in enumerate(numbers):
            device = f"{model},netdev=wire{card},addr={FIRST_SLOT + card:#x},romfile="
            words += ["-netdev", f"socket,id=wire{card},fd={number}", "-device", device]
        return words

    def errors(self):
        with open(self.path("errors"), "rb") as it:
            return it.read()[-300:].decode(errors="replace")

    def map_registers(self, card, name):
        """Maps a card's registers, and lets it read and write memory."""
        place = 0x80000000 | (FIRST_SLOT + card) << 11
        self.ask(f"outl 0xcf8 {place:#x}")
        found = int(self.ask("inl 0xcfc"), 16)
        if found != name:
            raise Silent(f"a card is {found:#x}, and {name:#x} is wanted")
        for register, value in ((0x10, BARS + (card << 17)), (4, 6)):
            self.ask(f"outl 0xcf8 {place | register:#x}")
            self.ask(f"outl 0xcfc {value:#x}")

    def ask(self, line):
        """What QEMU answers, once it has done all that the line leads to."""
        self.control.sendall(line.encode() + b"\n")
        try:
            answer = self.answers.readline().decode().split()
            while answer[:1] == ["IRQ"]:
                answer = self.answers.readline().decode().split()
        except socket.timeout:
            answer = []
        if answer[:1] != ["OK"]:
            raise Silent(f"{line[:60]}: {answer} {self.errors()}")
        return answer[1] if answer[1:] else ""

    def put(self, address, some):
        if some:
            self.ask(f"b64write {address:#x} {len(some):#x} {base64.b64encode(some).decode()}")

    def get(self, address, length):
        return base64.b64decode(self.ask(f"b64read {address:#x} {length:#x}"))

    def set(self, card, register, value):
        self.ask(f"writel {BARS + (card << 17) + register:#x} {value:#x}")

    def read(self, card, register):
        return int(self.ask(f"readl {BARS + (card << 17) + register:#x}"), 16)

    def has_more(self, card, seconds=0.0):
        """Whether the card has sent something that wasn't taken."""
        return bool(select.select([self.sockets[card]], [], [], seconds)[0])

    def frame(self, card):
        """The next frame that the card has sent, or None."""
        turns = 0
        while not self.has_more(card):
            if turns == TURNS:
                return None
            self.read(card, TDH)
            turns += 1
        return self.received(card, struct.unpack(">I", self.received(card, 4))[0])

    def received(self, card, count):
        pieces, ends = [], time.monotonic() + PATIENCE
        while count > 0:
            piece = self.sockets[card].recv(count) if self.has_more(card, max(0, ends - time.monotonic())) else b""
            if not piece:
                raise Silent("a frame wasn't sent whole")
            pieces.append(piece)
            count -= len(piece)
        return b"".join(pieces)

    def end(self):
        for it in [self.control, *self.sockets]:
            if it:
                it.close()
        if self.process:
            self.process.kill()
            self.process.wait()
        shutil.rmtree(self.folder, ignore_errors=True)
