"""Driven runs, and cards that go through them."""

import os
import subprocess
import tempfile

from card.machine import Machine
from card.run import Run
from card.story import events_of
from plain.driven_rows import request

SECONDS = 20  # for a run


def read(*path):
    with open(os.path.join(*path), "rb") as it:
        return it.read()


class Driven:
    """What the program said of a schedule, what went in, and what each session was answered."""

    def __init__(self, program, schedule, inputs):
        self.inputs = inputs
        with tempfile.TemporaryDirectory() as room:
            names = ["schedule", *(f"in{number}.resp" for number in range(len(inputs)))]
            for name, text in zip(names, (schedule, *inputs)):
                with open(os.path.join(room, name), "wb") as it:
                    it.write(text)
            how = {"cwd": room, "stdin": subprocess.DEVNULL, "stdout": subprocess.PIPE, "timeout": SECONDS}
            self.said = subprocess.run([program, "drive", *names], check=True, **how).stdout
            self.replies = [read(room, f"out{number}.resp") for number in range(len(inputs))]

    def sent_by(self, model, modes, rounds=1, said=None, **wrong):
        """Has cards of the model go through the run in these modes, or through another transcript, or a wrong run."""
        events, sessions = list(events_of(said or self.said, self.inputs, self.replies)), len(self.inputs)
        with Machine(model, sessions) as machine:
            runs = [Run(machine, model, events, sessions, **wrong) for _ in modes]
            for run, mode in zip(runs, modes):
                run.go(mode, rounds)
        return "; ".join(f"{mode} {run}" for run, mode in zip(runs, modes))


def example(program, folder, name):
    return Driven(program, read(folder, f"{name}.schedule"), [read(folder, f"{name}.resp")])


def many_pieces(program, keys):
    """An MGET of so many keys that share a value of 600 bytes: its reply has a piece for each, and one on each side."""
    value = bytes(97 + at % 26 for at in range(600))
    asked = request(b"SET", b"key", value) + request(b"MGET", *keys * [b"key"])
    return Driven(program, b"call 0\ngather 0\ncall 0\ngather 0\nreap 0\nreap 0\n", [asked])
