"""The word `workload SEED COUNT`, as docs/SCRIPT.md has it: commands that follow from a number, and their counts."""

from typing import Iterator, Optional

from . import reports
from .form import Image
from .machine import Machine, opens
from .script import DONE, Outcome, does

WORDS = ("appended", "replied", "wrote", "released")
# At most this many blocks of a workload are live; one more releases the first.
LIVE = 8


class Draws:
    """The generator: each draw gives a body."""

    def __init__(self, seed: int):
        self.x = seed % 2**31

    def body(self) -> bytes:
        self.x = (self.x * 1103515245 + 12345) % 2**31
        return bytes([self.x % 256]) * (self.x // 65536 % 2048)


def number_of(value: int) -> bytes:
    return value.to_bytes(8, "little")


def commands(seed: int, count: int, clients: int) -> Iterator[tuple]:
    """The commands in order. What each was answered is sent back, as its words."""
    draws, c, held, running = Draws(seed), min(4, clients), [], False
    for k in range(1, count + 1):
        yield ("append", (k - 1) % c + 1, (k - 1) // c + 1, draws.body())
        if k % c == 0 or k == count:
            for op in range(k - (k - 1) % c, k + 1):
                yield ("reply", op, number_of(op))
        if running:
            running = (yield ("step",))[0] != "done"
        if k % 4 == 0:
            answered = yield ("block", 1, draws.body())
            held += [int(answered[1])] if answered[0] == "wrote" else []
            if len(held) > LIVE:
                yield ("release", held.pop(0))
        if k % 16 == 0:
            running = (yield ("checkpoint", number_of(k)))[0] == "begun" or running
    while running:
        running = (yield ("step",))[0] != "done"


def work(data: Optional[bytes], seed: int, count: int) -> Outcome:
    """Opens, executes the commands, and prints the counts."""
    data, found, refused = reports.opened(data)
    if refused:
        return refused
    machine = Machine(found, Image(data))
    events, spans = opens(found, machine), [(found.view, 0, 0)]
    lines = counted(machine, seed, count, events, spans)
    return Outcome(data, DONE, events + reports.told(lines), spans, machine)


def counted(machine: Machine, seed: int, count: int, events: list, spans: list) -> list:
    """Executes the commands, whose events and views are added, and gives the lines of the counts."""
    counts = dict.fromkeys((*WORDS, "done", "refused", "bytes"), 0)
    made, answered = commands(seed, count, machine.layout.clients), None
    while True:
        try:
            command = made.send(answered)
        except StopIteration:
            break
        does(machine, command, events, spans)
        # Its answer comes last, and isn't printed.
        answered = events.pop().data.decode().split()
        if answered[0] in counts:
            counts[answered[0]] += 1
        if answered[0] == "appended":
            counts["bytes"] += len(command[3])
    names = {"done": "checkpoints"}
    listed = [f"{names.get(name, name)} {counts[name]}" for name in counts]
    return [*listed, f"head {machine.head()}", f"replies {machine.replies}", f"sequence {machine.durable.sequence}"]
