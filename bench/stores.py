"""What keeps puts, each a process that is asked in the same way: our programs, and what keeper.py keeps by SQLite, LevelDB, one write or none."""

import os
import time
from random import Random

from asked import Asked
from clients import Requests
from common import Bench, Ground
from tries import objects
from tries.form import Layout

HERE = os.path.dirname(os.path.abspath(__file__))
# The ring of our files is as long as the log of both others: SQLite's is 1,000 pages, LevelDB's 4 MiB.
GROUPS = Layout(1024, 4096, 8, 4096, 8)


def line_of(word: bytes, put: tuple) -> bytes:
    key, value = put
    return b"%s %d %s\n" % (word, key, value.hex().encode())


class Store:
    """What keeps puts in a folder: a process that is asked. Its name, and how many puts become durable at once."""

    def __init__(self, name: str, group: int = 1):
        self.name, self.group, self.count = name, group, 0
        self.session: Asked

    def make(self, bench: Bench, ground: Ground) -> None:
        """Makes what it keeps them in, anew."""

    # Our program, where it is one: a process whose start is a part of its open. And whether something goes with each of its puts or groups.
    program, settles = "", False

    def open(self, folder: str, front=(), first: bytes = b"get 0\n") -> float:
        """Starts the process, under another one perhaps: the seconds until the first line is answered."""
        raise NotImplementedError

    def look(self, keys: list) -> bytes:
        """A line that reads what one of these keys has."""
        return b"get %d\n" % keys[len(keys) // 2]

    def keep(self, puts: list) -> float:
        """The seconds until these puts are durable: one, or a group."""
        raise NotImplementedError

    def settle(self) -> float:
        """The seconds of what goes with the last of them, before the next ones come."""
        return 0.0

    def look_again(self, folder: str) -> None:
        """Looks whether all is there, once the process has ended."""

    def fill(self, puts: list) -> None:
        """Many puts, one by one, whose lines don't wait for the answers of those before."""
        for at in range(0, len(puts), 500):
            self.session.ask(b"".join(line_of(b"put", put) for put in puts[at : at + 500]), len(puts[at : at + 500]))


class Kept(Store):
    """One that keeper.py keeps."""

    def __init__(self, name: str, kind: str, python: str, group: int = 1):
        super().__init__(name, group)
        self.command = [python, os.path.join(HERE, "keeper.py"), kind]

    def open(self, folder: str, front=(), first: bytes = b"get 0\n") -> float:
        self.session, self.count = Asked([*front, *self.command, os.path.join(folder, "kept")]), 0
        _, ready = self.session.ask(b"", 1)
        self.name = self.name.replace("VERSION", ready.split()[1].decode())
        return self.session.ask(b"open\n" + first, 2)[0]

    def keep(self, puts: list) -> float:
        self.count += len(puts)
        if self.group == 1:
            return self.session.want(line_of(b"put", puts[0]), b"put %d\n" % self.count)
        lines = [line_of(b"stage", put) for put in puts]
        answers = [b"staged %d\n" % (self.count - len(puts) + number) for number in range(1, len(puts) + 1)]
        return self.session.want(b"".join([*lines, b"flush\n"]), b"".join([*answers, b"flushed %d\n" % len(puts)]))


class Table(Store):
    """The object table."""

    def __init__(self, program: str, datafile: str, layout: Layout):
        super().__init__("`objecttable`, `put`")
        self.program, self.datafile, self.layout = program, datafile, layout

    def make(self, bench: Bench, ground: Ground) -> None:
        bench.make(ground, self.layout, "kept")

    def open(self, folder: str, front=(), first: bytes = b"get 0\n") -> float:
        start = time.perf_counter()
        self.session, self.count = Asked([*front, self.program, os.path.join(folder, "kept"), "table"]), 0
        self.session.ask(first, 1)
        return time.perf_counter() - start

    def keep(self, puts: list) -> float:
        self.count += 1
        return self.session.want(line_of(b"put", puts[0]), b"put %d\n" % self.count)


class Groups(Store):
    """`stage` and `flush`, of prepares as the object table writes them. What goes with them is a reply to each, and a checkpoint now and then."""

    settles = True

    def __init__(self, program: str, group: int):
        super().__init__("`datafile`, `stage` and `flush`", group)
        self.program = program
        self.requests: Requests

    def make(self, bench: Bench, ground: Ground) -> None:
        bench.make(ground, GROUPS, "kept")

    def open(self, folder: str, front=(), first: bytes = b"prepare 0\n") -> float:
        start = time.perf_counter()
        self.session, self.count = Asked([*front, self.program, os.path.join(folder, "kept"), "run"]), 0
        self.session.ask(first, 1)
        spent = time.perf_counter() - start
        self.requests = Requests(self.session, Random(0), GROUPS.slots)
        return spent

    def look(self, keys: list) -> bytes:
        return b"prepare %d\n" % (len(keys) // 2)

    def fill(self, puts: list) -> None:
        for at in range(0, len(puts), self.group):
            self.keep(puts[at : at + self.group])
            self.settle()

    def keep(self, puts: list) -> float:
        requests, bodies = self.requests, [objects.body_of(("put", *put)) for put in puts]
        answers = requests.answers(b"staged", len(puts)) + b"flushed %d\n" % len(puts)
        return self.session.want(requests.lines(b"stage", bodies) + b"flush\n", answers)

    def settle(self) -> float:
        return self.requests.replied(self.group)


def puts_of(random: Random, count: int, keys: int) -> list:
    """Puts of values of the greatest length, of keys that are drawn from this many."""
    drawn = [random.getrandbits(128) for _ in range(keys)]
    return [(random.choice(drawn), random.randbytes(objects.LONGEST)) for _ in range(count)]
