"""Requests of many puts in one body, which is how a program batches over the log, beside a transaction of SQLite and a batch of LevelDB of as
many. The log is kept alone, and once more with a table that its reader keeps in memory, and writes into blocks at each checkpoint."""

import os
import time

from asked import Asked
from common import Bench, Ground, digits, sectors_of, show, with_quartiles
from puts import calls_of, kept_in_turn, rates_of
from stores import Kept, Store
from tries import objects
from tries.binary import expect
from tries.form import Layout

# How many puts a body has, and how many of them are in a round of each.
SIZES = {1: 64, 8: 64, 32: 32, 126: 16, 1000: 8}
# The ring is as long as the log of both others, as far as its slots allow: SQLite's is 1,000 pages, LevelDB's 4 MiB. Blocks, for the table.
RING, BLOCK, BLOCKS = 2**22, 65536, 64
# This many are counted by strace, after as many.
COUNTED = 32
PAST = objects.KEY + 1


def layout_of(group: int) -> Layout:
    message = sectors_of(objects.ROW * group)
    return Layout(min(1024, RING // message // 16 * 16), message, 1, BLOCK, BLOCKS)


def rows_of(puts: list) -> bytes:
    return b"".join(objects.row_of(*put) for put in puts)


class Batches(Kept):
    """What keeper.py keeps, a line with all rows of a batch after the other."""

    def keep(self, puts: list) -> float:
        self.count += len(puts)
        return self.session.want(b"batch %s\n" % digits(rows_of(puts)), b"kept %d\n" % self.count)


class Log(Store):
    """An append of all rows, then its reply; and a checkpoint where the ring is full."""

    settles = True

    def __init__(self, program: str, group: int, name: str = "`datafile`, the log alone"):
        super().__init__(name, group)
        self.program, self.layout = program, layout_of(group)
        self.reached, self.sequence, self.body = 0, 1, b""

    def make(self, bench: Bench, ground: Ground) -> None:
        bench.make(ground, self.layout, "kept")
        self.reached, self.sequence = 0, 1

    def open(self, folder: str, front=(), first: bytes = b"prepare 0\n") -> float:
        start = time.perf_counter()
        self.session, self.count = Asked([*front, self.program, os.path.join(folder, "kept"), "run"]), 0
        self.session.ask(first, 1)
        return time.perf_counter() - start

    def keep(self, puts: list) -> float:
        self.body = rows_of(puts)
        self.count += 1
        return self.session.want(b"append 1 %d %s\n" % (self.count, digits(self.body)), b"appended %d\n" % self.count)

    def settle(self) -> float:
        start = time.perf_counter()
        self.session.want(b"reply %d -\n" % self.count, b"replied %d\n" % self.count)
        self.apply()
        if self.count == self.reached + self.layout.slots:
            root = self.write()
            self.sequence, self.reached = self.sequence + 1, self.count
            self.session.want(b"checkpoint %s\nstep\nstep\n" % digits(root), b"begun 1\nworking 1\ndone %d\n" % self.sequence)
        return time.perf_counter() - start

    def apply(self) -> None:
        """What the log's reader does with the last body."""

    def write(self) -> bytes:
        """What it writes into blocks before a checkpoint; the root that names them."""
        return b""


class Table(Log):
    """The same, where its reader keeps the rows in memory. They are written into new blocks before each checkpoint, as the object table does
    it, and the old blocks let go; their addresses are the root."""

    def __init__(self, program: str, group: int):
        super().__init__(program, group, "`datafile`, with the table of its reader")
        self.rows, self.held = {}, []

    def make(self, bench: Bench, ground: Ground) -> None:
        super().make(bench, ground)
        self.rows, self.held = {}, []

    def apply(self) -> None:
        apply(self.rows, self.body)

    def write(self) -> bytes:
        data = b"".join(key + bytes([len(value)]) + value.ljust(objects.LONGEST, b"\0") for key, value in sorted(self.rows.items()))
        most = objects.rows_in_block(self.layout) * objects.ROW
        parts = [data[at : at + most] for at in range(0, len(data), most)]
        lines = [b"release %d\n" % address for address in self.held] + [b"block 1 %s\n" % digits(part) for part in parts]
        _, text = self.session.ask(b"".join(lines), len(lines))
        expect("the old blocks", [b"released %d" % address for address in self.held], text.splitlines()[: len(self.held)])
        self.held = [int(line.split()[1]) for line in text.splitlines()[len(self.held) :]]
        return b"".join(address.to_bytes(8, "little") for address in self.held)

    def look_again(self, folder: str) -> None:
        """The blocks, and then the prepares after the checkpoint, give the same rows in a later session."""
        found, ops = {}, range(self.reached + 1, self.count + 1)
        self.open(folder)
        for line in [*(b"read %d\n" % address for address in self.held), *(b"prepare %d\n" % op for op in ops)]:
            apply(found, bytes.fromhex(self.session.ask(line, 1)[1].split()[-1].decode()))
        self.session.end()
        self.session.kill()
        expect("the rows that are found again", self.rows, found)


def apply(rows: dict, body: bytes) -> None:
    """Puts what a body has into a map."""
    for at in range(0, len(body), objects.ROW):
        rows[body[at : at + objects.KEY]] = body[at + PAST : at + PAST + body[at + objects.KEY]]


def stores_of(program: str, python: str, group: int, kinds: list) -> list:
    kept = [("nothing is kept: the loop alone", "nothing"), ("SQLite VERSION", "sqlite"), ("LevelDB VERSION", "leveldb")]
    others = [Batches(name, kind, python, group) for name, kind in kept if kind in kinds]
    return [others[0], Log(program, group), Table(program, group), *others[1:]]


def ahead(rates: dict, which: int) -> str:
    """From which size on one of ours is ahead of all peers, by the medians."""
    sizes = [size for size in rates if all(of[which] > max(of[3:], default=0) for more, of in rates.items() if more >= size)]
    return f"from {min(sizes):,} puts in a body on" if sizes else "at none of these sizes"


def show_batches(bench: Bench, ground: Ground, program: str, python: str, kinds: list) -> None:
    rows, rates, names = [], {}, []
    for group, groups in SIZES.items():
        stores, each = stores_of(program, python, group, kinds), group * groups
        seen = kept_in_turn(bench, ground, stores, group * layout_of(group).slots, each)
        rates[group], names = [], [store.name for store in stores]
        for store, (_, spent) in zip(stores, seen):
            durable, found = sorted(one * 1e6 for one, _ in spent), rates_of(spent, each, group)
            whole = each * bench.rounds / sum(one for _, one in spent)
            rates[group].append(sorted(found)[len(found) // 2])
            rows.append([group, store.name, with_quartiles(durable, 0), f"{durable[len(durable) * 99 // 100]:,.0f}", with_quartiles(found, 0),
                         f"{whole:,.0f}", *calls_of(bench, ground, store, COUNTED)])
    show(f"Batches, {ground.name}, by the clock",
         ["puts in a body", "what keeps them", "us until they are durable", "99th percentile", "puts a second, in all", "of all rounds together",
          "syncs until they are durable", "bytes written until then", "syncs in all"], rows,
         f"{bench.rounds} rounds of {', '.join(map(str, SIZES.values()))} bodies of each size")
    for which in (1, 2):
        print(f"\n{names[which]} is ahead of {' and '.join(names[3:])} {ahead(rates, which)}.")
