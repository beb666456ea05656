"""What durable puts and an open take beside SQLite and LevelDB: one machine, one run, in turn, each asked line by line in the same way.

    python3 bench/others.py PATH-TO-datafile [PATH-TO-objecttable] --disk FOLDER [--memory FOLDER] [--rounds N] [--seed N] [--python PATH]
        [--tables WORD ..]

Wants strace, and Debian's python3-plyvel, whose Python runs keeper.py: without it LevelDB isn't measured. docs/evidence/OTHERS.md has the tables.
"""

import sys

sys.dont_write_bytecode = True

import argparse
import os
import shutil
import subprocess
import tempfile
import time
from random import Random

from batches import show_batches
from common import Bench, Ground, Measured, first_in_line, forget, run, show, with_quartiles
from puts import show_puts
from stores import GROUPS, Groups, Kept, Store, Table
from tries import arguments, objects
from tries.form import Layout

# The ring of our files is as long as the log of both others: SQLite's is 1,000 pages, LevelDB's 4 MiB.
TABLE, GREAT = Layout(1024, 4096, 1, 65536, 64), Layout(1024, 4096, 1, 524288, 32)
# Rows of the tables that are opened.
ROWS = (1000, 60_000)
TABLES = ("puts", "batches", "opens")


def kinds_of(python: str) -> list:
    """What keeper.py can keep here: LevelDB only where its Python has plyvel."""
    has = subprocess.run([python, "-c", "import plyvel"], capture_output=True, check=False).returncode == 0
    if not has:
        print(f"\n{python} has no plyvel: LevelDB isn't measured")
    return ["nothing", "write", "sqlite", *(["leveldb"] if has else [])]


def stores_of(given: argparse.Namespace, kinds: list) -> list:
    """All whose puts are measured."""
    kept = [("nothing is kept: the loop alone", "nothing", (1,)), ("one write of a sector over another, and its sync", "write", (1,)),
            ("SQLite VERSION", "sqlite", (1, 8)), ("LevelDB VERSION", "leveldb", (1, 8))]
    others = [Kept(name, kind, given.python, group) for name, kind, groups in kept if kind in kinds for group in groups]
    table = [Table(given.objecttable, given.datafile, TABLE)] if given.objecttable else []
    return [*others[:2], *table, *(Groups(given.datafile, group) for group in (1, 8)), *others[2:]]


def opened(bench: Bench, ground: Ground, memory: Ground, store: Store, rows: int) -> list:
    """Milliseconds of opens of a store with this many rows, up to the first answer of one of them: after a close, and after a kill."""
    made = Ground("", memory.path("made"), False)
    keys = [bench.random.getrandbits(128) for _ in range(rows)]
    puts = [(key, bench.random.randbytes(objects.LONGEST)) for key in keys]
    cells = []
    for ends in (True, False):
        os.mkdir(made.folder)
        store.make(bench, made)
        store.open(made.folder)
        store.fill(puts)
        if ends:
            store.session.end()
        store.session.kill()
        seen: list = []
        for _ in range(bench.rounds):
            shutil.copytree(made.folder, ground.path("again"))
            for folder, _, names in os.walk(ground.path("again")):
                for name in names:
                    forget(ground, os.path.join(folder, name))
            spent = store.open(ground.path("again"), first=store.look(keys))
            seen.append((spent - start_of(store, ground)) * 1e3)
            store.session.end()
            store.session.kill()
            shutil.rmtree(ground.path("again"))
        cells.append(with_quartiles(seen, 2))
        shutil.rmtree(made.folder)
    return cells


def start_of(store: Store, ground: Ground) -> float:
    """The program's start alone, where an open is measured from it on: words that mean nothing are refused before anything is opened."""
    return run([store.program, ground.path("none"), "walk"], wanted=None, status=2).clock if store.program else 0.0


def show_opens(bench: Bench, ground: Ground, memory: Ground, given: argparse.Namespace, kinds: list) -> None:
    table = [Table(given.objecttable, given.datafile, GREAT)] if given.objecttable else []
    others = [Kept(name, kind, given.python) for name, kind in (("SQLite VERSION", "sqlite"), ("LevelDB VERSION", "leveldb")) if kind in kinds]
    found = []
    for rows in given.rows:
        # The ring keeps this many prepares; what is older an application of its own has in blocks.
        ring = [Groups(given.datafile, 8)] if rows < GROUPS.slots else []
        for store in [*table, *ring, *others]:
            cells = opened(bench, ground, memory, store, rows)
            found.append([store.name.partition(",")[0], rows, *cells])
    show(f"An open up to the first answer to a `get`, or a `prepare`, {ground.name}, read anew, milliseconds by the clock",
         ["what keeps them", "rows", "after a close", "after a kill"], found, f"{bench.rounds} rounds")


def words() -> argparse.Namespace:
    parser = argparse.ArgumentParser(description="Durable puts and opens beside SQLite and LevelDB.")
    parser.add_argument("datafile", type=arguments.program, help="the built program datafile")
    parser.add_argument("objecttable", type=arguments.program, nargs="?", help="the built program objecttable (default: the table isn't measured)")
    parser.add_argument("--disk", type=arguments.folder, required=True, help="a folder on the disk that is meant")
    parser.add_argument("--memory", type=arguments.folder, default="/dev/shm", help="where tables are filled (default /dev/shm)")
    parser.add_argument("--rounds", type=arguments.at_least(2), default=30, help="rounds of each measure (default 30)")
    parser.add_argument("--seed", type=int, default=1, help="the seed of puts and order (default 1)")
    parser.add_argument("--python", type=arguments.program, default="/usr/bin/python3", help="the Python with plyvel (default /usr/bin/python3)")
    parser.add_argument("--rows", type=arguments.at_least(1), nargs="+", default=ROWS, help="rows of the tables that are opened")
    parser.add_argument("--tables", nargs="+", choices=TABLES, default=TABLES, help="which tables (default all)")
    given = parser.parse_args()
    given.datafile, given.objecttable = (path and os.path.abspath(path) for path in (given.datafile, given.objecttable))
    return given


def main() -> None:
    given = words()
    first_in_line()
    Measured.is_of(given.datafile)
    with tempfile.TemporaryDirectory(dir=given.disk) as disk, tempfile.TemporaryDirectory(dir=given.memory) as memory:
        bench = Bench(given.datafile, None, given.rounds, Random(given.seed))
        ground, kinds = Ground("disk", disk, True), kinds_of(given.python)
        tables = {
            "puts": lambda: show_puts(bench, ground, stores_of(given, kinds)),
            "batches": lambda: show_batches(bench, ground, given.datafile, given.python, kinds),
            "opens": lambda: show_opens(bench, ground, Ground("memory", memory, False), given, kinds),
        }
        for name in given.tables:
            start = time.monotonic()
            tables[name]()
            print(f"\n({name}: {time.monotonic() - start:.0f} s)", flush=True)


if __name__ == "__main__":
    main()
