"""What the program costs, each measured in one run beside its yardstick; docs/evidence/BENCHMARKS.md has the tables.

    python3 bench/costs.py PATH-TO-datafile [--disk FOLDER] [--memory FOLDER] [--rounds N] [--seed N] [--tables WORD ..] [--yardstick PATH]

Python's standard library alone, the kit's rt for the yardstick, and strace, valgrind and perf for the tables that need them.
"""

import sys

sys.dont_write_bytecode = True

import argparse
import os
import tempfile
import time
from contextlib import ExitStack
from random import Random

from common import Bench, Ground, Measured, first_in_line
from yardstick import Yardstick, build

import appends
import calls
import groups
import growth
import opens
import rooms
import waits
import workload
from tries import arguments

TABLES = ("calls", "appends", "opens", "workload", "waits", "growth", "groups", "rooms")


def wanted() -> argparse.Namespace:
    parser = argparse.ArgumentParser(description="What the program costs, beside what it can't avoid.")
    parser.add_argument("program", type=arguments.program, help="the built program datafile")
    parser.add_argument("--disk", type=arguments.folder, default=tempfile.gettempdir(), help="a folder on the disk that is meant")
    parser.add_argument("--memory", type=arguments.folder, default="/dev/shm", help="a folder in memory (default /dev/shm)")
    parser.add_argument("--rounds", type=arguments.at_least(2), default=30, help="rounds of each measure (default 30)")
    parser.add_argument("--seed", type=int, default=1, help="the seed of bodies and order (default 1)")
    parser.add_argument("--tables", nargs="+", choices=TABLES, default=TABLES, help="which tables (default all)")
    parser.add_argument("--yardstick", help="a yardstick that was built before (default: it is built)")
    return parser.parse_args()


def main() -> None:
    given = wanted()
    first_in_line()
    Measured.is_of(given.program)
    with ExitStack() as stack:
        def folder(of: str) -> str:
            return stack.enter_context(tempfile.TemporaryDirectory(dir=of))

        grounds = [Ground("memory", folder(given.memory), False), Ground("disk", folder(given.disk), True)]
        yardstick = Yardstick(os.path.abspath(given.yardstick)) if given.yardstick else build(folder(given.disk))
        bench = Bench(os.path.abspath(given.program), yardstick, given.rounds, Random(given.seed))
        tables = {
            "calls": lambda: calls.show_calls(bench, given.memory),
            "appends": lambda: appends.show_appends(bench, grounds),
            "opens": lambda: opens.show_opens(bench, grounds),
            "workload": lambda: workload.show_workload(bench, grounds),
            "waits": lambda: waits.show_waits(bench, grounds),
            "growth": lambda: growth.show_growth(bench, grounds[0]),
            "groups": lambda: groups.show_groups(bench, grounds),
            "rooms": lambda: rooms.show_rooms(bench, grounds[0]),
        }
        for name in given.tables:
            start = time.monotonic()
            tables[name]()
            print(f"\n({name}: {time.monotonic() - start:.0f} s)", flush=True)


if __name__ == "__main__":
    main()
