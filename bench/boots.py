"""Opens one file many times in a row, looks at the boot that it has then, and measures what an open costs beside a report, which opens nothing.

    python3 bench/boots.py PATH-TO-datafile [--opens N] [--disk FOLDER] [--memory FOLDER]

After each open the four copies are equal, their boot is one more, and what is printed is the same; nothing else of the file is written. Ends with
status 1 and a line where that isn't so. Python's standard library alone. See docs/evidence/BENCHMARKS.md.
"""

import sys

sys.dont_write_bytecode = True

import argparse
import os
import tempfile

from common import CLUSTER, Ground, Measured, digits, quartiles, run, show, with_quartiles
from tools import has_valgrind, instructions
from tries import arguments, recovery, superblock
from tries.form import COPIES, SECTOR, SMALL

# What the file has: two clients' requests, of which the last waits for its reply, and a block that a checkpoint references.
SCRIPT = b"append 1 1 %s\nreply 1 aa\nblock 1 bb\ncheckpoint 07\nstep\nstep\nappend 2 1 -\nappend 1 2 -\nreply 2 cc\n" % digits(b"\5" * 128)
ANSWERS = b"appended 1\nreplied 1\nwrote 1\nbegun 1\nworking 1\ndone 2\nappended 2\nappended 3\nreplied 2\n"
SUMMARY = (b"cluster 7\nlayout 32 8192 4 16384 64\nsequence 2\ncheckpoint 1\nhead 3\nreplies 2\nsessions 2\nreferences 1\n")


class Wrong(Exception):
    """What isn't as it should be."""


def read(path: str) -> bytes:
    with open(path, "rb") as file:
        return file.read()


def made(program: str, ground: Ground) -> str:
    """A small file after the script, which one open raised to boot 1."""
    path = ground.path("file")
    run([program, path, "format", "small", str(CLUSTER)], wanted=b"formatted %d\n" % SMALL.sectors())
    with open(ground.path("script"), "wb") as file:
        file.write(SCRIPT)
    run([program, path, "run"], ground.path("script"), ANSWERS)
    return path


def looked(path: str, boot: int, before: bytes) -> bytes:
    """The file, which has this boot, and which after its copies is as it was."""
    data = read(path)
    copies = superblock.all_seen(data)
    if any(copy != copies[0] for copy in copies) or isinstance(copies[0], str):
        raise Wrong(f"boot {boot}: the four copies aren't equal")
    if copies[0].boot != boot:
        raise Wrong(f"boot {boot}: the file has boot {copies[0].boot}")
    if data[SECTOR * COPIES :] != before[SECTOR * COPIES :]:
        raise Wrong(f"boot {boot}: something after the copies was written")
    # What is printed tells of the state each time; the model, which takes longer, each hundredth time.
    if boot % 100 == 1 and recovery.view_of(data) != recovery.view_of(before):
        raise Wrong(f"boot {boot}: another state is found")
    return data


def opened(program: str, ground: Ground, count: int) -> list:
    """This many opens in a row, and a report between them: a row of the table of times."""
    path = made(program, ground)
    data, opens, reports = looked(path, 1, read(path)), [], []
    for number in range(count):
        opens.append(run([program, path, "recover"], wanted=SUMMARY).clock * 1e6)
        data = looked(path, number + 2, data)
        reports.append(run([program, path, "inspect"], wanted=None).clock * 1e6)
        if read(path) != data:
            raise Wrong(f"boot {number + 2}: a report writes")
    starts = [run([program, ground.path("none"), "walk"], wanted=None, status=2).clock * 1e6 for _ in range(max(2, min(count, 100)))]
    start = quartiles(starts)[0]
    more = quartiles(opens)[0] - quartiles(reports)[0]
    listed = [[value - start for value in values] for values in (opens, reports)]
    return [ground.name, *(with_quartiles(values, 0) for values in listed), f"{more:,.0f}"]


def show_instructions(program: str, ground: Ground) -> None:
    """Of an open and of a report, outside the kernel, after the program's start."""
    if not has_valgrind():
        print("\nvalgrind isn't installed: instructions aren't counted")
        return
    path = made(program, ground)
    opened, report, start = (instructions([program, path, *words]).total() for words in (["recover"], ["inspect"], ["run", "walk"]))
    show("Instructions of the same outside the kernel", ["an open, instructions", "a report", "the boot update"],
         [[opened - start, report - start, opened - report]], "exact")


def words() -> argparse.Namespace:
    parser = argparse.ArgumentParser(description="Opens one file many times in a row, and looks at its boot.")
    parser.add_argument("program", type=arguments.program, help="the built program datafile, or imitation.py")
    parser.add_argument("--opens", type=arguments.at_least(2), default=1000, help="how many opens (default 1000)")
    parser.add_argument("--disk", type=arguments.folder, default=tempfile.gettempdir(), help="a folder on the disk that is meant")
    parser.add_argument("--memory", type=arguments.folder, default="/dev/shm", help="a folder in memory (default /dev/shm)")
    return parser.parse_args()


def main() -> int:
    given, rows = words(), []
    Measured.is_of(given.program)
    for name, folder in (("memory", given.memory), ("disk", given.disk)):
        with tempfile.TemporaryDirectory(dir=folder) as inner:
            try:
                rows.append(opened(os.path.abspath(given.program), Ground(name, inner, name == "disk"), given.opens))
            except Wrong as error:
                print(f"WRONG, in {name}: {error}")
                return 1
    show("An open of a small file (`recover`), and a report of it (`inspect`), which raises no boot; microseconds by the clock after the "
         "program's start", ["where", "an open", "a report", "the boot update, between the medians"], rows, f"{given.opens} opens of each")
    with tempfile.TemporaryDirectory(dir=given.memory) as inner:
        show_instructions(os.path.abspath(given.program), Ground("memory", inner, False))
    return 0


if __name__ == "__main__":
    sys.exit(main())
