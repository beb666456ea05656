"""What an open and a tour of the scrubber cost over full files, against reading the same bytes, hashing the units in use, and writing as much.

The yardstick reads each place once, as far as the program reads it, and hashes each unit that stands there, its header and its body. It then
writes the four copies as they are, with a sync after each.
"""

import os
import subprocess
from typing import NamedTuple

from common import (
    Bench, Ground, appends, begin, block_at, blocks, done, forget, most_blocks, on_file, prepare_at, quartiles, reply_at, run, show,
    trailer_of, with_quartiles, working,
)
from tools import peak
from tries import form
from tries.binary import Binary, expect, has_strace
from tries.form import COPIES, HEADERS, SECTOR, Layout
from yardstick import SYNC, hashed, plan, read, unit, write


class Case(NamedTuple):
    """A file: its layout, how many appends with bodies of one size it has, and how many blocks after its checkpoint."""

    name: str
    layout: Layout
    count: int
    size: int
    blocks: int

    def trailer(self) -> int:
        return trailer_of(self.layout, 0, self.blocks)


def full(name: str, layout: Layout) -> Case:
    """Each slot, each reply slot and each block is in use, as far as it goes."""
    return Case(name, layout, layout.slots, layout.body_max(), most_blocks(layout, 0))


MIDDLE = Layout(256, 262144, 64, 262144, 704)
CASES = (
    full("`small`", form.SMALL), full("256 MiB", MIDDLE), Case("`large`", form.LARGE, 1000, 65280, 64),
)


def scripts_of(bench: Bench, case: Case):
    """A checkpoint of the blocks, then the appends, each with its reply; the last ones fill the reply slots."""
    layout, random = case.layout, bench.random
    yield from (blocks(random, case.blocks, layout.block_max()), begin(case.trailer()), working(case.trailer()), done())
    for op in range(1, case.count + 1):
        yield appends(random, range(op, op + 1), case.size, layout.clients, case.size if op + layout.clients > case.count else 0)


def made(bench: Bench, case: Case, grounds: list) -> list:
    """The file on each ground: it is made on the first one, and copied with its holes."""
    first = bench.make(grounds[0], case.layout)
    bench.fill(grounds[0], first, scripts_of(bench, case))
    os.unlink(grounds[0].path("script"))
    for ground in grounds[1:]:
        subprocess.run(["cp", "--sparse=always", first, ground.path("file")], check=True)
    return [ground.path("file") for ground in grounds]


def zones(case: Case, words: str) -> dict:
    """The units that an open has to look at, with their offsets and lengths; those of the grid that a tour reads after it."""
    layout, last = case.layout, case.blocks + case.trailer()
    trailer = range(case.blocks + 1, last + 1)
    found = {
        "copies of the superblock": [(SECTOR * copy, SECTOR) for copy in range(COPIES)],
        "sectors of headers": [(layout.header_sector(slot), SECTOR) for slot in range(0, layout.slots, HEADERS)],
        "prepares": [prepare_at(layout, slot) for slot in range(layout.slots)],
        "replies": [reply_at(layout, place) for place in range(layout.clients)],
        "trailer blocks": [block_at(layout, address) for address in trailer],
    }
    if words == "scrub":
        found["blocks of the tour"] = [block_at(layout, address) for address in range(1, last + 1)]
    return found


def hashes(zone: str, offset: int, place: bytes) -> list:
    """The hashes of what a place has; of the copies, which are equal but for their numbers, the first alone is hashed."""
    if zone == "copies of the superblock":
        return [hashed(32, SECTOR - 32)] if offset == 0 else []
    if zone == "sectors of headers":
        return [hashed(at + 16, 240) for at in range(0, SECTOR, form.HEADER)]
    size = int.from_bytes(place[112:116], "little")
    return unit(size - form.HEADER) if size else []


def steps_of(case: Case, path: str, words: str) -> list:
    """The yardstick's plan: each place once, and the units that stand there."""
    steps = []
    with open(path, "rb") as file:
        for zone, places in zones(case, words).items():
            for at, length in places:
                steps += [read(at, length), *hashes(zone, at, os.pread(file.fileno(), form.HEADER, at))]
    for copy in range(COPIES):
        # What is written is what the room has: the copy itself.
        steps += [read(SECTOR * copy, SECTOR), write(SECTOR * copy, SECTOR), SYNC]
    return steps


def reads_of(bench: Bench, ground: Ground, case: Case, path: str) -> dict:
    """For each zone its units, and the reads of an open."""
    binary = Binary(bench.program, ground.folder)
    binary.path = path
    result, calls = binary.trace(b"", words=("recover",))
    expect("the open", 0, result.status)
    offsets = [int(call.args[-1]) for call in on_file(path, calls) if call.name == "pread64"]
    # A place at the file's end takes a read more for each, which finds that nothing follows.
    found = {zone: (len(places), sum(at <= offset < at + length for offset in offsets for at, length in places))
             for zone, places in zones(case, "recover").items()}
    expect("no other reads", len(offsets), sum(reads for _, reads in found.values()))
    return found


def show_reads(of_cases: list) -> None:
    rows = []
    for zone in of_cases[0]:
        each = {reads / units for units, reads in (found[zone] for found in of_cases)}
        rows.append([zone, *(found[zone][0] for found in of_cases), " or ".join(f"{one:.10g}" for one in sorted(each))])
    show("Reads of an open", ["what", *(f"units in {case.name}" for case in CASES), "reads a unit"], rows, "counted by `strace`")


def after_start(seen: dict, what: str, start: str, by: str) -> list:
    """Milliseconds of each round that a run took after its start."""
    least = quartiles([getattr(one, by) for one in seen[start]])[0]
    return [(getattr(one, by) - least) * 1e3 for one in seen[what]]


def cells_of(bench: Bench, ground: Ground, case: Case, path: str) -> dict:
    """For each word the cells of its times, by the processor and by the clock, and the most that was resident."""
    cells: dict = {}
    plan(ground, "plan-nothing", [])

    def nothing():
        return bench.yardstick.run(ground, path, "plan-nothing")

    for words in ("recover", "scrub"):
        plan(ground, "plan-" + words, steps_of(case, path, words))

        def program():
            forget(ground, path)
            return run([bench.program, path, words], wanted=None)

        def alone():
            forget(ground, path)
            return bench.yardstick.run(ground, path, "plan-" + words)

        seen = bench.rounds_of({"program": program, "alone": alone, "start": lambda: bench.start(ground),
                                 "nothing": nothing})
        cells[words] = {"peak": peak([bench.program, path, words])}
        for by in ("processor", "clock"):
            both = after_start(seen, "program", "start", by), after_start(seen, "alone", "nothing", by)
            ratio = with_quartiles([one / two for one, two in zip(*both)], 3)
            cells[words][by] = [*(f"{quartiles(values)[0]:,.2f}" for values in both), ratio]
    return cells


def show_opens(bench: Bench, grounds: list) -> None:
    """The reads of an open, and a table of times by the processor and one by the clock."""
    reads, found = [], []
    for case in CASES:
        paths = made(bench, case, grounds)
        if has_strace():
            reads.append(reads_of(bench, grounds[0], case, paths[0]))
        both = [cells_of(bench, ground, case, path) for ground, path in zip(grounds, paths)]
        found += [(case.name, words, [cells[words] for cells in both]) for words in both[0]]
        for path in paths:
            os.unlink(path)
    if reads:
        show_reads(reads)
    head = ["file", "word", *(cell for ground in grounds for cell in (f"{ground.name}: program", "yardstick", "ratio"))]
    title, how = "An open (`recover`), and one with a tour (`scrub`), milliseconds", f"{bench.rounds} rounds"
    show(f"{title} of the processor", [*head, "KB at most"],
         [[name, words, *(cell for one in both for cell in one["processor"]), both[0]["peak"]] for name, words, both in found], how)
    show(f"{title} by the clock", head, [[name, words, *(cell for one in both for cell in one["clock"])] for name, words, both in found], how)
