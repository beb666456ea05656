"""How costs grow: of an append with the ring, of a checkpoint's step with the grid, and of an open with both.

Instructions are counted by valgrind, so they are exact: those of a run less those of the same run without what is looked at. The
processor's times beside them are medians of the rounds.
"""

from common import (
    Bench, Ground, Script, appends, begin, blocks, done, join, most_blocks, put, run, show, trailer_of, with_quartiles, working,
)
from tools import PARTS, has_valgrind, instructions, parts_of
from tries.form import Layout

RINGS = (16, 32, 64, 128, 256, 512, 1024)
GRIDS = (8, 32, 128, 512, 2048, 8192, 16384)


class Growing:
    """Runs over a fresh file each, of one layout: their instructions, and their processor time in each round."""

    def __init__(self, bench: Bench, ground: Ground, layout: Layout, scripts: dict):
        self.bench, self.ground, self.layout, self.scripts = bench, ground, layout, scripts
        self.counts = {name: self.count(script) for name, script in scripts.items()}
        fresh = {name: self.timed(script) for name, script in scripts.items()}
        self.times = bench.rounds_of(fresh)

    def count(self, script: Script):
        path = self.bench.make(self.ground, self.layout)
        return instructions([self.bench.program, path, "run"], put(self.ground, "script", script.lines))

    def timed(self, script: Script):
        return lambda: self.bench.fill(self.ground, self.bench.make(self.ground, self.layout), [script])

    def each(self, what: str, without: str, number: int) -> list:
        """What each of `number` lines costs that one run has and the other hasn't: instructions, and microseconds."""
        spent = [(one.processor - two.processor) / number * 1e6 for one, two in zip(self.times[what], self.times[without])]
        return [self.parts(what, without, number)[0], with_quartiles(spent)]

    def parts(self, what: str, without: str, number: int) -> list:
        return parts_of(self.counts[what], self.counts[without], number)


def opened(bench: Bench, ground: Ground, layout: Layout, script: Script) -> tuple:
    """What an open of the file costs that a script leaves: instructions, and microseconds; and the parts of the instructions. The program's
    start isn't counted."""
    path = bench.make(ground, layout)
    bench.fill(ground, path, [script])
    program, start = [bench.program, path, "run"], [bench.program, path, "run", "walk"]
    parts = parts_of(instructions(program), instructions(start), 1)
    seen = bench.rounds_of({"open": lambda: run(program), "start": lambda: run(start, wanted=None, status=2)})
    spent = [(one.processor - two.processor) * 1e6 for one, two in zip(seen["open"], seen["start"])]
    return [parts[0], with_quartiles(spent, 0)], parts


def of_rings(bench: Bench, ground: Ground) -> tuple:
    """Rows of an append and of an open by ring; and the parts of both over the greatest."""
    rows = []
    for slots in RINGS:
        layout = Layout(slots, 4096, 4, 4096, 8)
        script = appends(bench.random, range(1, slots + 1), 128)
        growing = Growing(bench, ground, layout, {"appends": script, "none": Script(b"", b"")})
        row, parts = opened(bench, ground, layout, script)
        rows.append([slots, *growing.each("appends", "none", slots), *row])
    return rows, [[f"an append and its reply, {slots:,} slots", *growing.parts("appends", "none", slots)], [f"an open, {slots:,} slots", *parts]]


def of_grids(bench: Bench, ground: Ground) -> tuple:
    """The same of blocks, a checkpoint and an open by grid."""
    rows = []
    for count in GRIDS:
        layout = Layout(16, 4096, 1, 4096, count)
        live = most_blocks(layout, 0)
        trailer = trailer_of(layout, 0, live)
        steps = [blocks(bench.random, live, 0), begin(trailer), working(trailer), done()]
        runs = {name: join(*steps[:upto]) for upto, name in enumerate(("blocks", "begun", "worked", "done"), 1)}
        growing = Growing(bench, ground, layout, runs | {"none": Script(b"", b"")})
        kinds = {"a block": ("blocks", "none", live), "the begin": ("begun", "blocks", 1), "a step": ("worked", "begun", trailer),
                 "the last step": ("done", "worked", 1)}
        row, parts = opened(bench, ground, layout, runs["done"])
        rows.append([count, trailer, *(growing.parts(*kind)[0] for kind in kinds.values()), *row])
    return rows, [*([f"{name}, {count:,} blocks", *growing.parts(*kind)] for name, kind in kinds.items()), [f"an open, {count:,} blocks", *parts]]


def show_growth(bench: Bench, ground: Ground) -> None:
    """The two tables of costs, and one of what they are made of."""
    if not has_valgrind():
        print("\nvalgrind isn't installed: growth isn't counted")
        return
    of_ring, parts_ring = of_rings(bench, ground)
    of_grid, parts_grid = of_grids(bench, ground)
    how = f"instructions exact, us the processor's in {bench.rounds} rounds"
    show("An append of 128 bytes and its reply, and an open of a full ring, in memory",
         ["slots", "an append, instructions", "us", "an open, instructions", "us"], of_ring, how)
    show("A full grid in memory, instructions, and of an open microseconds", ["blocks", "trailer blocks", "a block", "the begin",
         "a step, answered `working`", "the last step", "an open", "us"], of_grid, how)
    show("What they are made of, instructions", ["what", "in all", *PARTS, "everything else", "most of that"], [*parts_ring, *parts_grid], "exact")
