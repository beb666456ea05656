"""What a generated run costs: commands a second and peak memory, against the same device calls alone."""

import os

from common import Bench, Ground, on_file, quartiles, run, show, with_quartiles
from tools import peak
from tries import binary as runs
from tries.binary import Binary, expect, has_strace
from tries.form import SMALL
from yardstick import SYNC, plan, read, write

# On a disk each round of the run takes some three syncs.
COUNTS = {False: 100_000, True: 500}
COUNTED = (b"appended", b"replied", b"wrote", b"released", b"checkpoints")


def words_of(count: int) -> list:
    return ["workload", "42", str(count)]


def commands(report: bytes) -> int:
    """The commands that the report counts; the steps of its checkpoints aren't among them."""
    lines = [line.split() for line in report.splitlines()]
    return sum(int(number) for word, number in lines if word in COUNTED)


def calls_of(bench: Bench, ground: Ground, count: int) -> tuple:
    """What the run prints, and its device calls from the opening of the file on."""
    # Traced, a long run takes long.
    runs.WAIT = 3600
    binary = Binary(bench.program, ground.folder)
    binary.path = bench.make(ground, SMALL)
    result, calls = binary.trace(b"", words=words_of(count))
    expect("the run", 0, result.status)
    steps = []
    for call in on_file(binary.path, calls):
        if call.name == "fdatasync":
            steps.append(SYNC)
        elif call.name in ("pread64", "pwrite64"):
            length, at = map(int, call.args[-2:])
            steps.append((read if call.name == "pread64" else write)(at, length))
    return result.text, steps


def row_of(bench: Bench, traced: Ground, ground: Ground) -> list:
    count = COUNTS[ground.is_disk]
    report, steps = calls_of(bench, traced, count)
    plan(ground, "plan-workload", steps)

    def program():
        path = bench.make(ground, SMALL)
        return run([bench.program, path, *words_of(count)], wanted=report)

    def alone():
        return bench.yardstick.run(ground, bench.make(ground, SMALL), "plan-workload")

    seen = bench.rounds_of({"program": program, "alone": alone})
    number = commands(report)
    rates = [number / one.clock for one in seen["program"]]
    processor = [[one.processor / number * 1e6 for one in seen[name]] for name in ("program", "alone")]
    clock = with_quartiles([one.clock / two.clock for one, two in zip(seen["program"], seen["alone"])], 3)
    times = [f"{quartiles(values)[0]:,.2f}" for values in processor]
    memory = peak([bench.program, bench.make(ground, SMALL), *words_of(count)])
    os.unlink(ground.path("file"))
    return [ground.name, count, number, len(steps), with_quartiles(rates, 0), clock, *times, memory]


def show_workload(bench: Bench, grounds: list) -> None:
    if not has_strace():
        print("\nstrace isn't installed: the calls of the generated run aren't known")
        return
    rows = [row_of(bench, grounds[0], ground) for ground in grounds]
    show(f"A generated run, `workload 42 COUNT` on `small`, {bench.rounds} rounds",
         ["where", "COUNT", "commands", "device calls", "commands a second", "clock to that of the calls",
          "processor a command, us", "the calls alone, us", "KB at most"], rows, f"{bench.rounds} rounds")
