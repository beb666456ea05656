"""How long a client waits for an answer while checkpoints of thousands of blocks go on: a bounded piece of one after each line, or a whole one
now and then. Beside each session the yardstick goes through the same one: the same device calls for each line, with their hashes and without.

What the program does after an answer the next line waits for. On a disk whose syncs are slow strace makes them so, for the yardstick too.
"""

import os
import statistics
from collections import defaultdict
from typing import NamedTuple

from asked import Asked, Planned
from calls import lines_of
from common import Bench, Ground, Script, appends, begin, blocks, copy, done, join, show, trailer_of, with_quartiles, working
from tries.binary import Binary, expect, has_strace
from tries.form import COPIES, SECTOR, Layout
from yardstick import SYNC, answered, hashed, plan, read, unit, waited, write

# Blocks of the grids, full but for what the next checkpoint needs; slots, clients, and after how many appends a checkpoint is due.
GRIDS, SLOTS, CLIENTS, EVERY = (4096, 16384), 256, 4, 64
# Appends of a session and bytes of their bodies; sessions of each, at most.
APPENDS, SIZE, SESSIONS = 1024, 128, 5
# Where each sync takes this many microseconds more: appends and sessions.
SLOWER, SLOW_APPENDS, SLOW_SESSIONS = 5000, 176, 2
SLOW = ["strace", "-f", "--seccomp-bpf", "-o", os.devnull, "-e", "trace=fdatasync", "-e", f"inject=fdatasync:delay_exit={SLOWER}"]
COPY = hashed(32, SECTOR - 32)


class Case(NamedTuple):
    """A file with a full grid, after which a session begins: its layout, how many blocks live, and how many the trailer has."""

    layout: Layout
    live: int
    trailer: int
    path: str


class Work(NamedTuple):
    """The words of a session, how its checkpoints are called, and whether the script asks for them."""

    words: tuple
    name: str
    asks: bool


WORKS = (Work(("paced", "1", str(EVERY), "1"), f"`paced 1 {EVERY} 1`", False), Work(("paced", "0", str(EVERY), "64"), f"`paced 0 {EVERY} 64`", False),
         Work(("run",), f"`run`, a whole checkpoint every {EVERY} appends", True))


def case_of(bench: Bench, ground: Ground, count: int) -> Case:
    """Each slot, each reply and each block that a checkpoint may take was written once, so that later writes go over something. The last
    step falls before an append, of which two lines make a request."""
    layout = Layout(SLOTS, SECTOR, CLIENTS, SECTOR, count)
    live = max(n for n in range(count) if n + 2 * trailer_of(layout, CLIENTS, n) <= count and trailer_of(layout, CLIENTS, n) % 2)
    first, trailer = trailer_of(layout, 0, live), trailer_of(layout, CLIENTS, live)
    path = bench.make(ground, layout, "full")
    bench.fill(ground, path, [
        blocks(bench.random, live, 0), begin(first), working(first), done(),
        appends(bench.random, range(1, SLOTS + 1), SIZE, CLIENTS), begin(trailer), working(trailer), done(3)])
    return Case(layout, live, trailer, path)


def asked_of(bench: Bench, case: Case, work: Work, count: int) -> list:
    """The lines of a session, each with its answer; a line that waits for a whole checkpoint has that one's before it."""
    listed, sequence = [], 3
    for op in range(SLOTS + 1, SLOTS + count + 1):
        one = appends(bench.random, range(op, op + 1), SIZE, CLIENTS)
        pair = [Script(line, answer) for line, answer in zip(one.lines.splitlines(keepends=True), one.answers.splitlines(keepends=True))]
        if work.asks and op > SLOTS + EVERY and op % EVERY == 1:
            sequence += 1
            pair[0] = join(begin(case.trailer), working(case.trailer), done(sequence), pair[0])
        listed += pair
    return listed


def traced(bench: Bench, ground: Ground, case: Case, work: Work, listed: list) -> list:
    """The calls from the answer before each line to its own one, as strace saw them."""
    binary, session = Binary(bench.program, ground.folder), join(*listed)
    binary.path = copy(ground, case.path, "traced")
    result, calls = binary.trace(session.lines, words=work.words)
    expect("the answers", session.answers, result.text)
    calls = calls[next(at for at, call in enumerate(calls) if call.name == "read" and call.fd == 0) :]
    found = iter(lines_of(calls, session.answers.splitlines(keepends=True)))
    return [[call for _ in one.answers.splitlines() for call in next(found)] for one in listed]


def hashes_of(case: Case, at: int, reads: bool) -> list:
    """The hashes that go with what stands at an offset: blocks that are read have no bodies, those of a trailer are full, and of the copies
    that an update writes or reads back the first alone is hashed, since their checksum is one."""
    if at < SECTOR * COPIES:
        return [COPY] if at == 0 else []
    if at < case.layout.first():
        return []
    return unit(SIZE if at < case.layout.grid() else 0 if reads else case.layout.block_max())


def step_of(call) -> tuple:
    """The same call for the yardstick."""
    if call.name == "fdatasync":
        return SYNC
    if call.name == "write":
        return answered(int(call.args[-1]))
    length, at = map(int, call.args[-2:])
    return (read if call.name == "pread64" else write)(at, length)


def steps_of(case: Case, line: Script, calls: list, with_hashes: bool) -> list:
    """A line for the yardstick. What is left of the work before it comes first, as in the program: all but the calls of the line itself.
    What follows the last answer of a session no line waits for."""
    calls = [call for call in calls if call.name in ("fdatasync", "write", "pread64", "pwrite64")]
    calls = calls[: max(at for at, call in enumerate(calls) if call.name == "write") + 1]
    own = 0 if line.answers.startswith(b"begun") else -5 if line.lines.startswith(b"append") else -3
    steps = []
    for call in calls:
        if with_hashes and call.name in ("pread64", "pwrite64"):
            steps.append([*hashes_of(case, int(call.args[-1]), call.name == "pread64"), step_of(call)])
        else:
            steps.append([step_of(call)])
    wait = [[waited(len(line.lines))]]
    return [step for part in ([*wait, *steps] if own == 0 else [*steps[:own], *wait, *steps[own:]]) for step in part]


class Session(NamedTuple):
    """What is asked in a session, and the lines that have the same calls, by how many of each there are."""

    listed: list
    alike: dict

    def longest(self, alone: list) -> list:
        """The lines that the yardstick takes longest for, of those that have the same calls twice or more."""
        return max((at for at in self.alike.values() if len(at) > 1), key=lambda at: statistics.median(one[line] for one in alone for line in at))

    def program(self, bench: Bench, ground: Ground, case: Case, work: Work, front: list) -> list:
        """The microseconds from each line to the end of its answer, over a copy of the file."""
        path = copy(ground, case.path, "file")
        with Asked([*front, bench.program, path, *work.words]) as session:
            # The first answer shows that the file is open.
            session.want(b"lookup 9\n", b"refused NoClient\n")
            seen = [session.want(*line) * 1e6 for line in self.listed]
            session.end()
        return seen

    def alone(self, bench: Bench, ground: Ground, name: str, front: list) -> list:
        """The same of the yardstick, over a file that is there whole."""
        with Planned(bench.yardstick, ground, ground.path("alone"), name, front) as session:
            # Its first answer shows that it is there.
            session.passed(b"\n", 1)
            seen = [session.passed(line.lines, len(line.answers)) * 1e6 for line in self.listed]
            session.end()
        return seen


def session_of(bench: Bench, memory: Ground, ground: Ground, case: Case, work: Work, count: int) -> Session:
    """A session, with the plans of the yardstick for it."""
    listed = asked_of(bench, case, work, count)
    calls = traced(bench, memory, case, work, listed)
    for name, with_hashes in (("plan-calls", False), ("plan-hashes", True)):
        steps = [step for line, mine in zip(listed, calls) for step in steps_of(case, line, mine, with_hashes)]
        plan(ground, name, [waited(1), answered(1), *steps])
    alike = defaultdict(list)
    for number, mine in enumerate(calls):
        alike[tuple(sum(call.name == name for call in mine) for name in ("fdatasync", "pwrite64", "write"))].append(number)
    return Session(listed, alike)


def rows_of(bench: Bench, memory: Ground, ground: Ground, count: int, slow: bool) -> list:
    """A row of each table for each kind of work."""
    case = case_of(bench, memory, count)
    copy(ground, case.path, "alone")
    front, rows = SLOW if slow else [], []
    for work in WORKS:
        session = session_of(bench, memory, ground, case, work, SLOW_APPENDS if slow else APPENDS)
        runs = {"program": lambda: session.program(bench, ground, case, work, front),
                "calls": lambda: session.alone(bench, ground, "plan-calls", front),
                "hashes": lambda: session.alone(bench, ground, "plan-hashes", front)}
        seen = bench._replace(rounds=min(bench.rounds, SLOW_SESSIONS if slow else SESSIONS)).rounds_of(runs)
        first = [ground.name + ", slow syncs" * slow, count, work.name]
        rows.append(([*first, *of_all(seen)], [*first, *of_longest(session, seen)]))
    return rows


def of_all(seen: dict) -> list:
    """What a line waits, and the longest of each session."""
    every = sorted(wait for one in seen["program"] for wait in one)
    longest = statistics.median(max(one) for one in seen["program"])
    return [f"{value:,.0f}" for value in (statistics.median(every), every[len(every) * 99 // 100], longest)]


def of_longest(session: Session, seen: dict) -> list:
    """The lines that can't but wait longest, beside the yardstick's."""
    at = session.longest(seen["hashes"])
    waits = {name: [one[line] for one in listed for line in at] for name, listed in seen.items()}
    middle = {name: statistics.median(values) for name, values in waits.items()}
    beside = [cell for name in ("calls", "hashes") for cell in (f"{middle[name]:,.0f}", f"{middle['program'] / middle[name]:.3f}")]
    return [f"{len(session.listed) / len(at):,.0f}", with_quartiles(waits["program"], 0), *beside]


def show_waits(bench: Bench, grounds: list) -> None:
    if not has_strace():
        print("\nstrace isn't installed: the calls that a line waits for aren't known")
        return
    memory, disk = grounds
    kinds = [*((ground, count, False) for ground in grounds for count in GRIDS), (disk, GRIDS[-1], True)]
    rows = [row for ground, count, slow in kinds for row in rows_of(bench, memory, ground, count, slow)]
    how = f"{min(bench.rounds, SESSIONS)} sessions of each, {min(bench.rounds, SLOW_SESSIONS)} where syncs are slow"
    title = (f"over a full grid of blocks of {SECTOR:,} bytes, sessions of {APPENDS:,} appends of {SIZE} bytes with their replies "
             f"({SLOW_APPENDS} where syncs are slow, by {SLOWER / 1000:.0f} ms each), us by the clock")
    show(f"The wait for an answer, {title}",
         ["where", "blocks", "word", "median", "99th percentile", "longest of a session (median of the sessions)"],
         [row for row, _ in rows], how)
    show(f"The lines that have most to wait for, {title}",
         ["where", "blocks", "word", "one line in", "its wait", "its calls", "ratio", "its calls and hashes", "ratio"], [row for _, row in rows], how)
