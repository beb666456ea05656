"""What the benches share: scripts and what they answer, fresh files, runs that are timed from outside, and tables."""

import ctypes
import hashlib
import os
import shutil
import statistics
import struct
import subprocess
import sys
import time
from random import Random
from typing import NamedTuple, Optional

sys.path.insert(0, os.path.join(os.path.dirname(os.path.dirname(os.path.abspath(__file__))), "model"))

from tries import form
from tries.form import CLIENT_REPLIES, GRID, SECTOR, WAL_PREPARES, Layout, Place

CLUSTER = 7
# Linux's number of sched_setattr on x86-64, the words of its record up to the slice, and the slice that is asked for, in nanoseconds.
SET_SCHEDULING, SCHEDULING, SLICE = 314, struct.Struct("IIQiIQQQ"), 100_000


class Spent(NamedTuple):
    """What a run took: seconds of the processor in the program and in the kernel for it, and seconds by the clock."""

    processor: float
    clock: float


class Script(NamedTuple):
    """Lines, and what the program answers to them over a file that was just made."""

    lines: bytes
    answers: bytes


class Ground(NamedTuple):
    """A folder that the files stand in, and the name that tables give it. On a disk a file is read anew in each run."""

    name: str
    folder: str
    is_disk: bool

    def path(self, name: str) -> str:
        return os.path.join(self.folder, name)


def run(command: list, source: Optional[str] = None, wanted: Optional[bytes] = b"", status: int = 0) -> Spent:
    """One run with this file as its standard input, whose answers and status are compared with those that are wanted."""
    with open(source or os.devnull, "rb") as stdin, open_answers() as answers:
        start = time.perf_counter()
        process = subprocess.Popen(command, stdin=stdin, stdout=answers, preexec_fn=first_in_line)
        _, ended, usage = os.wait4(process.pid, 0)
        clock = time.perf_counter() - start
        process.returncode = os.waitstatus_to_exitcode(ended)
        answers.seek(0)
        printed = answers.read()
    if process.returncode != status or (wanted is not None and printed != wanted):
        raise SystemExit(f"a run ended with status {process.returncode} and {printed[-200:]!r}: {command}")
    # The kernel gives out a run's time whole, and only guesses which part of it was the program's and which its own.
    return Spent(usage.ru_utime + usage.ru_stime, clock)


def open_answers():
    """A file in memory for what a run prints, so that no reader has to wake while it runs."""
    return os.fdopen(os.memfd_create("answers"), "r+b")


def first_in_line() -> None:
    """Goes before other processes where that is allowed, so that a busy machine disturbs less.

    A short slice has the kernel let it run as soon as what it waits for is there: else the process that runs then goes on for up to 4 ms.
    """
    try:
        os.setpriority(os.PRIO_PROCESS, 0, -15)
    except OSError:
        pass
    wanted = SCHEDULING.pack(SCHEDULING.size, 0, 0, os.getpriority(os.PRIO_PROCESS, 0), 0, SLICE, 0, 0)
    # An older kernel knows no slice, and refuses or ignores it.
    ctypes.CDLL(None).syscall(SET_SCHEDULING, 0, wanted, 0)


class Bench(NamedTuple):
    """The program, the yardstick, how many rounds are made, and the random numbers of bodies and order."""

    program: str
    yardstick: object
    rounds: int
    random: Random

    def start(self, ground: Ground) -> Spent:
        """The program's start alone: words that mean nothing are refused before anything is opened."""
        return run([self.program, ground.path("none"), "walk"], wanted=None, status=2)

    def make(self, ground: Ground, layout: Layout, name: str = "file") -> str:
        """A file fresh from `format`."""
        path = ground.path(name)
        if os.path.lexists(path):
            os.unlink(path)
        run([self.program, path, "format", layout.word(), str(CLUSTER)], wanted=b"formatted %d\n" % layout.sectors())
        return path

    def fill(self, ground: Ground, path: str, scripts) -> Spent:
        """Executes scripts over a file as one, in one run."""
        answers = []

        def lines():
            for one in scripts:
                answers.append(one.answers)
                yield one.lines

        source = put(ground, "script", lines())
        return run([self.program, path, "run"], source, b"".join(answers))

    def rounds_of(self, runs: dict) -> dict:
        """What each of these took in each round; they are made in random order."""
        seen: dict = {name: [] for name in runs}
        for _ in range(self.rounds):
            for name in self.random.sample(sorted(runs), len(runs)):
                seen[name].append(runs[name]())
        return seen


def put(ground: Ground, name: str, pieces) -> str:
    """A file with these bytes, or with these pieces one after the other."""
    path = ground.path(name)
    with open(path, "wb") as file:
        file.writelines([pieces] if isinstance(pieces, bytes) else pieces)
    return path


def copy(ground: Ground, source: str, name: str) -> str:
    """A copy of a file, which on a disk is there before anything is measured."""
    path = shutil.copyfile(source, ground.path(name))
    if ground.is_disk:
        with open(path, "rb") as file:
            os.fsync(file.fileno())
    return path


def forget(ground: Ground, path: str) -> None:
    """On a disk, has the next run read the file anew."""
    if ground.is_disk:
        with open(path, "rb") as file:
            os.fsync(file.fileno())
            os.posix_fadvise(file.fileno(), 0, 0, os.POSIX_FADV_DONTNEED)


def on_file(path: str, calls: list) -> list:
    """The calls on a file from its opening on; a loader and its libraries have calls of their own before."""
    at = next(at for at, call in enumerate(calls) if call.name == "openat" and f'"{path}"' in call.args[1])
    return [call for call in calls[at:] if call.fd == calls[at].result]


def digits(body: bytes) -> bytes:
    return body.hex().encode() or b"-"


def join(*scripts: Script) -> Script:
    return Script(b"".join(one.lines for one in scripts), b"".join(one.answers for one in scripts))


def appends(random: Random, ops: range, size: int, clients: int = 1, replies: int = 0) -> Script:
    """Appends of these ops with bodies of one size, by clients in turn, each with its reply."""
    lines, answers = [], []
    for op in ops:
        client, request = (op - 1) % clients + 1, (op - 1) // clients + 1
        lines.append(b"append %d %d %s\n" % (client, request, digits(random.randbytes(size))))
        lines.append(b"reply %d %s\n" % (op, digits(random.randbytes(replies))))
        answers.append(b"appended %d\nreplied %d\n" % (op, op))
    return Script(b"".join(lines), b"".join(answers))


def blocks(random: Random, count: int, size: int) -> Script:
    """This many blocks, on a grid whose first addresses are free."""
    lines = (b"block 1 %s\n" % digits(random.randbytes(size)) for _ in range(count))
    return Script(b"".join(lines), b"".join(b"wrote %d\n" % address for address in range(1, count + 1)))


def begin(trailer: int) -> Script:
    """The begin of a checkpoint, of which this many blocks are the trailer's."""
    return Script(b"checkpoint -\n", b"begun %d\n" % trailer)


def working(trailer: int) -> Script:
    """All steps but the last one."""
    return Script(b"step\n" * trailer, b"".join(b"working %d\n" % left for left in range(trailer, 0, -1)))


def done(sequence: int = 2) -> Script:
    """The last step."""
    return Script(b"step\n", b"done %d\n" % sequence)


def trailer_of(layout: Layout, sessions: int, references: int) -> int:
    """How many blocks the trailer of a checkpoint without a root has."""
    text = 4 + 4 + 32 * sessions + (layout.blocks + 7) // 8 + 16 * references
    return -(-text // layout.block_max())


def most_blocks(layout: Layout, sessions: int) -> int:
    """How many blocks fill the grid together with the trailer of their checkpoint."""
    return max(n for n in range(layout.blocks) if n + trailer_of(layout, sessions, n) <= layout.blocks)


def quartiles(values: list) -> tuple:
    """The median, and the quartiles below and above it."""
    low, middle, high = statistics.quantiles(values, n=4, method="inclusive")
    return middle, low, high


def with_quartiles(values: list, places: int = 1) -> str:
    return "{:,.{p}f} ({:,.{p}f} to {:,.{p}f})".format(*quartiles(values), p=places)


class Measured:
    """What is said under each table: the program, by the first digits of its file's SHA-256, when, and how busy the machine was."""

    program = "-"

    @classmethod
    def is_of(cls, path: str) -> None:
        with open(path, "rb") as file:
            cls.program = hashlib.sha256(file.read()).hexdigest()[:12]

    @classmethod
    def line(cls, how: str) -> str:
        load = os.getloadavg()[0]
        return f"*Program {cls.program}, {time.strftime('%Y-%m-%d %H:%M')}, {how}, load {load:.1f}.*"


def show(title: str, head: list, rows: list, how: str) -> None:
    """A table, as the pages of docs/evidence have it, with how it was measured."""
    print(f"\n{title}\n\n| " + " | ".join(head) + " |\n" + "|---" * len(head) + "|")
    for row in rows:
        print("| " + " | ".join(f"{cell:,}" if isinstance(cell, int) else str(cell) for cell in row) + " |")
    print(f"\n{Measured.line(how)}")
    sys.stdout.flush()


def prepare_at(layout: Layout, slot: int) -> tuple:
    """Offset and length of the places of a ring's slot, of a reply and of a block, for plans."""
    return layout.at(Place(WAL_PREPARES, slot)), layout.message_size


def reply_at(layout: Layout, place: int) -> tuple:
    return layout.at(Place(CLIENT_REPLIES, place)), layout.message_size


def block_at(layout: Layout, address: int) -> tuple:
    return layout.at(Place(GRID, address)), layout.block_size


def sectors_of(size: int) -> int:
    """The bytes of the whole sectors of a unit with a body of this size."""
    return -(-(form.HEADER + size) // SECTOR) * SECTOR
