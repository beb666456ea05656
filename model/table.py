"""Tries the built object table against an independent model of it, that of docs/OBJECTTABLE.md, and against a plain map.

    python3 model/table.py PATH-TO-objecttable [--seconds N] [--seed N] [--lines N]

Random puts, drops and gets on `small`, on `large` and on small layouts, in sessions one after the other; stops at random device calls, within writes
too, and calls that fail; files of other programs and damaged ones. After each session and stop the lines that `rows.py` prints make the same
table in a file of another layout; of a damaged file they are a part of a state that it had. Prints what was tried, or the first disagreement.
"""

import sys

sys.dont_write_bytecode = True

import argparse
import tempfile
import time
from collections import Counter
from random import Random, SystemRandom

from tries import arguments, form, objects, remaking, script, stops
from tries.binary import Binary, Disagreement, expect, has_strace, require
from tries.common import Try, same_bytes
from tries.form import Home, Layout

# How many lines one long session has, as `--lines` says; and how often one is stopped. A file of `large` has a gigabyte, which each stop copies.
LINES, STOPS, STOPS_LARGE = 2000, 300, 3
TINY = Layout(16, 4096, 1, 4096, 8)
DISK = 5
# No more calls of `pread64` than these are the loader's, before the program begins.
LOADER = 10


def key(t: Try, rows: dict) -> int:
    """A key, often one that the table has."""
    if rows and t.random.random() < 0.6:
        return t.random.choice(list(rows))
    return t.random.choice((0, 2**128 - 1, t.random.randrange(100), t.random.randrange(10_000), t.random.getrandbits(128)))


def line(t: Try, rows: dict) -> bytes:
    """One line."""
    kind, at = t.random.random(), key(t, rows)
    if kind < 0.55:
        size = t.random.choice((0, 1, 8, 46, 47, 47, 48 if t.random.random() < 0.1 else 3))
        return b"put %d %s" % (at, t.random.randbytes(size).hex().encode() or b"-")
    if kind < 0.75:
        return b"drop %d" % at
    return b"get %d" % at if kind < 0.97 else b"count"


def lines(t: Try, rows: dict, count: int) -> bytes:
    """Lines, and what a plain map has after them."""
    text, rows = [], dict(rows)
    for _ in range(count):
        text.append(line(t, rows))
        parsed = objects.parse(text[-1], form.SMALL)
        if parsed and parsed[0] in ("put", "drop"):
            objects.apply(rows, parsed)
    return b"".join(one + b"\n" for one in text)


def same(t: Try, what: str, data: bytes, text: bytes) -> objects.Ran:
    """One run over a file of these bytes: its text, its status and the file are the model's."""
    wanted = objects.command(data, ["table"], text)
    t.binary.put(data)
    got = t.binary.run(text, ("table",))
    expect(f"{what}: text", wanted.text, got.text)
    expect(f"{what}: status", wanted.status, got.status)
    same_bytes(what, wanted.data, t.binary.get())
    t.counts[f"runs that ended with {wanted.status}"] += 1
    return wanted


def plain(text: bytes, rows: dict, head: int, most: int) -> bytes:
    """What a plain map answers."""
    told = []
    for one in text.split(b"\n")[:-1]:
        parsed = objects.parse(one, form.LARGE if len(one) > 30_000 else form.SMALL)
        why = objects.refusal(rows, parsed, most)
        if why:
            told.append(f"refused {why}")
        elif parsed[0] == "count":
            told.append(f"count {len(rows)}")
        elif parsed[0] == "get":
            told.append(f"{parsed[1]} {rows[parsed[1]].hex() or '-'}")
        else:
            head += 1
            objects.apply(rows, parsed)
            told.append(f"{'put' if parsed[0] == 'put' else 'dropped'} {head}")
    return b"".join(one.encode() + b"\n" for one in told)


def long(t: Try, layout: Layout, count: int) -> None:
    """A long session on a new file against a plain map; then its table is what the map has."""
    home = Home(layout, 7)
    data, text, rows = script.fresh(home), lines(t, {}, count), {}
    told = plain(text, rows, 0, objects.most_rows(layout))
    ran = same(t, "a long session", data, text)
    expect("the text of a map", told, ran.text)
    expect("the table after it", rows, objects.table_of(ran.data))
    remaking.remade(t, "a long session", ran.data, rows)
    t.counts["lines against a plain map"] += count


def greatest(t: Try) -> None:
    """The greatest table of 64 small blocks, to a ring of 32 slots and back: the same table, and the same lines."""
    one, two = Layout(16, 4096, 1, 4096, 64), Layout(32, 4096, 1, 4096, 64)
    rows = {key: t.random.randbytes(t.random.randint(0, 47)) for key in t.random.sample(range(2**62), objects.most_rows(one))}
    data = b"".join(b"put %d %s\n" % (key, value.hex().encode() or b"-") for key, value in rows.items())
    for layout in (one, two, one):
        data = remaking.filled(t, f"the greatest table of {layout.word()}", layout, data, len(rows))
    expect("its lines", remaking.spelled(rows), data.decode().splitlines())
    t.counts["greatest tables, there and back"] += 1


def stopped(t: Try, layout: Layout, count: int, moments: int) -> None:
    """Stops of one session at random moments: the next open finds the table with all that was answered, or one more."""
    home, data = Home(layout, 7), None
    data = script.fresh(home)
    wanted = objects.run(data, lines(t, {}, count))
    for _ in range(moments):
        upto = t.random.randint(0, len(wanted.events))
        image = stops.stop(t, data, wanted.events, upto)
        table = objects.table_of(image)
        kept = wanted.kept(upto)
        require(f"after {upto} events the table is one of {len(kept)}", table in kept)
        t.counts["stops that kept one more" if len(kept) > 1 and table == kept[1] else "stops that kept the answered ones"] += 1
        remaking.remade(t, f"a stop after {upto} events", image, table)
        if t.random.random() < 0.2:
            same(t, f"the open after a stop after {upto} events", image, lines(t, table, 3) + b"count\n")


def failing(t: Try, layout: Layout, count: int) -> None:
    """One device call of a session fails: status 5, and what was answered is in the table."""
    home = Home(layout, 7)
    data, text = script.fresh(home), lines(t, {}, count)
    wanted = objects.run(data, text)
    t.binary.put(data)
    name = t.random.choice(("pwrite64", "fdatasync", "pread64"))
    calls = sum(event.kind == {"pwrite64": "write", "fdatasync": "sync"}.get(name, "write") for event in wanted.events)
    first = t.random.randint(1, max(1, calls)) + (LOADER if name == "pread64" else 0)
    got, _ = t.binary.trace(text, [f"{name}:error=EIO:when={first}+"], words=("table",))
    if got.status == wanted.status:
        return
    expect("the status of a call that fails", DISK, got.status)
    require("what is printed is a front", wanted.text.startswith(got.text))
    answered = sum(1 for one in got.text.split(b"\n") if one.startswith((b"put ", b"dropped ")))
    table = objects.table_of(t.binary.get())
    maps = [rows for rows, _, _ in wanted.spans]
    require(f"the table has {answered} puts and drops, or one more", table in maps[answered : answered + 2])
    remaking.remade(t, "a call that fails", t.binary.get(), table)
    t.counts[f"calls of {name} that failed"] += 1


def others(t: Try) -> None:
    """A script of `datafile` first, and perhaps a sector that is struck: the opening refuses it, or goes on from it."""
    home = Home(t.random.choice((form.SMALL, TINY)), 7)
    data, first = script.fresh(home), []
    for number in range(1, t.random.randint(1, 8)):
        body = t.random.choice((b"-", b"03", b"02", objects.body_of(("put", number, b"ab")).hex().encode(),
                                objects.body_of(("drop", number)).hex().encode()))
        first.append(b"append %d %d %s" % (t.random.choice((1, 1, 1, 1, 2)), number, body))
        first.append(b"reply %d -" % number)
        if t.random.random() < 0.2:
            rows = objects.row_of(t.random.randrange(4), b"cd") + t.random.choice((b"", b"", b"\0"))
            first += [b"block %d %s" % (t.random.choice((1, 1, 2)), rows.hex().encode()), b"checkpoint -", b"step", b"step"]
    data = script.run(data, b"\n".join(first) + b"\n").data
    if t.random.random() < 0.3:
        at = form.SECTOR * t.random.randrange(len(data) // form.SECTOR)
        data = script.state(data, [script.Event("write", at, b"\xa5" * form.SECTOR)])
    remaking.opening(t, "a file of another program", data)
    ran = same(t, "a file of another program", data, b"count\nput 9 aa\nget 9\n")
    t.counts["openings: " + " ".join(ran.text.decode().split()[:3])] += 1


def attempt(t: Try, count: int) -> None:
    """One try."""
    layout = t.random.choice((form.SMALL, TINY, Layout(32, 4096, 2, 4096, 12)))
    kind = t.random.random()
    if kind < 0.3:
        long(t, layout, t.random.randint(1, min(count, 300)))
    elif kind < 0.6:
        stopped(t, layout, t.random.randint(1, 120), 10)
    elif kind < 0.7 and has_strace():
        failing(t, layout, t.random.randint(1, 60))
    elif kind < 0.85:
        remaking.damaged(t, lines)
        remaking.old(t)
    else:
        others(t)


def main() -> int:
    parser = argparse.ArgumentParser(description="Tries the built object table against an independent model and a plain map.")
    parser.add_argument("program", type=arguments.program, help="the built program objecttable, or objecttable.py")
    parser.add_argument("--seconds", type=arguments.seconds, default=60, help="how long to try (default 60)")
    parser.add_argument("--seed", type=int, help="the seed (default: a new one)")
    parser.add_argument("--lines", type=arguments.at_least(1), default=LINES, help="lines of the long sessions on small and large")
    given = parser.parse_args()
    seed = SystemRandom().randrange(2**32) if given.seed is None else given.seed
    counts: Counter = Counter()
    start, number = time.monotonic(), 0
    print(f"seed {seed}", flush=True)
    with tempfile.TemporaryDirectory() as folder:
        binary = Binary(given.program, folder)
        try:
            greatest(Try(Random(f"{seed} greatest"), binary, counts))
            for layout in (form.SMALL, form.LARGE):
                t = Try(Random(f"{seed} {layout}"), binary, counts)
                long(t, layout, given.lines)
                stopped(t, layout, min(given.lines, 200 if layout == form.SMALL else 20), STOPS if layout == form.SMALL else STOPS_LARGE)
            while time.monotonic() - start < given.seconds:
                attempt(Try(Random(f"{seed} {number}"), binary, counts), given.lines)
                number += 1
        except Disagreement as error:
            print(f"DISAGREEMENT, try {number}: {error}")
            print(f"again: python3 model/table.py {given.program} --seed {seed} --lines {given.lines}")
            return 1
    for name, count in sorted(counts.items()):
        print(f"{count:8} {name}")
    print(f"{number} tries, {binary.runs} runs of the program, no disagreement, seed {seed}")
    return 0


if __name__ == "__main__":
    sys.exit(main())
