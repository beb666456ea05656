"""Puts and groups of puts in turn, each store in a session of its own: how long until they are durable, and what is synced and written for it."""

import os
import re
import shutil
from random import Random

from common import Bench, Ground, show, with_quartiles
from stores import Store, puts_of

# Puts before any are measured, puts of each round, and keys that they are drawn from.
FIRST, PUTS, KEYS = 1024, 104, 5000
CALLS = "trace=write,pwrite64,writev,pwritev,pwritev2,fsync,fdatasync,sync_file_range,msync"
# A call, and one that another thread's calls cut in two.
CALL, BEGUN, ENDED = (re.compile(rf"^(\d+)\s+{text}$") for text in (
    r"(\w+)\((\d+)?.*= (\d+)", r"(\w+)\((\d+)?.*<unfinished \.\.\.>", r"<\.\.\. (\w+) resumed>.*= (\d+)"))
SYNCS = ("fsync", "fdatasync", "sync_file_range", "msync")


def kept_in_turn(bench: Bench, ground: Ground, stores: list, first: int, each: int) -> list:
    """Of each store the seconds of its first puts in all, and of each put or group of the rounds after them: until it is durable, and with
    all that goes with it. All sessions stay open."""
    puts = puts_of(bench.random, first + each * bench.rounds, KEYS)
    begun, seen = [], [[] for _ in stores]

    def one(store: Store, at: int) -> tuple:
        durable = store.keep(puts[at : at + store.group])
        return durable, durable + store.settle()

    for number, store in enumerate(stores):
        os.mkdir(ground.path(str(number)))
        inner = Ground("", ground.path(str(number)), True)
        store.make(bench, inner)
        store.open(inner.folder)
        begun.append(sum(one(store, at)[1] for at in range(0, first, store.group)))
    for turn in range(bench.rounds):
        start = first + each * turn
        for number in bench.random.sample(range(len(stores)), len(stores)):
            seen[number] += [one(stores[number], at) for at in range(start, start + each, stores[number].group)]
    for number, store in enumerate(stores):
        store.session.end()
        store.session.kill()
        store.look_again(ground.path(str(number)))
        shutil.rmtree(ground.path(str(number)))
    return list(zip(begun, seen))


def counted(bench: Bench, ground: Ground, store: Store, count: int, settles: bool) -> tuple:
    """Syncs and written bytes of this many puts over what was just made; what goes with the last one or group is among them, or isn't."""
    log, inner = ground.path("calls"), Ground("", ground.path("inner"), True)
    shutil.rmtree(inner.folder, ignore_errors=True)
    os.mkdir(inner.folder)
    store.make(bench, inner)
    store.open(inner.folder, ["strace", "-f", "-s", "0", "-o", log, "-e", CALLS])
    puts = puts_of(Random(1), count, KEYS)
    for at in range(0, count, store.group):
        store.keep(puts[at : at + store.group])
        if at + store.group < count or settles:
            store.settle()
    store.session.end()
    store.session.kill()
    calls = calls_in(log)
    return (sum(name in SYNCS for name, _, _ in calls),
            sum(int(result) for name, fd, result in calls if name not in SYNCS and int(fd) > 2))


def calls_in(log: str) -> list:
    """Of each call its name, the file's number and its result."""
    found, begun = [], {}
    with open(log, encoding="utf-8", errors="replace") as file:
        for line in file:
            if match := BEGUN.match(line):
                begun[match[1]] = match[3]
            elif match := ENDED.match(line):
                found.append((match[2], begun[match[1]], match[3]))
            elif match := CALL.match(line):
                found.append(match.groups()[1:])
    return found


def calls_of(bench: Bench, ground: Ground, store: Store, groups: int) -> list:
    """Of each put, or group, on average: syncs until it is durable, bytes that are written until then, and syncs with all that goes with it.
    Of a store with nothing to settle over this many of them after as many, of another of the last one."""
    before, more = groups * store.group, (1 if store.settles else groups) * store.group
    least, durable = counted(bench, ground, store, before, True), counted(bench, ground, store, before + more, not store.settles)
    whole = counted(bench, ground, store, before + more, True) if store.settles else durable
    number = more / store.group

    def each(more: int, less: int) -> str:
        return f"{(more - less) / number:,.4g}" if more - less < 1000 * number else f"{(more - less) / number:,.0f}"

    return [each(durable[0], least[0]), each(durable[1], least[1]), each(whole[0], least[0])]


def rates_of(seen: list, each: int, group: int) -> list:
    """Puts a second of each round of this many puts, with all that goes with them."""
    groups = each // group
    return [each / sum(whole for _, whole in seen[at : at + groups]) for at in range(0, len(seen), groups)]


def show_puts(bench: Bench, ground: Ground, stores: list) -> None:
    rows = []
    for store, (first, seen) in zip(stores, kept_in_turn(bench, ground, stores, FIRST, PUTS)):
        durable = sorted(one * 1e6 for one, _ in seen)
        rows.append([store.name, store.group, *calls_of(bench, ground, store, 64 // store.group), with_quartiles(durable, 0),
                     f"{durable[len(durable) * 99 // 100]:,.0f}", with_quartiles(rates_of(seen, PUTS, store.group), 0), f"{FIRST / first:,.0f}"])
    show(f"Durable puts, {ground.name}, by the clock",
         ["what keeps them", "at once", "syncs until they are durable", "bytes written until then", "syncs in all",
          "us until they are durable", "99th percentile", "puts a second, in all", "of the first puts"], rows,
         f"{bench.rounds} rounds of {PUTS} puts of each after {FIRST:,}")
