"""Tries the built mending from a second file against an independent model of it, that of docs/FILEMIRROR.md.

    python3 model/mirroring.py PATH-TO-filemirror [--seconds N] [--seed N]

First a worked file, each of whose sectors is lost in turn, with a stop after each event and each failing call. Then random files, most of them as
an open has left them, with known units that are hurt, beside copies that were taken before, earlier, later or of another file: what is printed, both
files byte by byte, and that a file whose known units alone were hurt is as it was; mendings stopped at random moments and begun again; calls that
fail, and words without a meaning. Prints what was tried, or the first disagreement.
"""

import sys

sys.dont_write_bytecode = True

from typing import Optional

from tries import filemirrors, form, generate, hurt, recovery, script, stops, units
from tries.binary import expect, has_strace, require
from tries.common import Try, same_bytes
from tries.form import COPIES, SECTOR, Home, Layout
from tries.pairs import Pair, try_pairs

TINY = Layout(16, 4096, 1, 4096, 8)
DISK = 5
# No more calls of `pread64` than these are the loader's, before the program begins.
LOADER = 10


def opened(data: bytes) -> bytes:
    """The file after a session that only opened it: the superblock names its head and each reply."""
    return script.run(data, b"").data


def sectors_of(home: Home, known: list) -> list:
    """The sectors of these units."""
    found = []
    for place, unit in known:
        first = home.layout.at(place) // SECTOR
        found += range(first, first + len(form.whole_sectors(unit.encode())) // SECTOR)
    return found


def bare(home: Home, data: bytes, known: list) -> bytes:
    """The file without what a stop, or damage, left after these units in their last sectors: no read shows it, and a mending puts zeros there."""
    for place, unit in known:
        end = home.layout.at(place) + len(unit.encode())
        past = -(-end // SECTOR) * SECTOR
        data = form.part(data, 0, end) + bytes(past - end) + data[past:]
    return data


def struck(t: Try, data: bytes, earlier: list, sectors: list) -> bytes:
    """The file with some of these sectors hurt."""
    for at in t.random.sample(sectors, min(len(sectors), t.random.choice((1, 1, 2, 3, len(sectors))))):
        old = form.sector(t.random.choice(earlier), at)
        other = form.sector(data, t.random.choice(sectors))
        bytes_of = t.random.choice((b"\xa5" * SECTOR, b"\xa5" * SECTOR, bytes(SECTOR), old, other))
        data = script.state(data, [script.Event("write", SECTOR * at, bytes_of)])
    return data


def same(t: Try, what: str, data: Optional[bytes], other: Optional[bytes], words: list) -> filemirrors.Mirrored:
    """One run over two files of these bytes: its text, its status and both files are the model's."""
    wanted = filemirrors.command(data, other, words)
    pair = Pair(t.binary)
    pair.put(data, other)
    got = pair.run(words)
    expect(f"{what}: text", wanted.text, got.text)
    expect(f"{what}: status", wanted.status, got.status)
    one, two = pair.get()
    same_bytes(f"{what}: the first file", wanted.data or None, one or None)
    same_bytes(f"{what}: the second file", other or None, two or None)
    last = wanted.text.split(b"\n")[-2].split()
    t.counts["mirrors: " + b" ".join(last[: 2 if last[0] == b"refused" else 1]).decode()] += 1
    return wanted


def mendable(t: Try) -> tuple:
    """A file whose known units alone are hurt, the file as it was, and files that may be the second one."""
    past = hurt.history(t)
    data = past.data if t.random.random() < 0.2 else opened(past.data)
    if recovery.found(data).refusal:
        data = script.fresh(past.home)
    sectors = sectors_of(past.home, filemirrors.known(data))
    if not sectors:
        return data, data, past
    image = struck(t, data, past.earlier, sectors)
    # Where the four copies aren't equal none of them is hurt.
    if hurt.at_rest(data) and t.random.random() < 0.3:
        for copy in t.random.sample(range(COPIES), t.random.choice((1, 2))):
            image = script.state(image, [script.Event("write", SECTOR * copy, t.random.choice((b"\xa5" * SECTOR, bytes(SECTOR))))])
    return image, data, past


def others(t: Try, data: bytes, past: hurt.History) -> Optional[bytes]:
    """A second file that isn't the first one as it was."""
    kind = t.random.random()
    if kind < 0.4:
        return t.random.choice(past.earlier)
    if kind < 0.6:
        return script.run(data, stops.script_for(t, data)).data
    if kind < 0.8:
        return generate.image(t.random, 10, Home(t.random.choice((form.SMALL, TINY, past.home.layout)), t.random.choice((past.home.cluster, 7))), 0.1)
    if kind < 0.9:
        return t.random.randbytes(SECTOR * 40)
    return t.random.choice((None, b"", data[: SECTOR * t.random.randrange(1, 40)]))


def whole(t: Try) -> None:
    """The second file is the first one as it was: each known unit comes back, and with it the state."""
    image, data, past = mendable(t)
    ran = same(t, "a file beside its copy", image, data, [])
    require("each known unit comes back", ran.status in (script.DONE, script.FOUND))
    front, known = SECTOR * COPIES, filemirrors.known(data)
    before, after = (bare(past.home, one, known)[front:].rstrip(b"\0") for one in (data, ran.data))
    same_bytes("what isn't the superblock, but for what stands after a unit", before, after)
    require("and so the state", recovery.view_of(ran.data) == recovery.view_of(data))
    require("a second run mends nothing", filemirrors.run(ran.data, b"").text == b"mended 0\n")


def beside(t: Try) -> None:
    """Any second file: what was written is of known units alone, and each that was shown still is."""
    image, data, past = mendable(t)
    ran = same(t, "a file beside another", image, others(t, data, past), [])
    known = dict(filemirrors.known(data)) if data else {}
    for place, unit in known.items():
        was, now = (units.shown(one, past.home, place) for one in (image, ran.data))
        require(f"{place} is still shown, or was mended", now == was or now == unit)


def stopped(t: Try) -> None:
    """A mending that is stopped: what was shown is shown, and a second run comes to the same."""
    image, data, past = mendable(t)
    wanted = filemirrors.run(image, data)
    for _ in range(4):
        upto = t.random.randint(0, len(wanted.events))
        left = stops.stop(t, image, wanted.events, upto)
        for place, unit in filemirrors.known(data):
            if units.shown(image, past.home, place) == unit:
                require(f"{place} is still shown", units.shown(left, past.home, place) == unit)
        ran = same(t, "after a stop", left, data, [])
        expect("the known units after a stop and a second run", filemirrors.known(wanted.data), filemirrors.known(ran.data))
        t.counts["stops"] += 1


def failing(t: Try) -> None:
    """A call fails: status 5, and what is printed is the first of what would be."""
    image, data, past = mendable(t)
    wanted = filemirrors.run(image, data)
    pair = Pair(t.binary)
    pair.put(image, data)
    name = t.random.choice(("pwrite64", "fdatasync", "pread64"))
    calls = sum(event.kind == {"pwrite64": "write", "fdatasync": "sync"}.get(name, "sync") for event in wanted.events)
    first = t.random.randint(1, max(1, calls)) + (LOADER if name == "pread64" else 0)
    got = pair.failing([], f"{name}:error=EIO:when={first}+")
    if got.status == wanted.status and got.text == wanted.text:
        return
    expect("the status of a call that fails", DISK, got.status)
    require("what is printed then", wanted.text.startswith(got.text) and not got.text.endswith(b"mended %d\n" % wanted.text.count(b"\n")))
    same_bytes("the second file", data, pair.get()[1])
    expect("a second run comes to the same", wanted.data, filemirrors.run(pair.get()[0], data).data)
    t.counts[f"calls of {name} that failed"] += 1


def anything(t: Try) -> None:
    """Files with any sectors hurt, the superblock's and those of no known unit too."""
    past = hurt.history(t)
    image, _ = hurt.damage(t, past)
    same(t, "a hurt file", image, t.random.choice((past.data, past.data, others(t, past.data, past))), [])


def odd(t: Try) -> None:
    """Words without a meaning, and files that aren't there."""
    words = t.random.choice(([], [], ["-"], ["small"], ["a", "b"]))
    data = t.random.choice((None, b"", b"\xa5" * SECTOR, script.fresh(Home(TINY, 7))))
    same(t, "words", data, t.random.choice((None, b"", script.fresh(Home(TINY, 7)))), words)


SCRIPT = (
    b"append 1 1 aa\nreply 1 bb\nappend 2 1 cc\nreply 2 -\nblock 1 00\nblock 2 01\nblock 1 02\ncheckpoint 05\nstep\nstep\n"
    b"append 1 2 dd\nreply 3 ee\nappend 3 1 -\nreply 4 ff\n"
)


def worked(t: Try) -> None:
    """A worked file, as an open has left it: each of its sectors but the superblock's lost in turn; and with each known unit lost a stop after each
    event, and each call that fails, with a second run."""
    home = Home(form.SMALL, 7)
    data = opened(script.run(script.fresh(home), SCRIPT).data)
    known = filemirrors.known(data)
    front = SECTOR * COPIES
    for at in range(COPIES, len(data) // SECTOR):
        ran = same(t, f"sector {at}", script.state(data, [script.Event("write", SECTOR * at, b"\xa5" * SECTOR)]), data, [])
        require(f"sector {at}: each known unit is there", filemirrors.known(ran.data) == known)
        require(f"sector {at}: and the state", recovery.view_of(ran.data) == recovery.view_of(data))
    lost = data
    for at in sectors_of(home, known):
        lost = script.state(lost, [script.Event("write", SECTOR * at, b"\xa5" * SECTOR)])
    wanted = filemirrors.run(lost, data)
    same_bytes("each known unit lost", data[front:].rstrip(b"\0"), wanted.data[front:].rstrip(b"\0"))
    for upto in range(len(wanted.events) + 1):
        left = script.state(lost, wanted.events[:upto])
        ran = same(t, f"after {upto} events", left, data, [])
        same_bytes(f"after {upto} events and a second run", wanted.data, ran.data)
    pair = Pair(t.binary)
    for name, kind in (("pwrite64", "write"), ("fdatasync", "sync")) if has_strace() else ():
        for number in range(1, 1 + sum(event.kind == kind for event in wanted.events)):
            pair.put(lost, data)
            got = pair.failing([], f"{name}:error=EIO:when={number}")
            expect(f"{name} {number}: status", DISK, got.status)
            require(f"{name} {number}: what is printed", wanted.text.startswith(got.text))
            ran = same(t, f"after {name} {number}", pair.get()[0], data, [])
            same_bytes(f"after {name} {number} and a second run", wanted.data, ran.data)
            t.counts["worked calls that failed"] += 1


def attempt(t: Try) -> None:
    """One try; the first is the worked file."""
    if not t.counts:
        worked(t)
    kind = t.random.random()
    if kind < 0.3:
        whole(t)
    elif kind < 0.5:
        beside(t)
    elif kind < 0.65:
        stopped(t)
    elif kind < 0.85:
        anything(t)
    elif kind < 0.95 and has_strace():
        failing(t)
    else:
        odd(t)


def main() -> int:
    return try_pairs("filemirror", "mirroring.py", "Tries the built mending from a second file against an independent model.", attempt)


if __name__ == "__main__":
    sys.exit(main())
