"""Whole tables: a worked session stopped at each of its writes, each of its calls failing in turn, and each sector struck."""

from . import form, recovery, script
from .binary import expect, require
from .checkpoint_rows import BLOCKS, realistic
from .common import Try, asked, keeps, named, on_file, session
from .copy_rows import A5
from .faults import DISK, READ, WRITE
from .knows import knows
from .rows import FIRST_SESSION
from .stops import Kept
from .worked import NEW, after

SESSION = (FIRST_SESSION[0] + BLOCKS[0]).encode()


def loose_as(data: bytes, events: list, upto: int, what: str) -> bytes:
    """A file after a stop, with every sector that wasn't synced as written, as before, or A5."""
    if what == "as written":
        return script.state(data, events[:upto])
    synced = max((at for at, event in enumerate(events[:upto], 1) if event.kind == "sync"), default=0)
    before = script.state(data, events[:synced])
    if what == "as before":
        return before
    filled = [event._replace(data=A5 * (len(event.data) // form.SECTOR)) for event in events[synced:upto]
              if event.kind == "write"]
    return script.state(before, filled)


def stop_table(t: Try) -> None:
    """The session stopped at each write in turn."""
    wanted = script.run(NEW, SESSION)
    for upto, event in enumerate(wanted.events, 1):
        if event.kind != "write":
            continue
        for what in ("as written", "as before", "A5"):
            image = loose_as(NEW, wanted.events, upto, what)
            kept = Kept(NEW)
            kept.takes(wanted, upto)
            kept.after(t, image)
            t.binary.put(image)
            session(t, f"stopped at write {upto}, {what}", image, b"lookup 5\nprepare 2\nread 1\nread 4\nappend 9 1 -\n")
    t.counts["sessions stopped at each write"] += 1


def fault_table(t: Try) -> None:
    """Each call of the session fails in turn, over a new file and over one that is mended first."""
    torn = script.state(NEW, [script.Event("write", form.SECTOR * at, A5) for at in (1, 2, 5)])
    for data in (NEW, torn):
        wanted = script.run(data, SESSION)
        t.binary.put(data)
        calls, fd = on_file(t, t.binary.trace(SESSION)[1])
        for name, on, status in (("pread64", fd, DISK), ("pwrite64", fd, DISK), ("fdatasync", fd, DISK), ("read", 0, READ),
                                 ("write", 1, WRITE)):
            for call in named(calls, name, on):
                t.binary.put(data)
                got = t.binary.trace(SESSION, [f"{name}:error=EIO:when={call.number}"])[0]
                what = f"{name} {call.number} failing"
                expect(f"{what}: status", status, got.status)
                require(f"{what}: a prefix of the text", wanted.text.startswith(got.text))
                image = t.binary.get()
                keeps(what, wanted.views, image)
                expect(f"{what}, then an open", 0, session(t, what, image, b"").status)
                t.counts[f"calls failing in turn: {name}"] += 1


def every_sector(t: Try) -> None:
    """Each sector of a realistic file struck alone: the state that it had, or its place is named. Of some the program is asked."""
    data = after(realistic()[0])
    view = recovery.view_of(data)
    asked_for = t.random.sample(range(336), 12)
    for at in range(336):
        image = script.state(data, [script.Event("write", form.SECTOR * at, A5)])
        found = recovery.found(image)
        if found.refusal:
            blamed = found.refusal.startswith("Damaged") and named_at(found.refusal) == at
            require(f"sector {at} is named: {found.refusal}", blamed)
        else:
            require(f"sector {at}: the same view", found.view == view)
        if at in asked_for:
            t.binary.put(image)
            if knows("reports"):
                first = asked(t, f"sector {at}, inspect", image, ["inspect"])
                expect("the same report twice", first.text, asked(t, f"sector {at}, inspect", image, ["inspect"]).text)
            session(t, f"sector {at}", image, b"lookup 1\nlookup 2\nlookup 3\nlookup 4\n")
    t.counts["sectors struck in turn"] += 336


def named_at(refusal: str) -> int:
    """The first sector of the place that a refusal names."""
    _, zone, index, *_ = refusal.split()
    return form.SMALL.at(form.Place(zone, int(index))) // form.SECTOR


LISTED = {"stop_table": (stop_table, 1), "every_sector": (every_sector, 1), "fault_table": (fault_table, 0)}
KINDS = LISTED if knows("blocks") else {}
