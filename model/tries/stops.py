"""Tries of stops: what a stop leaves after a prefix of the events, opened by the program, several in a row."""

import os
import signal
import time

from . import copies, form, generate, recovery, script
from .binary import expect, require
from .common import Try, keeps, named, reopen, same_bytes, session
from .form import SECTOR
from .plan import Plan, before

HALF = SECTOR // 2


def torn(t: Try, old: bytes, new: bytes) -> bytes:
    """What one written sector may hold after a stop before its sync."""
    piece = t.random.randrange(512, SECTOR, 512)
    at = t.random.choice((16, 32, 256, piece, piece, piece, t.random.randrange(SECTOR)))
    choices = (
        ("as written", new), ("as before", old), ("filled with A5", b"\xa5" * SECTOR),
        ("first half new", new[:HALF] + old[HALF:]), ("second half new", old[:HALF] + new[HALF:]),
        ("zeros", bytes(SECTOR)), ("random", t.random.randbytes(SECTOR)),
        ("new up to a byte", new[:at] + old[at:]), ("new from a byte on", old[:at] + new[at:]),
    )
    name, sector = choices[t.random.choice((0, 0, 0, 1, 1, 2, 2, 3, 4, 5, 6, 7, 7, 7, 8, 8, 8))]
    t.counts[f"sectors left {name}"] += 1
    return sector


def left(t: Try, before: bytes, write: script.Event) -> bytes:
    """A file after a stop within a write or before its sync: each of its sectors as the stop chooses."""
    events = []
    for at in range(0, len(write.data), SECTOR):
        sector = torn(t, form.part(before, write.at + at, SECTOR), write.data[at : at + SECTOR])
        events.append(script.Event("write", write.at + at, sector))
    return script.state(before, events)


def stop(t: Try, data: bytes, events: list, upto: int) -> bytes:
    """The file that a stop after the first `upto` events leaves: all that was written since the last sync is loose."""
    synced = max((at for at, event in enumerate(events[:upto], 1) if event.kind == "sync"), default=0)
    image = script.state(data, events[:synced])
    for event in events[synced:upto]:
        image = left(t, image, event) if event.kind == "write" else image
    return image


class Kept:
    """What is kept over a chain of stops of one file: the views that it may have now."""

    def __init__(self, data: bytes):
        self.views = [recovery.view_of(data)]

    def takes(self, wanted: script.Outcome, upto: int) -> None:
        """A run goes on from here up to an event."""
        expect("a run opens what was kept", True, wanted.views[0] in self.views)
        self.views = wanted.kept(upto)

    def after(self, t: Try, data: bytes) -> None:
        """The file of a stop holds each answered line, and at most the one after it."""
        keeps("after a stop", self.views, data)
        more = len(self.views) > 1 and recovery.view_of(data) == self.views[1]
        t.counts["stops that kept one more" if more else "stops that kept the answered ones"] += 1
        self.views = [recovery.view_of(data)]


def script_for(t: Try, data: bytes) -> bytes:
    """Lines for the next session; the first sometimes repeats one that a stop undid, so that its bytes are old ones."""
    m = generate.machine_of(data)
    return generate.text_of(t.random, generate.script_of(t.random, m, t.random.choice((1, 1, 2, 3, 6, 12)), 0.03))


def chain(t: Try) -> None:
    """Several stops in a row, with copies hurt before some runs: each file is opened, and is what the model says."""
    home = generate.home(t.random)
    data = script.fresh(home)
    kept, text = Kept(data), b""
    for number in range(t.random.randint(2, 7)):
        if t.random.random() < 0.3:
            data = copies.hurt(t.random, data)
        # The same lines again write what may stand there already.
        text = text if t.random.random() < 0.3 else script_for(t, data)
        wanted = script.run(data, text, t.random.choice(((0, 0, 0), (0, 1, 1), (1, 2, 2))))
        upto = moment(t, wanted.events)
        kept.takes(wanted, upto)
        data = stop(t, data, wanted.events, upto)
        kept.after(t, data)
        t.binary.put(data)
        more = session(t, f"the open after stop {number + 1}", data, t.random.choice((b"", text, script_for(t, data))))
        kept.takes(more, len(more.events))
        data = more.data
    t.counts["chains of stops"] += 1


def moment(t: Try, events: list) -> int:
    """A number of events after which to stop, most often just after a write."""
    writes = [at for at, event in enumerate(events, 1) if event.kind == "write"]
    return t.random.choice(writes) if writes and t.random.random() < 0.7 else t.random.randint(0, len(events))


def every_prefix(t: Try) -> None:
    """The file after each prefix of the events of one session, mending among them."""
    home = generate.home(t.random)
    data = generate.image(t.random, 28, home, 0.5)
    if t.random.random() < 0.3:
        data = headers_hurt(t, data, home.layout)
    # With work after each line, or with none.
    wanted = script.run(data, script_for(t, data), t.random.choice(((0, 0, 0), (0, 1, 1), (1, 2, 1), (0, 1, 64))))
    for upto in range(len(wanted.events) + 1):
        kept = Kept(data)
        kept.takes(wanted, upto)
        image = stop(t, data, wanted.events, upto)
        kept.after(t, image)
        t.binary.put(image)
        reopen(t, f"after {upto} events", kept.views, image)
    t.counts["sessions stopped after each event"] += 1


def headers_hurt(t: Try, data: bytes, layout: form.Layout) -> bytes:
    """The file with some sectors of its ring of headers hurt."""
    for slot in t.random.sample(range(0, layout.slots, form.HEADERS), t.random.choice((1, 1, min(2, layout.slots // 16)))):
        at = layout.header_sector(slot)
        event = script.Event("write", at, t.random.choice((b"\xa5" * SECTOR, bytes(SECTOR), t.random.randbytes(SECTOR))))
        data = left(t, data, event)
    return data


def mending_stopped(t: Try) -> None:
    """Stops within mending one after another, the next run being stopped too: the view stays what it was."""
    home = generate.home(t.random)
    data = headers_hurt(t, copies.hurt(t.random, generate.image(t.random, 8, home, 0)), home.layout)
    kept = Kept(data)
    for number in range(t.random.randint(1, 6)):
        if t.random.random() < 0.3:
            data = copies.hurt(t.random, data)
        if t.random.random() < 0.3:
            data = headers_hurt(t, data, home.layout)
        wanted = script.run(data, b"")
        upto = moment(t, wanted.events)
        kept.takes(wanted, upto)
        data = stop(t, data, wanted.events, upto)
        kept.after(t, data)
        writes = sum(event.kind == "write" for event in wanted.events)
        t.counts[f"stops in an open that mends {min(writes, 6)} sectors{' or more' * (writes >= 6)}"] += 1
        if t.random.random() < 0.3:
            t.binary.put(data)
            data = session(t, f"the open after stop {number + 1} of mending", data, b"").data
    t.binary.put(data)
    reopen(t, "after stopped mendings", kept.views, data)
    t.counts["chains of stopped mendings"] += 1


def killed(t: Try) -> None:
    """The program itself is killed at its entry into a call; its last write is then torn, and the file opened."""
    plan = Plan(t)
    names = ("pwrite64", "pwrite64", "fdatasync", "fdatasync", "write", "read", "pread64", "openat", "fsync")
    name = t.random.choice(names)
    places = named(plan.calls, name, {"write": 1, "read": 0, "openat": None, "fsync": None}.get(name, plan.fd))
    if not places:
        return
    place = t.random.choice(places)
    got = plan.again(t, [f"{name}:signal=SIGKILL:when={place.number}"])
    upto, printed = before(plan, place)
    what = f"{plan.words[0]} killed at {name} {place.number}"
    expect(f"{what}: status", -signal.SIGKILL, got.status)
    expect(f"{what}: text", printed, got.text)
    same_bytes(what, script.state(plan.data or b"", plan.wanted.events[:upto]), t.binary.get() or b"")
    after_kill(t, plan.data or b"", plan.wanted, upto)
    t.counts[f"kills of {plan.words[0]} at {name}"] += 1


def after_kill(t: Try, data: bytes, wanted: script.Outcome, upto: int) -> None:
    """Tears what wasn't synced, and opens the file."""
    image = stop(t, data, wanted.events, upto)
    t.binary.put(image)
    reopen(t, "after a kill", wanted.kept(upto), image)


def killed_any_time(t: Try) -> None:
    """The program is killed at any time: the file is that of a prefix of the events, with all that it had answered."""
    home = generate.home(t.random)
    data = generate.image(t.random, 16, home, 0.5)
    t.binary.put(data)
    listed = generate.script_of(t.random, generate.machine_of(data), 16, 0.03)
    text = b"".join(line + b"\n" for line in listed)
    wanted = script.run(data, text)
    process = t.binary.start()
    try:
        try:
            process.stdin.write(text)
        except BrokenPipeError:
            pass
        time.sleep(t.random.random() * 0.02)
    finally:
        os.kill(process.pid, signal.SIGKILL)
        printed = process.communicate()[0]
    file = t.binary.get()
    places = [at for at in range(len(wanted.events) + 1) if script.state(data, wanted.events[:at]) == file]
    require("a killed run leaves the file of a prefix of the events", bool(places))
    # An answer may be printed in pieces, so that a part of it is there.
    places = [at for at in places if script.partly(wanted.events, at, printed)]
    require("a killed run has printed what the file's events answer", bool(places))
    # The least of them: the last write may not have been synced.
    after_kill(t, data, wanted, places[0])
    t.counts["kills at any time"] += 1


KINDS = {
    "chain": (chain, 10), "every_prefix": (every_prefix, 4), "mending_stopped": (mending_stopped, 6), "killed": (killed, 6),
    "killed_any_time": (killed_any_time, 2),
}
