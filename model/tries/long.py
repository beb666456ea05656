"""A long session: ten thousand commands of all kinds, stopped at two hundred random calls. It is only made where it is asked
for."""

import signal

from . import form, generate, script
from .binary import expect, require
from .common import Try, keeps, reopen, same_bytes
from .form import Home, Layout
from .stops import stop

COMMANDS, STOPS = 10_000, 200
CALLS = ("pwrite64", "pwrite64", "pwrite64", "fdatasync", "fdatasync", "write", "pread64")
HOMES = (Home(form.SMALL, 7), Home(Layout(16, 4096, 8, 4096, 24), 7), Home(Layout(32, 4096, 4, 4096, 1024), 9))


def prefix(data: bytes, events: list, file: bytes, printed: bytes) -> int:
    """The least number of events that leave this file and have printed this, or a part of the next answer after it."""
    image = bytearray(data)
    for upto in range(len(events) + 1):
        if image == file and script.partly(events, upto, printed):
            return upto
        if upto < len(events) and events[upto].kind == "write":
            event = events[upto]
            image += bytes(max(0, event.at - len(image)))
            image[event.at : event.at + len(event.data)] = event.data
    return -1


def long(t: Try) -> None:
    """Each part of the session ends with a kill at a random call; what wasn't synced is torn, and the next part goes on."""
    home = t.random.choice(HOMES)
    data, done, stops = script.fresh(home), 0, 0
    while done < COMMANDS or stops < STOPS:
        count = max(1, 2 * COMMANDS // STOPS)
        listed = generate.script_of(t.random, generate.machine_of(data), count, 0.03, t.random.choice((1, 100, None)))
        text = generate.text_of(t.random, listed)
        wanted = script.run(data, text)
        # Somewhere within the calls that this part makes.
        name = t.random.choice(CALLS)
        number = t.random.randint(1, max(1, sum(one.kind == kind_of(name) for one in wanted.events)))
        t.binary.put(data)
        got, _ = t.binary.trace(text, [f"{name}:signal=SIGKILL:when={number + (60 if name == 'pread64' else 0)}"])
        what = f"part {stops + 1} of a long session, killed at {name} {number}"
        if got.status == wanted.status and got.text == wanted.text:
            same_bytes(what, wanted.data, t.binary.get())
            data, done = wanted.data, done + count
            continue
        expect(f"{what}: status", -signal.SIGKILL, got.status)
        upto = prefix(data, wanted.events, t.binary.get(), got.text)
        require(f"{what}: the file and the text of a prefix of the events", upto >= 0)
        data, views = stop(t, data, wanted.events, upto), wanted.kept(upto)
        keeps(what, views, data)
        done += got.text.count(b"\n")
        stops += 1
        if stops % 10 == 0:
            t.binary.put(data)
            data = reopen(t, what, views, data)
            print(f"{done} commands, {stops} stops, {len(data)} bytes", flush=True)
    t.counts["commands of long sessions"] += done
    t.counts["stops of long sessions"] += stops


def kind_of(name: str) -> str:
    """The events of a call."""
    return {"pwrite64": "write", "fdatasync": "sync", "write": "answer", "pread64": "answer"}[name]


KINDS = {"long": (long, 0)}
