"""Tries of faults: system calls that fail, are interrupted or do less than asked, and want of memory. After each of
them the file opens with every append that was answered."""

import resource
import signal
from typing import Optional

from . import form, generate, recovery, script
from .binary import expect, require
from .common import Try, named, on_file, reopen, same_bytes, same_run
from .plan import Plan, before, events_of, every_slot, reads_of, together
from .script import state
from .stops import stop
from .words import command

DISK, READ, WRITE, MEMORY = 5, 6, 7, 8
# The words that execute a script.
SCRIPTED = ("run", "paced")
ERRORS = "EIO ENOSPC EACCES EINVAL EBADF EAGAIN EPIPE ENOMEM EROFS EDQUOT EISDIR ETIMEDOUT".split()


def order(t: Try) -> None:
    """The order of the calls: reads of the copies, a barrier, reads of all, mending; then the writes and syncs of each line,
    with its answer after them."""
    plan = Plan(t, 32)
    expect("the order of writes, syncs and answers", together([(e.kind, e.at, len(e.data)) for e in plan.wanted.events]),
           events_of(plan.calls, plan.fd))
    allowed = {"openat", "fsync", "fdatasync", "pread64", "pwrite64", "read", "write", "close", "brk", "mmap"}
    expect("calls of no other kind", set(), {call.name for call in plan.calls} - allowed)
    order_of_reads(plan)
    first = next((at for at, call in enumerate(plan.calls) if call.name in ("read", "pwrite64", "write")), len(plan.calls))
    late = [call for call in plan.calls[first:] if call in takes(plan) and not t.binary.interpreted]
    expect("no call takes memory after the first read of the script, write or answer", [], late)
    if plan.words[0] not in SCRIPTED or plan.wanted.status == script.REFUSED:
        expect("no read of a script that isn't executed", [], named(plan.calls, "read", 0))
    syncs = named(plan.calls, "fdatasync", plan.fd)
    if not plan.data and syncs:
        # An empty file may be one whose maker was stopped before the file's name was durable.
        folder = [call for call in named(plan.calls, "fsync") if call.fd != plan.fd]
        rest = plan.calls[plan.calls.index(syncs[0]) :]
        after = rest.index(named(rest, "pwrite64", plan.fd)[0])
        require("the first sync of a new file is its folder's too", bool(folder) and rest.index(folder[0]) < after)
    t.counts[f"{plan.words[0]}: runs whose calls were in order"] += 1


def takes(plan: Plan) -> list:
    """The calls that take memory: new maps, and a break above the last one. A lower break gives memory back."""
    listed, last = [], 0
    for call in plan.all:
        if call.name == "mmap" or (call.name == "brk" and call.args[0] != "NULL" and call.result > last):
            listed.append(call)
        last = call.result if call.name == "brk" else last
    return listed


def order_of_reads(plan: Plan) -> None:
    """The copies are read before the barrier, and after it they and each slot once, all before the first write; then reads
    of a script's lines alone."""
    calls, layout = plan.calls, generate.home_of(plan.data).layout
    changes = [at for at, call in enumerate(calls) if call.name in ("fdatasync", "pwrite64") and call.fd == plan.fd]
    barrier = changes[0] if changes else len(calls)
    early, others = reads_of(calls[:barrier], plan.fd, layout)
    expect("reads of slots before the first sync or write", [], others)
    if plan.words[0] == "format":
        require("format reads each copy at most once", len(early) == len(set(early)))
        expect("reads after the first write of format", ([], []), reads_of(calls[barrier:], plan.fd, layout))
        return
    expect("the copies that are read first", [0, 1, 2, 3], early)
    behind = [at for at, call in enumerate(calls) if at > barrier and call.name in ("pwrite64", "read")]
    # Without a script the calls don't say where the open ends.
    opened = behind[0] if behind and plan.words[0] in SCRIPTED else len(calls)
    again, slots = reads_of(calls[barrier:opened], plan.fd, layout)
    found, front = recovery.found(plan.data), form.SECTOR * form.COPIES
    late = [] if plan.words[0] in SCRIPTED else plan.wanted.reads
    wanted = ([] if found.early else [0, 1, 2, 3]) + [at // form.SECTOR for at in late if at < front]
    expect("the copies that are read after the barrier", wanted, again)
    blocks, slots = [at for at in slots if at >= layout.grid()], [at for at in slots if at < layout.grid()]
    require("each slot is read at most once by an open", len(slots) == len(set(slots)))
    if found.refusal:
        require("each trailer block is read at most twice by an open", all(blocks.count(at) <= 2 for at in blocks))
    else:
        chain = [layout.at(form.Place(form.GRID, address)) for address, _ in found.view.checkpoint.chain]
        later = [at for at in late if at >= front]
        expect("the trailer blocks that an open reads, back and forwards", chain[::-1] + chain + later, blocks)
        expect("the header sectors and slots that an open reads", every_slot(layout), sorted(slots))
        copies, others = reads_of(calls[opened:], plan.fd, layout)
        listed = plan.wanted.reads if plan.words[0] in SCRIPTED else []
        expect("the copies that are read after the open", [at // form.SECTOR for at in listed if at < front], copies)
        expect("what else is read after the open", [at for at in listed if at >= front], others)


def with_one_failing(t: Try, plan: Plan, name: str, places: list) -> tuple:
    """Runs the plan again with one of these calls failing, or all from it on. Gives which, and what came of it."""
    number = t.random.randrange(len(places))
    error, on = t.random.choice(ERRORS), t.random.choice(("", "+"))
    return number, plan.again(t, [f"{name}:error={error}:when={places[number].number}{on}"])


def disk(t: Try, plan: Optional[Plan] = None) -> Optional[bytes]:
    """One call on the file fails: status 5, and the text of what went before. A stop may tear the write that failed."""
    plan = plan or Plan(t)
    name = t.random.choice(("pwrite64", "pwrite64", "fdatasync", "fdatasync", "pread64", "pread64", "openat", "fsync"))
    places = named(plan.calls, name, None if name in ("openat", "fsync") else plan.fd)
    if not places:
        return plan.data
    # Half the failing calls are among the first ones, which are those of the copies.
    places = places[:8] if t.random.random() < 0.5 else places
    number, got = with_one_failing(t, plan, name, places)
    upto, _ = before(plan, places[number])
    data = plan.ends(t, f"faults of {name}", got, upto, DISK)
    if name in ("pwrite64", "fdatasync") and t.random.random() < 0.5:
        # The write that failed may have been done in part.
        upto += name == "pwrite64"
        return plan.torn(t, f"faults of {name}", stop(t, plan.data or b"", plan.wanted.events, upto), upto)
    return data


def output(t: Try, plan: Optional[Plan] = None) -> Optional[bytes]:
    """One write to standard output fails: status 7, and what the line did is in the file."""
    plan = plan or Plan(t)
    places = named(plan.calls, "write", 1)
    if not places:
        return plan.data
    number, got = with_one_failing(t, plan, "write", places)
    upto, printed = before(plan, places[number])
    return plan.ends(t, "faults of write", got, upto, WRITE, printed)


def script_read(t: Try, plan: Optional[Plan] = None) -> Optional[bytes]:
    """One read of standard input fails: status 6, after the lines that were there before."""
    plan = plan or Plan(t)
    places = named(plan.calls, "read", 0)
    if not places:
        return plan.data
    number, got = with_one_failing(t, plan, "read", places)
    given = plan.text[: sum(call.result for call in places[:number])]
    whole = given[: given.rfind(b"\n") + 1]
    upto = len(command(plan.data, plan.words, whole).events)
    return plan.ends(t, "faults of read", got, upto, READ)


def in_a_row(t: Try) -> None:
    """Several sessions with faults over one file."""
    data = generate.image(t.random, 8, hurt=0.4)
    for _ in range(t.random.randint(2, 4)):
        data = t.random.choice((disk, disk, output, script_read))(t, Plan(t, 8, data))
    t.counts["rows of sessions with faults"] += 1


def interrupted(t: Try) -> None:
    """A call is interrupted by a signal, once or a few times: it is done again, and the run is as if it weren't."""
    plan = Plan(t)
    name, fd = t.random.choice((
        ("pread64", plan.fd), ("pwrite64", plan.fd), ("read", 0), ("write", 1), ("fdatasync", plan.fd), ("fsync", None),
    ))
    places = named(plan.calls, name, fd)
    if not places:
        return
    first = t.random.choice(places).number
    got, calls = plan.traced(t, [f"{name}:error=EINTR:when={first}..{first + t.random.randint(0, 5)}"])
    calls, fd = on_file(t, calls)
    what = f"interruptions of {name}"
    expect(f"{what}: the calls that were done", events_of(plan.calls, plan.fd), events_of(calls, fd))
    folders = [len([c for c in named(run, "fsync") if c.result == 0]) for run in (plan.calls, calls)]
    expect(f"{what}: syncs of the folder", folders[0], folders[1])
    plan.ends(t, what, got, len(plan.wanted.events), plan.wanted.status)


def short(t: Try) -> None:
    """A write that took a part alone goes on after it; one that took nothing is a fault."""
    plan = Plan(t)
    name, fd, kind, fault = t.random.choice((("pwrite64", plan.fd, "write", DISK), ("write", 1, "answer", WRITE)))
    places = named(plan.calls, name, fd)
    if not places:
        return
    number = t.random.randrange(len(places))
    at, printed = before(plan, places[number])
    event, length = plan.wanted.events[at], places[number].result
    taken = t.random.choice((0, 1, length - 1, t.random.randrange(length)))
    got = plan.again(t, [f"{name}:retval={taken}:when={places[number].number}"])
    if taken == 0:
        plan.ends(t, f"a {name} that takes nothing", got, at, fault, printed)
        return
    # The taken bytes went nowhere, since the call wasn't done.
    text, events = plan.wanted.text, plan.wanted.events
    if kind == "write":
        rest = event._replace(at=event.at + taken, data=event.data[taken:])
        events = events[:at] + [rest] + events[at + 1 :]
        # What a line reads may be what was lost so.
        reads = (b"\nprepare ", b"\nreply ", b"\nblock ", b"\nchecked ")
        text = got.text if any(word in text for word in reads) else script.answers(events)
    else:
        text = printed + text[len(printed) + taken :]
    expect(f"a short {name}: text", text, got.text)
    expect(f"a short {name}: status", plan.wanted.status, got.status)
    same_bytes(f"a short {name}", state(plan.data or b"", events), t.binary.get() or b"")
    t.counts[f"short {name}"] += 1


def ended_early(t: Try) -> None:
    """The input ends at one of its reads: the lines so far are the script, the last one ended by the input."""
    plan = Plan(t)
    places = named(plan.calls, "read", 0)
    if not places:
        return
    number = t.random.randrange(len(places))
    got = plan.again(t, [f"read:retval=0:when={places[number].number}+"])
    given = plan.text[: sum(call.result for call in places[:number])]
    wanted = command(plan.data, plan.words, given)
    same_run("an input that ends early", wanted, got)
    same_bytes("an input that ends early", wanted.data, t.binary.get())
    t.counts["inputs that end early"] += 1


def unaffected(t: Try) -> None:
    """Closes that fail change nothing."""
    if t.binary.interpreted:
        return
    plan = Plan(t)
    rule = f"close:error=EIO:when={1 + len(named(loading(plan), 'close'))}+"
    plan.ends(t, "faults without effect", plan.again(t, [rule]), len(plan.wanted.events), plan.wanted.status)


def loading(plan: Plan) -> list:
    """The calls of the program's loader: those up to its last close of a library."""
    last = [at for at, call in enumerate(plan.all) if call.name == "openat" and ".so" in call.args[1]][-1]
    closed = next(at for at, call in enumerate(plan.all) if at > last and call.name == "close")
    return plan.all[: closed + 1]


def memory(t: Try) -> None:
    """Want of memory, from the start or from one later take on: status 8, nothing written, nothing of the script read."""
    if t.binary.interpreted:
        return
    plan = Plan(t)
    first = [call for call in takes(plan) if call.name == "brk"][:1]
    later = [call for call in takes(plan) if call in plan.calls]
    if not first + later:
        return
    place = t.random.choice(first + later)
    counts = {name: len(named(plan.all[: plan.all.index(place)], name)) for name in ("brk", "mmap")}
    if place in first and place not in later:
        # The loader and the runtime map what they need first, which is no take of the program's.
        counts["mmap"] = len(named(plan.all, "mmap"))
    # A kernel that refuses memory answers brk with the old break, which is below the one that was asked for.
    got, calls = plan.traced(t, [f"brk:retval=0:when={counts['brk'] + 1}+", f"mmap:error=ENOMEM:when={counts['mmap'] + 1}+"])
    maps = any(call.name == "mmap" for call in plan.all[plan.all.index(place) :])
    if got.status != MEMORY and (plan.wanted.status == script.REFUSED or place not in first or maps):
        # A refusal may come before memory is asked for, and a take may have been more than was needed: where the break is
        # refused the C library maps a piece that may serve what would have been mapped by itself.
        plan.ends(t, "wants of memory that didn't matter", got, len(plan.wanted.events), plan.wanted.status)
        return
    expect("want of memory: status", MEMORY, got.status)
    expect("want of memory: text", b"", got.text)
    same_bytes("want of memory", plan.data or b"", t.binary.get() or b"")
    calls, fd = on_file(t, calls)
    expect("want of memory: reads of the script, writes and syncs", ([], []), (named(calls, "read", 0), events_of(calls, fd)))
    t.counts[f"{plan.words[0]}: wants of memory"] += 1


def file_limit(t: Try) -> None:
    """The file may not grow past a limit: a real short write, then status 5; the file holds what fitted."""
    plan = Plan(t, 8)
    writes = [at for at, event in enumerate(plan.wanted.events) if event.kind == "write"]
    if not writes:
        return
    at = t.random.choice(writes[:4] if t.random.random() < 0.3 else writes)
    event = plan.wanted.events[at]
    limit = event.at + t.random.choice((0, 1, form.HEADER, 2048, t.random.randrange(len(event.data))))
    # The first write that passes the limit is the one that fails.
    at = next(k for k in writes if plan.wanted.events[k].at + len(plan.wanted.events[k].data) > limit)
    event = plan.wanted.events[at]
    t.binary.put(plan.data)

    def before():
        signal.signal(signal.SIGXFSZ, signal.SIG_IGN)
        resource.setrlimit(resource.RLIMIT_FSIZE, (limit, limit))

    got = t.binary.run(plan.text, plan.words, before=before)
    expect("a limit of the file: status", DISK, got.status)
    expect("a limit of the file: text", script.answers(plan.wanted.events[:at]), got.text)
    data = state(plan.data or b"", plan.wanted.events[:at])
    fits = event.data[: max(0, limit - event.at)]
    data = script.apply(data, event._replace(data=fits)) if fits else data
    same_bytes("a limit of the file", data, t.binary.get() or b"")
    # The write that failed had begun: what fitted of it may be the whole unit.
    reopen(t, "a limit of the file", plan.wanted.kept(at + 1), t.binary.get())
    t.counts["limits of the file's length"] += 1


KINDS = {
    "order": (order, 4), "disk": (disk, 8), "output": (output, 4), "script_read": (script_read, 4),
    "in_a_row": (in_a_row, 3),
    "interrupted": (interrupted, 4), "short": (short, 4), "ended_early": (ended_early, 2), "unaffected": (unaffected, 2),
    "memory": (memory, 1), "file_limit": (file_limit, 3),
}
