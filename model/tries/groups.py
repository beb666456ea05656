"""Tries of groups: prepares that were written together after a tail, of which a stop or damage left a part."""

from random import Random

from . import form, generate, recovery, script, units
from .common import Try, reopen, session
from .damage import look, outcome_of
from .forge import boot_of, put
from .form import HEADER, SECTOR, Place
from .knows import knows
from .machine import Machine
from .stops import left as torn_write

# What is left of a prepare: it and its header, the prepare alone, the header alone, or nothing.
ALL, PREPARE, TOLD, NOTHING = range(4)


def askers(random: Random, m: Machine, count: int) -> list:
    """As many clients as may be with their next requests, each once: known ones whose reply is stored, and new ones."""
    known = [(one.client, one.request + 1) for one in m.sessions if one.op <= m.replies]
    random.shuffle(known)
    taken, fresh = {one.client for one in m.sessions}, []
    while len(fresh) < count:
        client = random.randint(1, 10**6)
        if client not in taken:
            taken.add(client)
            fresh.append((client, 1))
    room = max(0, m.layout.clients - len(m.sessions))
    several = known + fresh[:room]
    random.shuffle(several)
    # Where there are too few, the last ones don't fit.
    return (several + fresh[room:])[:count]


def members(random: Random, m: Machine, boot: int, count: int) -> list:
    """The prepares of a group after the tail, most often one that fits, each with its slot."""
    first, parent, listed = m.head() + 1, m.last_checksum(), []
    # Now and then a member names another group than the others.
    odd = random.randrange(count) if random.random() < 0.15 else None
    for at, (client, request) in enumerate(askers(random, m, count)):
        op, body = first + at, generate.body(random, m.layout) if random.random() < 0.3 else b""
        fields = units.fields_of(m.home, units.PREPARE, body, parent=parent, client=form.number(client), op=op, request=request,
                                 mark=m.replies, checkpoint=m.durable.sequence, slot=op % m.layout.slots)
        group, last = first, first + count - 1
        if at == odd:
            group, last = random.choice(((op, last), (group, op), (group, last + 1), (max(1, group - 1), max(op, last - 1))))
        whole = units.seal(dict(units.in_boot(fields, boot), group=group, group_last=last), body)
        listed.append((op % m.layout.slots, units.Unit(whole[:HEADER], body)))
        parent = whole[:16]
    return listed


def lefts(random: Random, count: int) -> list:
    """What is left of each member: all of all, the prepares alone, a group that was cut with no header of it, or anything."""
    what = random.random()
    if what < 0.15:
        return [ALL] * count
    if what < 0.3:
        return random.choice(([PREPARE] * count, [random.choice((ALL, PREPARE)) for _ in range(count)]))
    if what < 0.6:
        cut = random.choice(([PREPARE] * random.randrange(count), [random.choice((PREPARE, NOTHING)) for _ in range(count)]))
        return (cut + [NOTHING] * count)[:count]
    return random.choices((ALL, PREPARE, TOLD, NOTHING), (4, 4, 1, 2), k=count)


def put_left(data: bytearray, layout: form.Layout, slot: int, one: units.Unit, left: int) -> None:
    if left in (ALL, PREPARE):
        put(data, layout.at(Place(form.WAL_PREPARES, slot)), form.whole_sectors(one.header + one.body))
    if left in (ALL, TOLD):
        put(data, layout.at(Place(form.WAL_HEADERS, slot)), one.header)


def put_group(random: Random, m: Machine, data: bytearray) -> str:
    """Puts a group of two to eight after the tail, what is left of it; says what was put."""
    boot, count = boot_of(m), random.choice((1, 2, 2, 3, 3, 4, 5, 8))
    older = random.random() < 0.15 and boot > 1
    listed, kept = members(random, m, boot - 1 if older else boot, count), lefts(random, count)
    if not older and boot > 1 and random.random() < 0.3:
        # An earlier boot left a part of a group of its own there.
        for slot, one in random.sample(members(random, m, boot - 1, count), random.randint(1, count)):
            put_left(data, m.layout, slot, one, PREPARE)
    for (slot, one), left in zip(listed, kept):
        put_left(data, m.layout, slot, one, left)
    whole = all(left in (ALL, PREPARE) for left in kept)
    told = any(left in (ALL, TOLD) for left in kept)
    return f"{'of an earlier boot' if older else 'whole' if whole else 'cut'}, {'told' if told else 'untold'}"


def hurt_headers(random: Random, m: Machine, data: bytearray) -> None:
    """Now and then the sectors of headers that a group may have are lost."""
    for slot in {(m.head() + at) % m.layout.slots // 16 for at in (1, 8)}:
        if random.random() < 0.2:
            put(data, m.layout.at(Place(form.WAL_HEADERS, 16 * slot)), b"\xa5" * SECTOR)


def grouped(t: Try) -> None:
    """A group after the tail, of which some prepares and some headers are left."""
    random, home = t.random, generate.home(t.random)
    data = bytearray(generate.image(random, 31, home))
    m = generate.machine_of(bytes(data))
    if m.home != home:
        return
    before = recovery.view_of(bytes(data))
    kind = put_group(random, m, data)
    hurt_headers(random, m, data)
    after = recovery.view_of(bytes(data))
    what = "is refused" if after is None else "leaves the view" if after == before else "is found"
    t.counts[f"groups {kind}: {what}"] += 1
    t.binary.put(bytes(data))
    outcome_of(t, "files with groups", bytes(data))
    data = session(t, "a group", bytes(data), look(t, bytes(data))).data
    session(t, "a group, once more", data, generate.good_script(random, data, 3))


def staged(random: Random, m: Machine) -> list:
    """Lines that stage one to eight requests, as many as the file has room for."""
    waiting, slots = m.head() - m.replies, m.durable.op + m.layout.slots - m.head()
    known = sum(one.op <= m.replies for one in m.sessions) + m.layout.clients - len(m.sessions)
    count = min(random.choice((1, 2, 2, 3, 3, 4, 5, 8)), recovery.PIPELINE - waiting, slots, known)
    bodies = [generate.body(random, m.layout) if random.random() < 0.3 else b"" for _ in range(count)]
    return [b"stage %d %d %s" % (*who, body.hex().encode() or b"-") for who, body in zip(askers(random, m, count), bodies)]


def flushed(t: Try) -> None:
    """A flush of up to eight requests, stopped before each of its syncs with every subset of what is loose there as it was written."""
    data = generate.image(t.random, 31, generate.home(t.random))
    lines = staged(t.random, generate.machine_of(data))
    start = len(script.run(data, generate.text_of(t.random, lines)).events)
    wanted = script.run(data, generate.text_of(t.random, [*lines, b"flush"]))
    loose, base = [], script.state(data, wanted.events[:start])
    for upto, event in enumerate(wanted.events[start:], start + 1):
        if event.kind == "write":
            loose.append(event)
        elif event.kind == "sync":
            for subset in range(2 ** len(loose)):
                image = base
                for at, write in enumerate(loose):
                    image = script.state(image, [write]) if subset >> at & 1 else torn_write(t, image, write)
                t.binary.put(image)
                reopen(t, f"a flush of {len(lines)}, {subset:b} of {len(loose)}", wanted.kept(upto - 1), image)
            base, loose = script.state(data, wanted.events[:upto]), []
    t.counts[f"flushes of {len(lines)} that were stopped in every way"] += 1


KINDS = {"grouped": (grouped, 8), **({"flushed": (flushed, 2)} if knows("groups") else {})}
