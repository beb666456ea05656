"""Units with right checksums whose fields break one rule, or just keep it."""

from random import Random

from . import form, generate, units
from .form import LIMIT, SECTOR, Place
from .machine import Machine
from .recovery import Session
from .units import PREPARE, RESERVED

TOP = LIMIT


def next_prepare(random: Random, m: Machine) -> tuple:
    """The fields and the body of a prepare that most often fits after the tail."""
    op, data = m.head() + 1, generate.body(random, m.layout)
    may = generate.appends(m) or [(0, 1)]
    client, request = random.choice(may)
    fields = units.fields_of(
        m.home, PREPARE, data, parent=m.last_checksum(), client=form.number(client or generate.new_client(random, m)), op=op,
        request=request, mark=m.replies, checkpoint=m.durable.sequence, slot=op % m.layout.slots,
    )
    return units.in_boot(fields, boot_of(m)), data


def boot_of(m: Machine) -> int:
    """The boot in which a unit of the file was made last; a new file has none."""
    return max(1, m.found_boot)


def next_reply(random: Random, m: Machine) -> tuple:
    """The fields and the body of a reply that most often is the next one, or one that is stored."""
    data = generate.body(random, m.layout)
    if not m.sessions:
        return next_prepare(random, m)
    op = m.replies + random.choice((0, 1, 1, 1, 2))
    place = min(range(len(m.sessions)), key=lambda place: abs(m.sessions[place].op - op))
    one = units.reply(m.home, boot_of(m), m.waiting.get(op, bytes(16)), m.sessions[place], place, data, m.head(), m.durable.sequence)
    return dict(one.fields()), data


def next_reserved(random: Random, m: Machine) -> tuple:
    """The fields of a reserved header."""
    return units.in_boot(units.fields_of(m.home, RESERVED, slot=random.randrange(m.layout.slots)), 0), b""


def next_block(random: Random, m: Machine) -> tuple:
    """The fields and the body of a block or of a trailer's first block, which belong into the grid."""
    data, address = generate.body(random, m.layout), random.choice((1, 2, m.layout.blocks, m.layout.blocks + 1))
    if random.random() < 0.5:
        fields = units.fields_of(m.home, units.BLOCK, data, op=address, block_kind=random.choice((1, 255)))
    else:
        fields = units.fields_of(m.home, units.TRAILER, data, op=address, checkpoint=random.choice((1, 2, TOP)))
    return units.in_boot(fields, boot_of(m)), data


def changes(random: Random, m: Machine, f: dict, data: bytes) -> tuple:
    """A field and a value for it, at or over an edge of one of its rules."""
    op, slots, slot = f["op"], m.layout.slots, m.layout.message_size
    other = (m.home.cluster + random.choice((1, 2**64, 2**127))) % 2**128
    client = int.from_bytes(f["client"], "little")
    last = m.tail[-1].mark if m.tail else 0
    return random.choice((
        ("client", form.number(0)), ("client", form.number(2**128 - 1)), ("client", form.number((client + 1) % 2**128)),
        ("client", form.number(m.sessions[0].client if m.sessions else 1)), ("request", 0), ("request", 1),
        ("request", 2), ("request", f["request"] + 1), ("request", max(0, f["request"] - 1)),
        ("request", TOP), ("request", TOP + 1), ("request", 2**64 - 1),
        ("mark", 0), ("mark", max(0, op - 1)), ("mark", op), ("mark", op + 1), ("mark", 2**64 - 1), ("mark", last),
        ("mark", max(0, last - 1)), ("mark", max(0, op - 8)), ("mark", max(0, op - 9)), ("mark", m.head()),
        ("mark", m.head() + 1), ("mark", m.replies + 1), ("mark", max(0, m.replies - 1)), ("mark", TOP), ("mark", TOP + 1),
        ("checkpoint", 0), ("checkpoint", 1), ("checkpoint", m.durable.sequence), ("checkpoint", m.durable.sequence + 1),
        ("checkpoint", TOP), ("checkpoint", TOP + 1), ("op", 0), ("op", op + 1), ("op", max(0, op - 1)),
        ("op", op + slots), ("op", slots), ("op", slots + 1), ("op", TOP), ("op", TOP + 1), ("op", 2**64 - 1),
        ("op and slot", op + slots), ("op and slot", op + 1), ("op and slot", TOP), ("cluster", form.number(0)),
        ("cluster", form.number(other)), ("cluster", form.number(other)),
        ("size", 0), ("size", 255), ("size", 256), ("size", form.HEADER + len(data) + 1), ("size", slot),
        ("size", slot + 1), ("size", slot + SECTOR), ("size", 2**32 - 1),
        ("slot", (op + 1) % slots), ("slot", op % slots + slots), ("slot", m.layout.clients - 1), ("slot", m.layout.clients),
        ("slot", 0), ("slot", 1), ("slot", 2**32 - 1),
        ("kind", 0), ("kind", 1), ("kind", 2), ("kind", 3), ("kind", 4), ("kind", 5), ("kind", 6), ("kind", 255),
        ("block_kind", 1), ("block_kind", 255), ("version", 0), ("version", 1), ("version", 2), ("version", 257), ("boot", 0),
        ("boot", 1), ("boot", m.found_boot + 1), ("boot", max(0, m.found_boot - 1)), ("boot", TOP), ("boot", TOP + 1), ("boot", 2**63), ("group", 0), ("group", 1), ("group", op),
        ("group", op + 1), ("group", max(0, op - 7)), ("group", max(0, op - 8)), ("group_last", 0), ("group_last", max(0, op - 1)),
        ("group_last", op), ("group_last", op + 7), ("group_last", op + 8), ("zero", bytes(107) + b"\1"),
        ("zero", b"\1" + bytes(107)), ("parent", bytes(16)),
        ("parent", bytes(15) + b"\1"), ("parent", random.choice(m.tail).checksum if m.tail else bytes(16)),
    ))


def misfits(random: Random, m: Machine, f: dict) -> tuple:
    """A field and a value for it with which a prepare may not fit after the tail."""
    last = m.tail[-1].mark if m.tail else 0
    waits = [one for one in m.sessions if one.op > m.replies]
    known = random.choice(waits or m.sessions or [Session(1, 1, 1)])
    return random.choice((
        ("parent", random.randbytes(16)), ("mark", max(0, last - 1)), ("mark", last), ("mark", max(0, f["op"] - 9)),
        ("mark", max(0, f["op"] - 8)), ("request", f["request"] + 1), ("request", 2), ("client", form.number(known.client)),
        ("client", form.number(generate.new_client(random, m))),
    ))


def sealed(random: Random, m: Machine, f: dict, data: bytes) -> bytes:
    """A unit of these fields, up to two of them changed; now and then of another boot, or of version 1."""
    f = units.in_boot(f, random.choice((1, m.found_boot + 1, max(1, m.found_boot - 1), TOP))) if random.random() < 0.1 else dict(f)
    f = dict(f, version=1, boot=0, group=0, group_last=0) if random.random() < 0.05 else f
    for _ in range(random.choice((0, 0, 1, 1, 1, 1, 2))):
        fits = f["kind"] == PREPARE and random.random() < 0.5
        name, value = misfits(random, m, f) if fits else changes(random, m, f, data)
        if name == "op and slot":
            f["slot"], name = value % m.layout.slots, "op"
        f[name] = value % 2**64 if isinstance(value, int) and name in ("op", "request", "group", "group_last") else value
    whole = units.seal(f, data)
    if f["size"] != form.HEADER + len(data) and random.random() < 0.5:
        # The checksum of the body is that of the stated size.
        padded = data + bytes(2 * m.layout.message_size)
        f["checksum_body"] = form.check(padded[: max(0, f["size"] - form.HEADER)])
        rest = units.FIELDS.pack(*(f[key] for key in units.NAMES))[16:]
        whole = form.check(rest) + rest + data
    return random.randbytes(16) + whole[16:] if random.random() < 0.05 else whole


def place_for(random: Random, m: Machine, whole: bytes) -> Place:
    """Where a forged unit is put: most often where it belongs."""
    f = dict(zip(units.NAMES, units.FIELDS.unpack(whole[: form.HEADER])))
    layout = m.layout
    zones = (form.WAL_PREPARES, form.WAL_HEADERS, form.CLIENT_REPLIES)
    own = {1: form.WAL_HEADERS, 2: random.choice(zones[:2]), 3: form.CLIENT_REPLIES}.get(f["kind"], random.choice(zones))
    zone = own if random.random() < 0.9 else random.choice(zones)
    count = layout.clients if zone == form.CLIENT_REPLIES else layout.slots
    return Place(zone, f["slot"] if f["slot"] < count and random.random() < 0.93 else random.randrange(count))


def put(data: bytearray, at: int, piece: bytes) -> None:
    """Puts bytes into a file, which grows where it ends before them."""
    if len(data) < at:
        data += bytes(at - len(data))
    data[at : at + len(piece)] = piece


def forge(random: Random, m: Machine, data: bytearray) -> str:
    """Puts one forged unit into a file; a prepare's header most often stands in both rings. Gives its kind."""
    makers = {"prepare": next_prepare, "reply": next_reply, "reserved": next_reserved, "block": next_block}
    name = random.choice(("prepare", "prepare", "prepare", "reply", "reply", "reply", "reserved", "block"))
    make = makers[name]
    fields, body = make(random, m)
    whole = sealed(random, m, fields, body)
    place = place_for(random, m, whole)
    at = m.layout.at(place)
    room = m.layout.message_size
    put(data, at, whole[: form.HEADER] if place.zone == form.WAL_HEADERS else form.whole_sectors(whole)[:room])
    if place.zone == form.WAL_PREPARES and random.random() < 0.5:
        put(data, m.layout.at(Place(form.WAL_HEADERS, place.index)), whole[: form.HEADER])
    if place.zone == form.CLIENT_REPLIES and random.random() < 0.1:
        # What stands after the body doesn't matter.
        put(data, at + room - 200, random.randbytes(200))
    return name
