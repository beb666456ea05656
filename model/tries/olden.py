"""Files of version 1, as a program of that version left them: what a file of version 2 has, without boots and groups."""

from . import form, recovery, script, units
from .form import CLIENT_REPLIES, COPIES, GRID, SECTOR, WAL_PREPARES, Home, Image, Place
from .grid import Event
from .machine import Machine
from .units import RESERVED, Unit


def older(unit: Unit, **others) -> Unit:
    """The same unit in version 1, with other fields."""
    whole = units.seal(dict(unit.fields(), version=1, boot=0, group=0, group_last=0, **others), unit.body)
    return Unit(whole[: form.HEADER], unit.body)


def put(home: Home, place: Place, unit: Unit) -> Event:
    return Event("write", home.layout.at(place), form.whole_sectors(unit.encode()))


def rings(home: Home, m: Machine) -> list:
    """The writes of both rings and of the replies."""
    slots = [units.seal(units.fields_of(home, RESERVED, slot=slot)) for slot in range(home.layout.slots)]
    parent, checks, events = m.durable.op_checksum, {}, []
    for one in m.tail:
        one = older(one, parent=parent)
        parent = checks[one.op] = one.checksum
        slot = one.op % home.layout.slots
        slots[slot] = one.header
        events.append(put(home, Place(WAL_PREPARES, slot), one))
    for place in m.places_stored():
        one = m.stored[place]
        events.append(put(home, Place(CLIENT_REPLIES, place), older(one, parent=checks.get(one.op, one.parent))))
    return [Event("write", SECTOR * COPIES, b"".join(slots)), *events]


def checkpoint(home: Home, m: Machine) -> tuple:
    """The writes of its blocks and of its trailer, and the checkpoint that these are."""
    blocks = [older(m.look(Place(GRID, address))) for address, _ in m.durable.references]
    durable = m.durable._replace(references=tuple((one.op, one.checksum) for one in blocks), chain=())
    text, cap, before, chain = durable.text(home.layout), home.layout.block_max(), None, []
    for index, (address, _) in enumerate(m.durable.chain):
        linked = {"parent": before.checksum, "request": before.op} if before else {}
        old = m.look(Place(GRID, address))
        before = older(Unit(old.header, text[cap * index : cap * (index + 1)]), **linked)
        chain.append(before)
    return [put(home, Place(GRID, one.op), one) for one in blocks + chain], durable._replace(chain=tuple((one.op, one.checksum) for one in chain))


def file_of(data: bytes) -> bytes:
    """The file of version 1 that has what this one of version 2 has."""
    found = recovery.found(data)
    m, home = Machine(found, Image(data)), found.view.home
    events, durable = checkpoint(home, m)
    content = durable.content(home, m.recorded())._replace(version=1, boot=0, behind=bytes(len(found.content.behind)))
    events = rings(home, m) + events + [Event("write", SECTOR * copy, content.encode(copy)) for copy in range(COPIES)]
    return script.state(b"", events)
