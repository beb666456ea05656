"""What worked rows are made of: a new file, scripts of many requests, and files that are struck or forged after a script."""

from . import form, generate, script, units
from .copy_rows import A5, HOME
from .form import SECTOR, SMALL, Home, Place

# A new file: header sectors with reserved headers stand after the copies.
NEW = script.fresh(HOME)


def with_headers(copies: bytes) -> bytes:
    """These copies in a new file."""
    return form.part(copies, 0, 4 * SECTOR) + NEW[4 * SECTOR :]


def ops(count: int) -> str:
    """This many requests of client 1, each with its reply."""
    return "".join(f"append 1 {op} -\nreply {op} -\n" for op in range(1, count + 1))


def answers(count: int) -> str:
    return "".join(f"appended {op}\nreplied {op}\n" for op in range(1, count + 1))


def after(text: str, data: bytes = NEW) -> bytes:
    """A file after a script."""
    return script.run(data, text.encode()).data


def torn(data: bytes, text: str, at: int) -> bytes:
    """A file after a script that was stopped within its last write to a sector, which is left A5."""
    events = script.run(data, text.encode()).events
    last = max(number for number, one in enumerate(events)
               if one.kind == "write" and one.at <= SECTOR * at < one.at + len(one.data))
    return script.state(data, [*events[: last + 1], script.Event("write", SECTOR * at, A5)])


def struck(data: bytes, text: str, *strikes) -> bytes:
    """A file after a script, with sectors that show these bytes, or what another one showed after the script."""
    return at_rest(script.run(data, text.encode()).data, *strikes)


def at_rest(data: bytes, *strikes) -> bytes:
    """A file that isn't opened before its sectors show these bytes, or what another one showed."""
    events = [script.Event("write", SECTOR * at, form.sector(data, what) if isinstance(what, int) else what)
              for at, what in strikes]
    return script.state(data, events)


def with_copies(data: bytes) -> bytes:
    """A file with the copies of a new one."""
    return NEW[: 4 * SECTOR] + data[4 * SECTOR :]


def spoiled(data: bytes, text: str, at: int) -> bytes:
    """A file after a script, with another byte at an offset."""
    after = script.run(data, text.encode()).data
    return script.state(after, [script.Event("write", at, bytes([after[at] ^ 1]))])


def forged(data: bytes, text: str, unit: dict, zone: str, index: int, home: Home = HOME, boot: int = 0) -> bytes:
    """A file after a script, with a unit of these fields at a place; with a boot it is of version 2, and else of version 1."""
    after = script.run(data, text.encode()).data
    fields = units.fields_of(home, **unit)
    whole = units.seal(units.in_boot(fields, boot) if boot else fields)
    return script.state(after, [script.Event("write", SMALL.at(Place(zone, index)), whole)])


def followed(text: str, home: Home = HOME, **changes) -> bytes:
    """A new file after a script, with one more prepare in both rings: that of client 1's next request, but for the changes."""
    after = script.run(script.fresh(home), text.encode()).data
    m = generate.machine_of(after)
    place = m.place_of(1)
    one = units.prepare(home, m.found_boot, m.tail[-1].checksum, 1, m.head() + 1, m.sessions[place].request + 1, b"", m.replies, 1)
    whole = units.seal(dict(one.fields(), **changes))
    slot = one.op % home.layout.slots
    places = (Place(form.WAL_PREPARES, slot), Place(form.WAL_HEADERS, slot))
    return script.state(after, [script.Event("write", home.layout.at(place), whole) for place in places])
