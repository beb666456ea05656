"""Random layouts, files, lines and scripts."""

from random import Random
from typing import Optional

from . import copies, form, generate_grid, recovery, script, superblock
from .form import LIMITS, SECTOR, Home, Image, Layout
from .knows import knows
from .machine import Machine, opens

SIZES = (0, 0, 1, 2, 127, 128, 2048, 3839, 3840, 3841, 5000, 7935, 7936, 12000)
DIGITS = b"0123456789"
BYTES_OF_LINES = b"append reply lookup -0123456789abcdefABCDEF \t\r\0+_.xX\n\xff"


def one_of(random: Random, low: int, high: int) -> int:
    """A number of any length from `low` to `high`, often at an end."""
    if random.random() < 0.2:
        return random.choice((low, high, high - 1, low + 1))
    return min(high, max(low, random.getrandbits(random.randint(1, high.bit_length()))))


def cluster(random: Random) -> int:
    return 7 if random.random() < 0.5 else one_of(random, 1, 2**128 - 1)


def limited(random: Random, name: str, most: Optional[int] = None) -> int:
    """A lawful number of a layout, at most `most` where that is given."""
    low, high, step = LIMITS[name]
    high = high if most is None else most
    return random.choice((low, low, high, random.randrange(low, high + 1, step)))


def layout(random: Random) -> Layout:
    """A lawful layout: most often `small` or one with a small ring, now and then one with many or large slots."""
    if random.random() < 0.5:
        return form.SMALL
    if knows("blocks") and random.random() < 0.3:
        # Small blocks, so that trailers have several; many or few of them.
        blocks = random.choice((8, 9, 12, 1024, 16384, 16384))
        return Layout(random.choice((16, 32)), 4096, random.choice((1, 4, 64)), 4096, blocks)
    slots, message_size = limited(random, "Slots", 64), limited(random, "MessageSize", 16384)
    kind = random.random()
    clients = limited(random, "Clients")
    if kind < 0.05:
        slots, message_size = limited(random, "Slots"), 4096
    elif kind < 0.08:
        # Few slots, so that the file stays short.
        slots, message_size, clients = 16, limited(random, "MessageSize", 524288), min(clients, 3)
    return Layout(slots, message_size, clients, *(limited(random, name) for name in ("BlockSize", "Blocks")))


def home(random: Random) -> Home:
    return Home(layout(random), cluster(random))


def home_of(data: Optional[bytes]) -> Home:
    """The layout and cluster by which a file opens; those of an ordinary file where it doesn't."""
    opened = superblock.opened(data or b"")
    return Home(form.SMALL, 7) if opened.refusal else opened.content.home()


def body(random: Random, of: Layout) -> bytes:
    most = of.body_max()
    size = random.choice(SIZES + (most - 1, most)) if random.random() < 0.9 else random.randint(0, most)
    size = min(size, most)
    return random.randbytes(size) if random.random() < 0.7 else bytes([random.getrandbits(8)]) * size


def spelled(random: Random, data: bytes) -> bytes:
    """A body in hexadecimal digits of lower, upper or both cases."""
    if not data:
        return b"-"
    text = data.hex().encode()
    case = random.randrange(3)
    if case == 0:
        return text
    if case == 1:
        return text.upper()
    flips = random.getrandbits(64)
    return bytes(byte - 32 if byte > 96 and flips >> (at % 64) & 1 else byte for at, byte in enumerate(text))


def machine_of(data: Optional[bytes]) -> Machine:
    """The machine of a file that opens, after its open; that of a new file where it doesn't."""
    if recovery.found(data).refusal:
        data = script.fresh(Home(form.SMALL, 7))
    return opened_file(data)[0]


def opened_file(data: bytes) -> tuple:
    """The machine of a file after its open, and the file then."""
    found = recovery.found(data)
    machine = Machine(found, Image(data))
    events = opens(found, machine)
    machine.reads.clear()
    return machine, script.state(data, events)


def any_number(random: Random, high: int) -> int:
    """A number from 0 on, most often a small one."""
    return random.randint(0, 6) if random.random() < 0.6 else one_of(random, 0, high)


def appends(m: Machine) -> list:
    """The clients that may append or stage now with their next requests; client 0 stands for one that is new."""
    head, sessions = m.counted()
    if head - m.replies == recovery.PIPELINE or head in (m.durable.op + m.layout.slots, form.LIMIT):
        return []
    known = [(one.client, one.request + 1) for one in sessions.values() if one.op <= m.replies and one.request < form.LIMIT]
    return known + [(0, 1)] * (len(sessions) < m.layout.clients)


def new_client(random: Random, m: Machine) -> int:
    """A client without a session, most often of a small number."""
    taken = m.counted()[1]
    while True:
        client = random.randint(1, 80) if random.random() < 0.7 else one_of(random, 1, 2**128 - 1)
        if client not in taken:
            return client


def good(random: Random, m: Machine, most: Optional[int] = None) -> bytes:
    """A line that changes something and is accepted; a read where there is none."""
    may, waits = appends(m), m.replies < m.head()
    # A ring that is full goes on after a checkpoint alone.
    more = generate_grid.good(random, m, most) if random.random() < (0.4 if may or waits else 1) else None
    if more:
        return more
    if m.staged and random.random() < (0.3 if may or waits else 1):
        return b"flush"
    data = body(random, m.layout)[:most]
    if may and (not waits or random.random() < 0.55):
        client, request = random.choice(may)
        word = b"stage" if m.staged or knows("groups") and random.random() < 0.5 else b"append"
        return b"%s %d %d %s" % (word, client or new_client(random, m), request, spelled(random, data))
    return b"reply %d %s" % (m.replies + 1, spelled(random, data)) if waits else reading(random, m)


def reading(random: Random, m: Machine) -> bytes:
    """A read, most often of what is there."""
    more = generate_grid.reading(random, m) if random.random() < 0.5 else None
    if more:
        return more
    if random.random() < 0.6:
        there = m.tail and random.random() < 0.8
        near = random.choice((0, m.durable.op, m.head(), m.head() + 1, any_number(random, 2**64 - 1)))
        return b"prepare %d" % (random.randint(m.durable.op + 1, m.head()) if there else near)
    known = m.sessions and random.random() < 0.8
    return b"lookup %d" % (random.choice(m.sessions).client if known else any_number(random, 2**128 - 1))


def refused(random: Random, m: Machine) -> bytes:
    """A line of the grammar that is most often refused."""
    more = generate_grid.refused(random, m) if random.random() < 0.4 else None
    if more:
        return more
    data = spelled(random, body(random, m.layout)[: random.choice((0, 1, 10000))])
    long = b"00" * (m.layout.body_max() + random.choice((0, 1, 2)))
    known = random.choice(m.sessions) if m.sessions else recovery.Session(5, 1, 1)
    client, request = known.client, known.request
    line = random.choice((
        b"append %d %d %s" % (client, request, data), b"append %d %d %s" % (client, request + 1, data),
        b"append %d %d %s" % (client, request + 2, data), b"append %d %d %s" % (client, max(0, request - 1), data),
        b"append %d 1 %s" % (new_client(random, m), data), b"append %d 2 -" % new_client(random, m),
        b"append 0 1 %s" % data, b"append 0 1 " + long, b"append %d 1 " % new_client(random, m) + long,
        b"append %d %d " % (client, request) + long, b"append %d %d -" % (client, any_number(random, 2**64 - 1)),
        b"append %d %d -" % (any_number(random, 2**128 - 1), any_number(random, 2**64 - 1)),
        b"reply %d %s" % (m.replies, data), b"reply %d %s" % (m.replies + 2, data), b"reply %d " % (m.replies + 1) + long,
        b"reply %d %s" % (m.replies + 1, data), b"reply %d " % m.replies + long,
        b"reply %d -" % any_number(random, 2**64 - 1), reading(random, m), reading(random, m),
    ))
    if knows("groups") and line.startswith(b"append ") and random.random() < 0.5:
        return random.choice((b"flush", line.replace(b"append", b"stage")))
    return line


def line_of(random: Random, m: Machine, odds: float, most: Optional[int] = None) -> bytes:
    """A line of the grammar, with these odds one that is refused, and with these one that reads."""
    what = random.random()
    return refused(random, m) if what < odds else reading(random, m) if what < 2 * odds else good(random, m, most)


def script_of(random: Random, m: Machine, count: int, odds: float, most: Optional[int] = None) -> list:
    """This many lines of the grammar, each made for what the lines before it leave; the machine goes on by them."""
    listed = []
    for _ in range(count):
        listed.append(line_of(random, m, odds, most))
        m.line(script.parse(listed[-1], m.layout) or ("prepare", 0))
    return listed


def odd(random: Random, of: Layout) -> bytes:
    """A line that breaks one rule of the grammar, or just keeps it."""
    client = str(random.choice((0, 1, 2**128 - 1, 2**128, 2**128 + 1, 2**129, 10**60))).encode()
    number = str(random.choice((0, 1, form.LIMIT, form.LIMIT + 1, 2**63, 2**64 - 1, 2**64, 2**64 + 1))).encode()
    most, longest = 2 * of.body_max(), of.line_max()
    size = random.choice((1, 2, 3, most, most + 1, most + 2, most + 4000, longest - 100))
    hexes = bytes(random.choices(b"0123456789abcdefABCDEF", k=size))
    texts = (
        b"append %s %s -" % (client, number), b"reply %s -" % number, b"prepare " + number, b"lookup " + client,
        b"append 1 1 " + hexes, b"reply 1 " + hexes,
        b"append 01 1 -", b"append 1 01 -", b"append 1 1 --", b"append 1 1 -00", b"append 1 1 0-", b"append 1 1 ",
        b"append 1 1", b"append 1", b"append ", b"append", b"", b" ", b" append 1 1 -", b"append  1 1 -",
        b"append 1  1 -", b"append 1 1  -", b"append 1 1 - ", b"append\t1 1 -", b"append 1 1 -\r", b"append 1 1 -\0",
        b"Append 1 1 -", b"APPEND 1 1 -", b"append +1 1 -", b"append -1 1 -", b"append 1 -1 -", b"append 0x1 1 -",
        b"append 1_0 1 -", b"append 1.0 1 -", b"append 1 1 0g", b"append 1 1 0x00", b"append 1 1 00 00", b"append 1 1 00,",
        b"append \xd9\xa1 1 -", b"append \xb2 1 -", b"append 1 1 \xef\xbc\x91\xef\xbc\x91", b"\xef\xbb\xbfappend 1 1 -",
        b"append - 1 -", b"append 1 - -", b"append 1 1 - append 2 2 -", b"appended 1", b"step", b"scrub", b"recent",
        b"block 1 -", b"release 1", b"checkpoint -", b"read 1", b"stage 1 1 -", b"flush", *generate_grid.ODD,
        b"reply", b"reply ", b"reply 1", b"reply 1 ", b"reply -", b"reply - -", b"reply 01 -", b"reply 1  -", b"reply 1 1 -",
        b"Reply 1 -", b"reply 1 - ", b"reply 1 0", b"reply 1 -\r", b"reply +1 -", b"replied 1", b"repl 1 -", b"reply1 -",
        b"prepare", b"prepare ", b"prepare -", b"prepare 01", b"prepare 1 ", b"prepare 1 -", b"prepare 1 1", b"prepare  1",
        b"Prepare 1", b"prepare 1\r", b"prepare +1", b"prepare 0x1", b"prepared 1", b"prepare\0001",
        b"lookup", b"lookup ", b"lookup -", b"lookup 05", b"lookup 5 ", b"lookup 5 -", b"lookup 5 5", b"Lookup 5", b"lookup -1",
        b"look 5", b"lookup\t5",
        b"appen 1 1 -", b"appendd 1 1 -", b"append1 1 -", b"-", b"\0", b"# append 1 1 -",
        b"a" * random.choice((longest - 1, longest, longest + 1, 2 * longest, 3 * longest + 1000)),
        b"append 1 1 " + b"0" * random.choice((longest - 11, longest - 10, longest + 100)),
        b"reply 1 " + b"0" * random.choice((longest - 8, longest - 7, longest + 100)),
        random.choice((b"append ", b"lookup ", b"prepare ")) + b"1" * random.choice((19, 20, 21, 38, 39, 40, 200, 30000)),
        b"append " + b"1" * random.choice((38, 39, 40, 200, 30000)) + b" 1 -",
    )
    return random.choice(texts)


def mutated(random: Random, m: Machine) -> bytes:
    """A good line with one to three bytes changed, taken out, put in or doubled."""
    line = bytearray(random.choice((good, good, reading))(random, m)[: random.choice((40, 100, 10**6))])
    for _ in range(random.randint(1, 3)):
        at = random.randint(0, len(line))
        # Half the changes fall into the words before the body.
        at = min(at, random.randint(0, 60)) if random.random() < 0.5 else at
        what = random.randrange(4)
        if what == 0:
            line[at : at + 1] = bytes([random.choice(BYTES_OF_LINES)])
        elif what == 1:
            del line[at : at + random.randint(1, 3)]
        elif what == 2:
            line[at:at] = bytes([random.choice(BYTES_OF_LINES)])
        else:
            line[at:at] = line[at : at + random.randint(1, 8)]
    return bytes(line)


def text_of(random: Random, listed: list) -> bytes:
    """A script of these lines; the last sometimes ends with the input."""
    text = b"".join(line + b"\n" for line in listed)
    return text[:-1] if listed and random.random() < 0.2 else text


def good_script(random: Random, data: Optional[bytes], most: int = 8) -> bytes:
    """Lines of the grammar for this file; a few of them are refused."""
    count = random.choice((0, 1, 1, 2, 3, random.randint(0, most), random.randint(0, 40) if most > 8 else 2))
    return text_of(random, script_of(random, machine_of(data), count, 0.1))


def any_script(random: Random, data: Optional[bytes]) -> bytes:
    """Lines of the grammar, many of them refused, with some among them that are none, most often one near the end."""
    m = machine_of(data)
    overflow = random.random() < 0.1 and m.layout.slots <= 64
    count = 3 * m.layout.slots if overflow else random.choice((0, 1, 2, 3, 5, 10, 20))
    listed = script_of(random, m, count, 0.02 if overflow else 0.2, 1 if overflow else None)
    for _ in range(random.choice((0, 1, 1, 2))):
        bad = odd(random, m.layout) if random.random() < 0.6 else mutated(random, m)
        listed.insert(random.choice((len(listed), random.randint(0, len(listed)))), bad)
    return text_of(random, listed)


def headers_hurt(random: Random, data: bytes) -> bytes:
    """The file with one sector of its ring of headers struck: what that had is known by the prepares."""
    layout = home_of(data).layout
    at = layout.header_sector(random.randrange(layout.slots))
    return data[:at] + random.choice((b"\xa5" * SECTOR, bytes(SECTOR), random.randbytes(SECTOR))) + data[at + SECTOR :]


def image(random: Random, most: int = 32, of: Optional[Home] = None, hurt: float = 0.3) -> bytes:
    """A file that opens: what a script left, sometimes with other bytes after the blocks' begin, or with copies or headers hurt."""
    of = of or home(random)
    layout = of.layout
    most = min(most, max(2, 2**21 // layout.message_size))
    data = script.fresh(of)
    small = 1 if random.random() < 0.3 else None
    listed = script_of(random, machine_of(data), random.randint(0, most), 0, small)
    if random.random() < (0.1 if knows("blocks") else 0.03) and layout.slots <= 64:
        listed = script_of(random, machine_of(data), 3 * layout.slots, 0, 1)
    if random.random() < 0.1:
        listed += generate_grid.burst(random, machine_of(script.run(data, text_of(random, listed)).data))
    data = script.run(data, text_of(random, listed)).data
    if random.random() < 0.2 and layout.grid() <= 2**21:
        data = data + bytes(max(0, layout.grid() - len(data))) + random.randbytes(random.randint(1, 3 * SECTOR))
    data = headers_hurt(random, data) if random.random() < hurt / 2 else data
    return copies.hurt(random, data) if random.random() < hurt else data
