"""Tries of damage: a file whose bytes were struck is opened as docs/FORMAT.md says, and nothing else changes."""

from . import copies, form, generate, recovery, script, superblock
from .common import Try, asked, reads_of, session
from .forge import forge, put
from .form import COPIES, HEADER, SECTOR
from .knows import knows


def target(t: Try, layout: form.Layout, slots: bool) -> int:
    """An offset in the file: in the ring of headers, in the ring of prepares, in the replies or in the grid, most often near
    their begin; or among the copies, where not only slots are struck."""
    random = t.random
    if knows("blocks") and random.random() < 0.2:
        return layout.grid() + layout.block_size * random.randrange(min(random.choice((2, 6)), layout.blocks)) + random.choice(
            (random.randrange(HEADER), random.randrange(layout.block_size)))
    what = random.random()
    if what < 0.1 and not slots:
        return random.randrange(SECTOR * COPIES)
    if what < 0.35:
        return layout.header_sector(0) + random.randrange(layout.first() - layout.header_sector(0))
    within = random.choice((random.randrange(HEADER), random.randrange(SECTOR), random.randrange(layout.message_size)))
    if what < 0.7:
        near = random.choice((4, 12, layout.slots))
        return layout.first() + layout.message_size * random.randrange(min(near, layout.slots)) + within
    return layout.end() + layout.message_size * random.randrange(min(4, layout.clients)) + within


def strike(t: Try, data: bytearray, layout: form.Layout, slots: bool = False) -> None:
    """One piece of damage at a random place."""
    random = t.random
    what = random.choice((
        "byte", "bit", "sector", "flip", "swap", "copy", "slot", "cut", "grow", "mixed", "zeros", "header",
    ))
    what = "sector" if slots and what in ("cut", "grow") else what
    t.counts[f"strikes: {what}"] += 1
    used, size = max(1, len(data)), layout.message_size
    at = target(t, layout, slots)
    if what in ("byte", "bit"):
        flipped = 1 << random.randrange(8) if what == "bit" else random.randint(1, 255)
        put(data, at, bytes([form.part(data, at, 1)[0] ^ flipped]))
        return
    # What isn't there is blank already, so that a file isn't made longer by much.
    sector = min(at, used - 1) // SECTOR * SECTOR
    other = min(target(t, layout, slots), used - 1) // SECTOR * SECTOR
    if what == "sector":
        put(data, sector, random.choice((b"\xa5" * SECTOR, random.randbytes(SECTOR))))
    elif what == "zeros":
        put(data, sector, bytes(SECTOR))
    elif what == "flip":
        put(data, sector, bytes(byte ^ 0xFF for byte in form.part(data, sector, SECTOR)))
    elif what == "swap":
        one, two = form.part(data, sector, SECTOR), form.part(data, other, SECTOR)
        put(data, sector, two)
        put(data, other, one)
    elif what == "copy":
        put(data, other, form.part(data, sector, SECTOR))
    elif what == "slot":
        start, count = layout.first(), layout.slots + layout.clients
        if knows("blocks") and random.random() < 0.3 and used > layout.grid():
            start, size, count = layout.grid(), layout.block_size, layout.blocks
        one, two = (start + size * random.randrange(min(8, count)) for _ in range(2))
        put(data, one, form.part(data, two, size))
    elif what == "header":
        one, two = (layout.header_sector(0) + HEADER * random.randrange(min(20, layout.slots)) for _ in range(2))
        put(data, one, random.choice((bytes(HEADER), form.part(data, two, HEADER), random.randbytes(HEADER))))
    elif what == "cut":
        # A file that is cut within its first sectors is one that most often doesn't open.
        least = random.choice((0, COPIES * SECTOR, COPIES * SECTOR, layout.first()))
        del data[random.randint(min(least, used), used) :]
    elif what == "grow":
        data += random.randbytes(random.choice((1, 511, 4096, 8192, 40000)))
    elif what == "mixed":
        half = random.randrange(512, SECTOR, 512)
        put(data, sector + half, form.part(data, other + half, SECTOR - half))


def struck(t: Try) -> None:
    """Damage before each of several sessions."""
    home = generate.home(t.random)
    data = bytearray(generate.image(t.random, of=home))
    for number in range(t.random.randint(1, 4)):
        for _ in range(t.random.choice((1, 1, 1, 2, 5))):
            strike(t, data, home.layout)
        t.binary.put(bytes(data))
        outcome_of(t, "files with damage", bytes(data))
        text = generate.any_script(t.random, bytes(data)) if t.random.random() < 0.3 else look(t, bytes(data))
        data = bytearray(session(t, f"after damage {number + 1}", bytes(data), text).data)


def look(t: Try, data: bytes) -> bytes:
    """Lines that read what is there, and go on."""
    m = generate.machine_of(data)
    return generate.text_of(t.random, reads_of(m, 4) + generate.script_of(t.random, m, 3, 0.1))


def garbage(t: Try) -> None:
    """A file of random bytes, equal bytes or text, of any length, with copies in front of it or without."""
    random, home = t.random, generate.home(t.random)
    sizes = (0, 1, 255, 4096, 16384, 24576, 32768, 32769, 40960, 286720, 286721, random.randint(0, 500000))
    size = random.choice(sizes)
    lines = (b"append 1 1 -\n" * (size // 13 + 1))[:size]
    data = random.choice((random.randbytes(size), b"\xa5" * size, b"\xff" * size, lines))
    if random.random() < 0.7:
        data = script.fresh(home) + data[COPIES * SECTOR :]
    t.binary.put(data)
    session(t, "a file of garbage", data, generate.good_script(random, data, 4))
    t.counts["files of garbage"] += 1


def forged(t: Try) -> None:
    """Prepares, replies and reserved headers with right checksums whose fields break one rule, or just keep it."""
    random, home = t.random, generate.home(t.random)
    data = bytearray(generate.image(random, 31, home))
    for _ in range(random.randint(1, 3)):
        m = generate.machine_of(bytes(data))
        if m.home != home:
            break
        before = m.view()
        kind = forge(random, m, data)
        after = recovery.view_of(bytes(data))
        what = "refuses" if after is None else "leaves" if after == before else "changes"
        t.counts[f"forged {kind} that {what} the view"] += 1
    t.binary.put(bytes(data))
    outcome_of(t, "files with forged units", bytes(data))
    data = session(t, "forged units", bytes(data), look(t, bytes(data))).data
    session(t, "forged units, once more", data, generate.good_script(random, data, 3))


def outcome_of(t: Try, kind: str, data: bytes) -> None:
    """Counts what the model makes of a file."""
    found = recovery.found(data)
    if found.refusal:
        words = found.refusal.split()
        name = " ".join(words[: 2 if words[0] in ("BadField", "Damaged") else 1])
    else:
        name = "opened, mended" if found.to_mend else "opened, nothing to mend"
    t.counts[f"{kind}: {name}"] += 1


def copies_struck(t: Try) -> None:
    """One to four copies are damaged; those that don't count are written anew, so that a second run writes none."""
    random, home = t.random, generate.home(t.random)
    before = data = generate.image(random, 6, home, 0)
    for place in random.sample(range(COPIES), random.choice((1, 2, 2, 2, 3, 3, 4))):
        name, sector = copies.damaged(random, before, place)
        data = copies.put(data, place, sector)
        t.counts[f"copies struck: {name}"] += 1
    outcome_of(t, "files with struck copies", data)
    t.binary.put(data)
    data = session(t, "struck copies", data, generate.good_script(random, data, 3)).data
    session(t, "struck copies, once more", data, look(t, data))


def own_of(data: bytes) -> superblock.Content:
    """A first superblock that records what the file's own one does."""
    content = superblock.opened(data).content
    return superblock.first(content.home()).recording(content.recorded())


def later(t: Try, own: superblock.Content, data: bytes) -> superblock.Content:
    """A content without a trailer that an update may have left over this file, or nearly so."""
    random, view = t.random, recovery.view_of(data)
    head = max(0, view.head() + random.choice((0, 0, 0, -1, 1)))
    replies = max(0, view.replies + random.choice((0, 0, 0, -1, 1)))
    last = next((one.checksum for one in view.tail if one.op == head), view.checkpoint.op_checksum)
    stored = tuple((place, one.checksum) for place, one in view.stored)
    state = own.recorded()._replace(head=head, head_checksum=last, replies=replies, stored=random.choice((stored, stored, ())))
    state = state._replace(boot=max(0, own.boot + random.choice((0, 0, 0, 1, -1))))
    return own._replace(sequence=random.choice((1, 2, 3, form.LIMIT))).recording(state)


def copies_forged(t: Try) -> None:
    """Copies with right checksums: of several contents, older and newer, that keep or break the field tests."""
    random, home = t.random, generate.home(t.random)
    data = older = generate.image(random, 12, home, 0)
    own = own_of(data)
    contents = [own, superblock.first(generate.home(random)), later(t, own, data), copies.odd(random, own)]
    contents.append(copies.odd(random, own)._replace(sequence=contents[-1].sequence))
    chosen = random.sample(contents, random.choice((1, 1, 2, 2, 3)))
    data = copies.forged(random, data, chosen)
    outcome_of(t, "files with forged copies", data)
    t.binary.put(data)
    data = session(t, "forged copies", data, generate.good_script(random, data, 4)).data
    if random.random() < 0.4:
        # The copies of before the session: what it wrote may have a later sequence.
        data = older[: SECTOR * COPIES] + data[SECTOR * COPIES :]
        t.binary.put(data)
        outcome_of(t, "files with older copies", data)
        data = session(t, "older copies", data, look(t, data)).data
    if random.random() < 0.2:
        asked(t, "forged copies, format", data, ["format", home.layout.word(), str(home.cluster)])


KINDS = {"struck": (struck, 8), "garbage": (garbage, 2), "forged": (forged, 10),
         "copies_struck": (copies_struck, 8), "copies_forged": (copies_forged, 10)}
