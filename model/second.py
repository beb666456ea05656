#!/usr/bin/env python3
"""Files of version 2, forged, and what is found in them where version 2 is asked for: by the reader of docs/FORMAT.md and by the
model's own rules, which share nothing.

    python3 model/second.py

Prints each row on which the two or the expected answer differ, and how many rows there are; ends with status 1 where one differs.
"""

import sys

sys.dont_write_bytecode = True

import reader
from reader_trailer import Refused
from tries import form, recovery, superblock, units
from tries.copy_rows import A5, HOME
from tries.form import CLIENT_REPLIES, LIMIT, SECTOR, WAL_HEADERS, WAL_PREPARES, Place
from tries.superblock import Content
from tries.trailer import Session

LAYOUT = HOME.layout
NONE = bytes(16)
# The boot of the superblock, and the one before it, of which the named units are.
BOOT, BEFORE = 3, 2


def prepare(op, parent, client, request, mark, boot, group=None, body=b"", checkpoint=1):
    """A prepare of version 2: a group by itself where no group is given."""
    f = units.fields_of(HOME, units.PREPARE, body, parent=parent, client=form.number(client), op=op, request=request, mark=mark,
                        checkpoint=checkpoint, slot=op % LAYOUT.slots)
    f = dict(units.in_boot(f, boot), **(dict(zip(("group", "group_last"), group)) if group else {}))
    whole = units.seal(f, body)
    return units.Unit(whole[: form.HEADER], body)


def reply(session, place, mark, boot, body=b""):
    """A reply of version 2."""
    f = units.fields_of(HOME, units.REPLY, body, client=form.number(session.client), op=session.op, request=session.request,
                        mark=mark, checkpoint=1, slot=place)
    whole = units.seal(units.in_boot(f, boot), body)
    return units.Unit(whole[: form.HEADER], body)


def content(**changes):
    """The superblock of a file of version 2 with these fields."""
    slots, message_size, clients, block_size, blocks = LAYOUT
    return Content(2, slots, message_size, clients, HOME.cluster, block_size, blocks)._replace(**changes)


def naming(head_checksum, replies):
    """What a superblock of version 2 names: the head's checksum, and those of replies by place."""
    sums = b"".join(replies.get(place, NONE) for place in range(64))
    return (head_checksum + NONE + sums).ljust(SECTOR - superblock.BEHIND, b"\0")


# Ops 1 to 3 and the replies to 1 and 2 were found by the open of boot 3, so its superblock names prepare 3 and, since op 3 waits,
# the reply to op 2 alone. Op 4 was appended after it.
ONE, TWO, THREE = Session(5, 1, 1), Session(6, 1, 2), Session(5, 2, 3)
P1 = prepare(1, NONE, 5, 1, 0, BEFORE)
P2 = prepare(2, P1.checksum, 6, 1, 1, BEFORE)
P3 = prepare(3, P2.checksum, 5, 2, 2, BEFORE)
P4 = prepare(4, P3.checksum, 7, 1, 2, BOOT)
R1, R2 = reply(ONE, 0, 1, BEFORE), reply(TWO, 1, 2, BEFORE)
SUPER = content(boot=BOOT, head=3, replies=2, behind=naming(P3.checksum, {1: R2.checksum}))


def place_of(zone, unit):
    return Place(zone, unit.fields()["slot"])


class Forged:
    """A file that is put together from units."""

    def __init__(self, chosen=SUPER, prepares=(P1, P2, P3, P4), replies=(R1, R2)):
        self.data = bytearray(SECTOR * LAYOUT.sectors())
        for copy in range(form.COPIES):
            self.put(SECTOR * copy, chosen.encode(copy))
        for slot in range(LAYOUT.slots):
            self.put(LAYOUT.at(Place(WAL_HEADERS, slot)), units.seal(units.in_boot(units.fields_of(HOME, units.RESERVED, slot=slot), 0)))
        for one in prepares:
            self.both(one)
        for one in replies:
            self.unit(CLIENT_REPLIES, one)

    def put(self, at, data):
        self.data[at : at + len(data)] = data
        return self

    def unit(self, zone, one):
        """A unit at the place that its header names."""
        return self.put(LAYOUT.at(place_of(zone, one)), one.header + (b"" if zone == WAL_HEADERS else one.body))

    def both(self, one):
        """A prepare with its header."""
        return self.unit(WAL_PREPARES, one).unit(WAL_HEADERS, one)

    def hurt(self, zone, index):
        """A place whose bytes are all A5; of the ring of headers that of the slot alone."""
        length = form.HEADER if zone == WAL_HEADERS else LAYOUT.fits(zone)
        return self.put(LAYOUT.at(Place(zone, index)), (A5 * 64)[:length])


OTHER2 = prepare(2, P1.checksum, 6, 1, 1, BEFORE, body=b"x")
FOREIGN = reply(Session(5, 1, 2), 1, 2, BEFORE)
ALIKE = reply(TWO, 1, 3, BEFORE)
AGAIN = reply(TWO, 1, 4, BOOT)
UNFIT = prepare(3, P2.checksum, 5, 7, 2, BEFORE)
LONG = prepare(3, P2.checksum, 5, 2, 2, BEFORE, (3, 4))
G5 = prepare(5, P4.checksum, 6, 2, 2, BOOT, (5, 6))
G6 = prepare(6, G5.checksum, 8, 1, 2, BOOT, (5, 6))
OLD5 = prepare(5, P4.checksum, 6, 2, 2, BEFORE)
NEW5 = prepare(5, P4.checksum, 6, 2, 2, BOOT)
LATER = prepare(5, P4.checksum, 6, 2, 2, BOOT + 1)
SPENT4 = prepare(4, P3.checksum, 7, 1, 2, LIMIT)
SPENT = SUPER._replace(boot=LIMIT)
NAMELESS = SUPER._replace(behind=naming(NONE, {1: R2.checksum}))
LEVEL = content(boot=BOOT, sequence=2, op=4, head=4, replies=4, op_checksum=P4.checksum, trailer_address=1, trailer_size=100,
                behind=naming(NONE, {}))
BLANK = content()


def base():
    return Forged()


def mend(*places):
    """What is to be mended, in the words of `inspect`."""
    return [f"WalHeaders {slot} {name}" for slot, name in places]


# A name, a file, and its refusal, or its head, how many replies are stored, and what is to be mended.
ROWS = (
    ("the file as it was left", base(), (4, 2, [])),
    ("a new file, before its first boot", Forged(BLANK, (), ()), (0, 0, [])),
    ("a unit of boot 1 where the superblock has none", Forged(BLANK, (prepare(1, NONE, 5, 1, 0, 1),), ()), "Damaged Superblock 0 Stale"),
    # ---- the prepares that are named
    ("a known prepare is lost", base().hurt(WAL_PREPARES, 2), "Damaged WalPrepares 2 Garbled"),
    ("and the one before it", base().hurt(WAL_PREPARES, 2).hurt(WAL_PREPARES, 1), "Damaged WalPrepares 2 Garbled"),
    ("and the one after it", base().hurt(WAL_PREPARES, 2).hurt(WAL_PREPARES, 3), "Damaged WalPrepares 3 Garbled"),
    ("a valid one of its op stands there", base().unit(WAL_PREPARES, OTHER2), "Damaged WalPrepares 2 Stale"),
    ("with its header", base().both(OTHER2), "Damaged WalPrepares 2 Stale"),
    ("another one's header is mended", base().unit(WAL_HEADERS, OTHER2), (4, 2, mend((2, "Stale")))),
    ("a named header is lost", base().hurt(WAL_HEADERS, 2), (4, 2, mend((2, "Garbled")))),
    ("one that is named doesn't fit", Forged(SUPER._replace(behind=naming(UNFIT.checksum, {1: R2.checksum})), (P1, P2, UNFIT)), "Damaged WalPrepares 3 Stale"),
    ("the head's group isn't over", Forged(SUPER._replace(behind=naming(LONG.checksum, {1: R2.checksum})), (P1, P2, LONG)), "Damaged WalPrepares 3 Stale"),
    ("no checksum of a head above the checkpoint's op", Forged(NAMELESS), "Damaged WalPrepares 3 Stale"),
    ("no checksum of a head at it", Forged(LEVEL, (), ()), "BadField Head 0"),
    # ---- boots
    ("a prepare of a later boot", base().unit(WAL_PREPARES, LATER), "Damaged Superblock 0 Stale"),
    ("a header of one", base().unit(WAL_HEADERS, LATER), "Damaged Superblock 0 Stale"),
    ("a reply of one", base().unit(CLIENT_REPLIES, reply(Session(9, 1, 1), 3, 1, BOOT + 1)), "Damaged Superblock 0 Stale"),
    ("a header of an earlier boot above the head", base().unit(WAL_HEADERS, OLD5), (4, 2, [])),
    ("a prepare of one", base().unit(WAL_PREPARES, OLD5), (4, 2, [])),
    ("a header of the boot", base().unit(WAL_HEADERS, NEW5), "Damaged WalPrepares 5 Blank"),
    ("a prepare of the boot", base().unit(WAL_PREPARES, NEW5), (5, 2, mend((5, "Stale")))),
    ("a reply of an earlier boot whose mark is above the head", base().unit(CLIENT_REPLIES, reply(Session(9, 1, 1), 3, 9, BEFORE)), (4, 2, [])),
    ("one of the boot", base().unit(CLIENT_REPLIES, reply(Session(9, 1, 1), 3, 9, BOOT)), "Damaged WalPrepares 5 Blank"),
    ("the greatest boot", Forged(SPENT, (P1, P2, P3, SPENT4)), "BootSpent"),
    ("with a loss", Forged(SPENT, (P1, P2, P3, SPENT4)).hurt(CLIENT_REPLIES, 1), "Damaged ClientReplies 1 Garbled"),
    # ---- replies
    ("a reply of an earlier boot at a place that waits", base().unit(CLIENT_REPLIES, reply(THREE, 0, 3, BEFORE)), (4, 2, [])),
    ("one of the boot there", base().unit(CLIENT_REPLIES, reply(THREE, 0, 3, BOOT)), (4, 3, [])),
    ("a named reply is lost", base().hurt(CLIENT_REPLIES, 1), "Damaged ClientReplies 1 Garbled"),
    ("another one to the request", base().unit(CLIENT_REPLIES, ALIKE), "Damaged ClientReplies 1 Stale"),
    ("one of the boot to it", base().unit(CLIENT_REPLIES, AGAIN), "Damaged ClientReplies 1 Stale"),
    ("another client's is named", Forged(SUPER._replace(behind=naming(P3.checksum, {1: FOREIGN.checksum})), replies=(R1, FOREIGN)), "Damaged ClientReplies 1 Stale"),
    # ---- groups
    ("a group of two", base().unit(WAL_PREPARES, G5).unit(WAL_PREPARES, G6), (6, 2, mend((5, "Stale"), (6, "Stale")))),
    ("its first prepare alone", base().unit(WAL_PREPARES, G5), (4, 2, [])),
    ("over a header that is lost", base().unit(WAL_PREPARES, G5).hurt(WAL_HEADERS, 5), (4, 2, mend((5, "Garbled")))),
    ("its second prepare alone", base().unit(WAL_PREPARES, G6), (4, 2, [])),
    ("its first, with the header of the second", base().unit(WAL_PREPARES, G5).unit(WAL_HEADERS, G6), "Damaged WalPrepares 6 Blank"),
    ("its second, with its header", base().both(G6), "Damaged WalPrepares 5 Blank"),
)


# ---- a group of three after a tail, with what is left of each: all (A), the prepare without its header (P), its header alone (H), or
# nothing (N); how many of its ops are found and how many of its headers are to be mended, or after how many ops the slot is blamed.
THREES = (
    # Whole, with all headers, none, and one.
    ("AAA", (3, 0)), ("PPP", (3, 3)), ("APP", (3, 2)), ("PAP", (3, 2)), ("PPA", (3, 2)),
    # Cut, and no header of it is shown.
    ("PPN", (0, 0)), ("PNP", (0, 0)), ("NPP", (0, 0)), ("PNN", (0, 0)), ("NPN", (0, 0)), ("NNP", (0, 0)), ("NNN", (0, 0)),
    # Cut, and a header of it is shown: the first alone, the last alone, and others.
    ("APN", 2), ("PPH", 2), ("AAH", 2), ("ANN", 1), ("PNA", 1), ("AHA", 1), ("HPP", 0), ("NPA", 0), ("NNH", 0), ("HHH", 0),
)
# The group has its headers in one sector, in two, or stands past the end of the ring.
TAILS = (4, 14, 29)


def tail_of(count, named):
    """This many prepares of client 5, one after the other, of the boot before up to the op that is named; the last one's reply is stored."""
    listed, parent = [], NONE
    for op in range(1, count + 1):
        listed.append(prepare(op, parent, 5, op, op - 1, BEFORE if op <= named else BOOT))
        parent = listed[-1].checksum
    return listed, reply(Session(5, count, count), 0, count, BOOT)


def three_of(tail, boot):
    """The prepares of a group after a tail, of clients 5 to 7."""
    head, listed, parent = len(tail), [], tail[-1].checksum
    for at, (client, request) in enumerate(((5, head + 1), (6, 1), (7, 1))):
        listed.append(prepare(head + 1 + at, parent, client, request, head, boot, (head + 1, head + 3)))
        parent = listed[-1].checksum
    return listed


def grouped(count, named, boot, left):
    """A file with a tail of this many ops, of which the superblock names those up to one, and what is left of a group after it."""
    tail, stored = tail_of(count, named)
    three = three_of(tail, boot)
    sums = [NONE] + [one.checksum for one in tail + three]
    chosen = content(boot=BOOT, head=named, replies=min(named - 1, count), behind=naming(sums[named], {}))
    forged = Forged(chosen, tail, (stored,))
    for one, what in zip(three, left):
        for zone in {"A": (WAL_PREPARES, WAL_HEADERS), "P": (WAL_PREPARES,), "H": (WAL_HEADERS,), "N": ()}[what]:
            forged.unit(zone, one)
    return forged


def of_three(count, left, wanted):
    """What is found of the group, as an answer."""
    if isinstance(wanted, int):
        return f"Damaged WalPrepares {(count + wanted + 1) % LAYOUT.slots} Blank"
    slots = [(count + 1 + at) % LAYOUT.slots for at, what in enumerate(left) if what == "P"] if wanted[1] else []
    return (count + wanted[0], count, mend(*((slot, "Stale") for slot in sorted(slots))))


def sector_of_headers(forged, at=0):
    """A sector of headers is lost."""
    for slot in range(16 * at, 16 * at + 16):
        forged.hurt(WAL_HEADERS, slot)
    return forged


def group_rows():
    """Each of the threes after each tail and right after the named head; of an earlier boot; hurt; and at the named head."""
    for count, named in [(count, 2) for count in TAILS] + [(4, 4)]:
        for left, wanted in THREES:
            yield f"{left} after {count}, {named} named", grouped(count, named, BOOT, left), of_three(count, left, wanted)
    for left, _ in THREES:
        yield f"{left} of the boot before", grouped(14, 2, BEFORE, left), (14, 14, [])
    all_headers = mend(*((slot, "Garbled") for slot in range(16)))
    for op in (5, 6, 7):
        yield f"op {op} of a settled group is hurt", grouped(4, 2, BOOT, "AAA").hurt(WAL_PREPARES, op), f"Damaged WalPrepares {op} Garbled"
        yield (f"and all headers with it, {op}", sector_of_headers(grouped(4, 2, BOOT, "AAA").hurt(WAL_PREPARES, op)), (4, 4, all_headers))
    yield "all headers of a group", sector_of_headers(grouped(4, 2, BOOT, "AAA")), (7, 4, all_headers)
    yield "a header of a later op", grouped(4, 2, BOOT, "AAA").unit(WAL_HEADERS, prepare(8, NONE, 8, 1, 4, BOOT)), "Damaged WalPrepares 8 Blank"
    older = prepare(6, NONE, 6, 1, 4, BEFORE, (5, 7))
    yield "an older survivor in the gap", grouped(4, 2, BOOT, "PNP").unit(WAL_PREPARES, older), (4, 4, [])
    yield "and a header is shown", grouped(4, 2, BOOT, "ANP").unit(WAL_PREPARES, older), "Damaged WalPrepares 6 Stale"
    for left, wanted in (("AAA", (7, 4, [])), ("PPP", (7, 4, mend((5, "Stale"), (6, "Stale"), (7, "Stale")))), ("AAN", "Damaged WalPrepares 7 Blank"),
                         ("AHA", "Damaged WalPrepares 6 Blank"), ("NNA", "Damaged WalPrepares 6 Blank")):
        yield f"{left} at the named head", grouped(4, 7, BEFORE, left), wanted
    yield "the named head is within the group", grouped(4, 6, BEFORE, "AAA"), "Damaged WalPrepares 6 Stale"


def by_reader(data, version):
    """What the reader of docs/FORMAT.md finds: the refusal, or the head and the number of replies."""
    state = {}
    try:
        reader.find(data, state, version=version)
    except Refused as why:
        return str(why)
    return state["head"], state["stored"]


def by_rules(data, version):
    """What the model's rules find, with what is to be mended."""
    found = recovery.found(data, version=version)
    if found.refusal:
        return found.refusal
    return found.view.head(), found.view.replies, [f"{place} {name}" for place, name in found.to_mend]


def main():
    wrong, rows = 0, [*ROWS, *group_rows()]
    for name, forged, wanted in rows:
        data = bytes(forged.data)
        plain = wanted if isinstance(wanted, str) else wanted[:2]
        answers = (by_reader(data, 2), by_rules(data, 2), by_reader(data, 1), by_rules(data, 1))
        if answers != (plain, wanted, "Version found 2", "Version found 2"):
            wrong += 1
            print(f"{name}: {answers} where {wanted} is wanted")
    print(f"{len(rows)} rows, {wrong} wrong")
    return 1 if wrong else 0


if __name__ == "__main__":
    sys.exit(main())
