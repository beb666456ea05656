"""What the doctor finds in a file: why an open refuses it, what would be mended, which blocks fail, and what may have been lost
without a trace. It reads by `reader.py`, and writes nothing."""

from collections import Counter
from dataclasses import dataclass, field
from functools import cached_property

from reader import NUMBERS, choose, class_of_copy, content, find, is_copy, is_own
from reader_table import greatest_blocks, table_in
from reader_trailer import Refused, class_at, number
from reader_units import (
    BLOCK, COPIES, HEADER, PREPARE, REPLY, RESERVED, SECTOR, TRAILER, bytes_at, header_of, shown, zones_of,
)

# What a sector is that looks like no part of a data file.
UNKNOWN = "sectors of something else"
# Where there are this many blocks more than the greatest table has no table is looked for.
OTHERS = 16
NO_SESSION = ("no session has this place, and yet something stands here: the append and the reply of a new client may have been "
              "acknowledged and be lost")


@dataclass
class Case:
    """A file and what was found of it. Places are a zone and an index."""

    file: object
    # What the reader found, as far as it came.
    state: dict
    # The words after `refused`; empty for a file that opens.
    refusal: str = ""
    # What an open writes again: places with their classes.
    mends: list = field(default_factory=list)
    # How many blocks are referenced, those of the trailer among them, and those that aren't shown: addresses with classes.
    checked: int = 0
    failing: list = field(default_factory=list)
    # The addresses of blocks that were written after the superblock that is chosen, by their boot or their checkpoint.
    later: list = field(default_factory=list)
    # The cluster that most units in the file have, and how many, where it isn't the superblock's.
    strange: tuple = ()
    # What may have been acknowledged and isn't in the state, and what is worth a look: places with texts.
    lost: list = field(default_factory=list)
    notes: list = field(default_factory=list)

    @property
    def fields(self):
        """The superblock's fields, where there is one that can be used."""
        return self.state.get("fields")

    @cached_property
    def table(self):
        """The table that is in it, as far as it can be read; None where nothing in it is a row, a put or a drop."""
        if not self.fields or len(self.state.get("references", ())) > greatest_blocks(self.fields) + OTHERS:
            return None
        table = table_in(self.file, self.state, self.refusal)
        return table if table.is_one() else None

    def is_closed(self):
        """Whether it is a table's, and another program wrote what no table has."""
        return not self.refusal and self.table is not None and self.table.was_closed()

    def verdict(self):
        if self.refusal:
            return f"refused: {self.refusal}"
        first = "would be mended" if self.mends else "opens" if self.failing or self.lost or self.is_closed() else "sound"
        return first + (", with losses" if self.failing or self.lost else "") + (", and its table is closed" if self.is_closed() else "")

    def status(self):
        return 2 if self.refusal else int(self.verdict() != "sound")


def examine(file):
    """The case of a file."""
    case = Case(file, {})
    try:
        find(file, case.state, bodies=False)
    except Refused as why:
        case.refusal = str(why)
    known = sorted([*case.state.get("references", {}).items(), *case.state.get("chain", [])])
    case.checked = len(known)
    case.failing = [(address, name) for address, checksum in known if (name := fault_of(file, case.fields, address, checksum))]
    case.later = later_blocks(file, case.fields) if case.fields else []
    case.strange = strange_units(file, case.fields) if case.fields else ()
    if case.refusal:
        return case
    case.mends = mends_of(file, case.state)
    case.lost = lost_clusters(case) + lost_appends(case.state) + lost_replies(case.state) + lost_checkpoints(case)
    case.notes = ([] if case.strange else torn_appends(case.state)) + begun_blocks(file, case.state)
    return case


class Under:
    """A file as it would be were each of its copies the one in this sector."""

    def __init__(self, file, sector):
        self.file, self.copies = file, b"".join(sector[:16] + bytes([place]) + sector[17:] for place in range(COPIES))

    def __getitem__(self, span):
        if span.start >= len(self.copies):
            return self.file[span]
        return self.copies[span] + self.file[len(self.copies) : max(span.stop, len(self.copies))]


def cases_by_copy(file):
    """What the file would be were one of its copies enough, for each sector that is a copy."""
    return [(place, examine(Under(file, sector))) for place, sector in enumerate(copies_of(file)) if is_copy(sector)]


def copies_of(file):
    """The sectors of the four copies."""
    return [bytes_at(file, SECTOR * place, SECTOR) for place in range(COPIES)]


def members_of(sectors):
    """The copies that show the chosen content."""
    chosen = choose(sectors)
    return [place for place, sector in enumerate(sectors) if chosen and is_copy(sector) and number(sector, 16, 4) == place
            and content(sector) == content(chosen)]


def copy_fields(sector):
    """What a sector says, as a copy."""
    return {name: number(sector, at, size) for name, (at, size) in NUMBERS.items()}


def slot_case(state, slot):
    """The op that belongs into a slot of the rings, and what each ring shows of it: nothing, old, now or far."""
    f = state["fields"]
    op = f["Op"] + 1 + (slot - f["Op"] - 1) % f["Slots"]

    def seen(one):
        if isinstance(one, str):
            return "nothing"
        if one["op"] == op:
            # Up to the head that the superblock names a prepare is known by its checksum, whatever its boot; above it one of another
            # boot proves nothing.
            return "now" if op <= f["Pin"] or is_own(one, f) else "old"
        return "old" if one["op"] < op else "far"
    return op, seen(state["headers"][slot]), seen(state["prepares"][slot])


def mends_of(file, state):
    """What an open of a file that isn't refused writes again: copies, then slots of the ring of headers."""
    sectors = copies_of(file)
    members = members_of(sectors)
    others = [place for place in range(COPIES) if place not in members]
    mends = [("Superblock", place, class_of_copy(sectors[place], place)) for place in others]
    for slot, header in enumerate(state["headers"]):
        if is_mended(state, slot):
            mends.append(("WalHeaders", slot, class_at(header)))
    return mends


def is_mended(state, slot):
    """Whether an open writes a slot's header again: that of a named prepare where another one is shown, else where nothing is shown, or
    an old one beside a prepare of the tail."""
    op, in_headers, in_prepares = slot_case(state, slot)
    header, one = state["headers"][slot], state["prepares"][slot]
    if op <= state["fields"]["Pin"]:
        return isinstance(header, str) or header["checksum"] != one["checksum"]
    return in_headers == "nothing" or (in_headers == "old" and in_prepares == "now" and op <= state["head"])


def fault_of(file, f, address, checksum):
    """The class of what an address has, where it doesn't show the unit with this checksum, of whatever kind."""
    one = shown(file, f, "Grid", address)
    return "" if not isinstance(one, str) and one["checksum"] == checksum else class_at(one)


def spoilt(what):
    """Whether a place has something, and yet shows no unit."""
    return isinstance(what, str) and what != "Blank"


def empty_slots(state):
    """The ops after the head that the ring has room for, with their slots."""
    f = state["fields"]
    return [(op, op % f["Slots"]) for op in range(state["head"] + 1, f["Op"] + f["Slots"] + 1)]


def lost_appends(state):
    """Slots after the head in which neither header nor prepare is shown, and in which something stands."""
    return [
        ("WalPrepares", slot, f"an append of op {op} may have been acknowledged and be lost: neither its prepare nor its header is "
                              "shown")
        for op, slot in empty_slots(state)
        if isinstance(state["headers"][slot], str) and spoilt(state["prepares"][slot])
    ]


def torn_appends(state):
    """Slots after the head with an older header, in which no prepare is shown: such an append was never acknowledged."""
    return [
        ("WalPrepares", slot, f"no prepare is shown, and the header is older: an append of op {op} that was stopped, or an old "
                              "prepare that was hurt. Nothing acknowledged is missing")
        for op, slot in empty_slots(state)
        if not isinstance(state["headers"][slot], str) and spoilt(state["prepares"][slot])
    ]


def lost_replies(state):
    """Places in which the newest reply of a session may have stood that is found to wait; and places of no session in which
    something stands."""
    found = []
    for place, one in enumerate(state["places"]):
        sessions = list(state["sessions"].items())
        if place >= len(sessions):
            if one != "Blank":
                found.append(("ClientReplies", place, NO_SESSION))
            continue
        client, last = sessions[place]
        before = None if isinstance(one, str) else (one["client"], one["request"])
        usual = before == (client, last["request"] - 1) or (last["request"] == 1 and one == "Blank")
        if last["op"] > state["stored"] and not usual:
            what = f"the reply to op {last['op']} (client {client}, request {last['request']}) may have been stored and be lost: the "
            found.append(("ClientReplies", place, what + "op waits, and its place doesn't show the reply before"))
    return found


def later_blocks(file, f):
    """The addresses whose block is of a later boot than the superblock's, or of the trailer of a checkpoint after the next one: an open
    raises the boot, and a checkpoint the sequence, before such a block is written."""
    grid = zones_of(f)["Grid"]
    headers = ((address, header_of(bytes_at(file, grid.at(address), HEADER))[0]) for address in range(1, f["Blocks"] + 1))
    return [address for address, one in headers if one and one["kind"] in (BLOCK, TRAILER) and one["cluster"] == f["Cluster"]
            and one["op"] == address and (one["boot"] > f["Boot"] or one["checkpoint"] > f["Sequence"] + 1)]


def strange_units(file, f):
    """The cluster of which most units of the zones are, reserved headers aside, and how many, where it isn't the superblock's: the superblock is another
    file's then, or something else stood in the file before it was made. Else nothing."""
    zones, counts = zones_of(f), Counter()
    firsts = (("WalHeaders", 0, f["Slots"]), ("WalPrepares", 0, f["Slots"]), ("ClientReplies", 0, f["Clients"]), ("Grid", 1, f["Blocks"] + 1))
    for name, first, end in firsts:
        headers = (header_of(bytes_at(file, zones[name].at(index), HEADER))[0] for index in range(first, end))
        counts.update(one["cluster"] for one in headers if one and one["kind"] != RESERVED)
    most = counts.most_common(1)
    return most[0] if most and most[0][0] != f["Cluster"] and most[0][1] > counts[f["Cluster"]] else ()


def strange_text(f, strange):
    """What a superblock is that has another cluster than most units."""
    cluster, count = strange
    return (f"it is of cluster {f['Cluster']}, and {count} units of cluster {cluster} stand here, more than of its own. It is another file's, put into this "
            "one; or something else stood in this file before it was made")


def lost_clusters(case):
    """The superblock, where most units are of another cluster."""
    return [("Superblock", case.fields["Copy"], strange_text(case.fields, case.strange))] if case.strange else []


def lost_checkpoints(case):
    """The superblock, where blocks were written after it under a later one."""
    f = case.fields
    text = (f"it is older than the file: of boot {f['Boot']} and sequence {f['Sequence']}, and blocks of a later boot or checkpoint stand in the grid. It was "
            "restored from an older copy, or later ones were lost; or something else stood in this file before it was made")
    return [("Superblock", f["Copy"], text)] + [("Grid", address, "written under a later superblock") for address in case.later[:1]] if case.later else []


def free_blocks(file, state):
    """The addresses that nothing references and in which something stands, with what each shows."""
    f, known = state["fields"], {*state["references"], *(address for address, _ in state["chain"])}
    grid = zones_of(f)["Grid"]
    return [(address, shown(file, f, "Grid", address)) for address in range(1, f["Blocks"] + 1)
            if address not in known and any(bytes_at(file, grid.at(address), HEADER))]


def begun_blocks(file, state):
    """The blocks of a trailer that no superblock names yet."""
    later = state["fields"]["Sequence"] + 1
    return [("Grid", address, f"block {one['mark']} of the trailer of sequence {later}, of a checkpoint that was begun and isn't done")
            for address, one in free_blocks(file, state)
            if not isinstance(one, str) and one["kind"] == TRAILER and one["checkpoint"] == later]


def looks(file, sectors):
    """What these sectors look like, whatever the layout: runs from a first sector up to another, with a name and how many
    there are of it. Zeros between are passed over."""
    runs, behind = [], 0
    for at in sectors:
        name, behind = look_at(file, at, behind)
        if runs and name == runs[-1][2]:
            runs[-1][1:] = at + 1, name, runs[-1][3] + 1
        elif name:
            runs.append([at, at + 1, name, 1])
    return runs


def look_at(file, at, behind):
    """What a sector looks like, no name for zeros and for the rest of a unit; and the sector after the unit that it is in."""
    raw = bytes_at(file, SECTOR * at, SECTOR)
    if at < behind or not any(raw):
        return "", behind
    if is_copy(raw):
        return "copies of a superblock", behind
    headers = {start: h for start in range(0, SECTOR, HEADER) if (h := maybe_header(raw[start : start + HEADER]))}
    if not headers:
        return UNKNOWN, behind
    first = headers.get(0)
    if len(headers) > 1 or not first or first["kind"] == RESERVED:
        return f"sectors of headers of cluster {next(iter(headers.values()))['cluster']}", behind
    name = {PREPARE: "prepares", REPLY: "replies", BLOCK: "blocks", TRAILER: "trailer blocks"}[first["kind"]]
    return f"{name} of cluster {first['cluster']}", at + -(-first["size"] // SECTOR)


def maybe_header(raw):
    """A header, if it is one. Most bytes fail the first test, which is fast."""
    return header_of(raw)[0] if raw[122:124] in (b"\1\0", b"\2\0") else None
