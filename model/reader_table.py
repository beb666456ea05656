"""The table of a data file, for `rows.py` and the doctor, written from docs/OBJECTTABLE.md: its rows, what can't be read of them, and what
another program wrote. It shares nothing with the model beside it. Of a file that an open refuses it reads what can be read."""

from collections import Counter
from dataclasses import dataclass, field

from reader import is_cut, is_over, later_of, rings_of
from reader_lost import latest_state, references_again
from reader_trailer import class_at, number
from reader_units import BLOCK, HEADER, shown

CLIENT, KEY, LONGEST, ROW, MOST = 1, 16, 47, 64, 65_536
# In place of a change: its prepare isn't shown any more.
UNREAD = "unread"


@dataclass
class Table:
    """The rows of a file up to an op, and what was found on the way. Places are in the words of the program."""

    fields: dict
    rows: dict = field(default_factory=dict)
    # The op up to which the rows stand; how many rows the blocks have, and how many puts and drops stand in the ring alone.
    op: int = 0
    stored: int = 0
    puts: int = 0
    drops: int = 0
    # How many of these stand before the first prepare that is neither.
    front: int = 0
    # What can't be read, and what another program wrote: places with texts. The first of all that keeps `objecttable` from opening it.
    missing: list = field(default_factory=list)
    foreign: list = field(default_factory=list)
    closed: str = ""
    # The puts and drops that can be read after the first one that is missing: ops with these.
    later: list = field(default_factory=list)
    # What is worth a word, and lacks nothing.
    notes: list = field(default_factory=list)
    # The boots of the blocks of rows.
    boots: set = field(default_factory=set)

    def is_one(self):
        """Whether anything in it was written by a table."""
        return bool(self.stored or self.puts or self.drops or self.later)

    def was_closed(self):
        """Whether a table wrote it, and another program wrote after it what no table has."""
        return self.closed.startswith("NotTable") and bool(self.stored or self.front)

    def has_foreign(self, place, text):
        self.foreign.append((place, text))
        self.closed = self.closed or f"NotTable {place}"


def rows_in_block(f):
    return (f["BlockSize"] - HEADER) // ROW


def blocks_of_table(f):
    return (f["Blocks"] - 4) // 3


def most_rows(f):
    """How many rows a table of the layout has at most."""
    return min(MOST, rows_in_block(f) * blocks_of_table(f))


def greatest_blocks(f):
    """How many blocks the greatest table of the layout has, as a table writes it."""
    return -(-most_rows(f) // rows_in_block(f))


def rows_in(body):
    """The rows that the body of a block is; None where it isn't whole rows."""
    if len(body) % ROW:
        return None
    rows = []
    for at in range(0, len(body), ROW):
        size, rest = body[at + KEY], body[at + KEY + 1 : at + ROW]
        if size > LONGEST or any(rest[size:]):
            return None
        rows.append((number(body, at, KEY), rest[:size]))
    return rows


def change_in(body):
    """The put or the drop that the body of a prepare is: a key with its value, or with None; None where it is neither."""
    if body[:1] == b"\1" and 1 + KEY <= len(body) <= 1 + KEY + LONGEST:
        return number(body, 1, KEY), body[1 + KEY :]
    return (number(body, 1, KEY), None) if body[:1] == b"\2" and len(body) == 1 + KEY else None


def line_of(key, value):
    """The line of a script that makes a row, or drops one."""
    return f"drop {key}" if value is None else f"put {key} {value.hex() or '-'}"


def table_in(file, state, refusal, past=False):
    """The table of a file of which the reader found this much, and which an open refuses with these words, if it does. With `past` also
    what can be read after an op that is missing changes the rows."""
    table = Table(state["fields"])
    state = completed(file, state, refusal, table)
    for place, client in enumerate(state.get("sessions", state.get("known", {}))):
        if client != CLIENT:
            table.has_foreign(f"ClientReplies {place}", f"a session of client {client}")
    read_blocks(file, state, table, refusal)
    run, lacking, later = log_of(state)
    found = [read_change(file, table, one) for one in run]
    # A prepare that was shown a moment ago, and isn't now, is missing with what follows it.
    whole = found.index(UNREAD) if UNREAD in found else len(run)
    for one, changed in zip(run[:whole], found):
        change(table, one, changed)
    table.op = table.fields["Op"] + whole
    tell_lacking(table, state["prepares"], [one["op"] for one, changed in zip(run, found) if changed == UNREAD] + lacking)
    read_later(file, table, run[whole:] + later, past)
    return table


def completed(file, state, refusal, table):
    """What the reader found, and what it would have found after the first reason to refuse the file."""
    if "headers" not in state:
        state = {**state, **rings_of(file, state["fields"], bodies=False)}
    if later_of(state):
        state = older(file, state, table)
    again = None if "references" in state else references_again(file, state)
    if again is None:
        return state
    table.notes.append(f"{refusal}: this block, the trailer of the checkpoint, was made again from the blocks of rows, and has the checksum that the "
                       "superblock names: it lacks nothing")
    return {**state, "references": again, "chain": [], "root": b""}


def read_later(file, table, later, past):
    """Takes down what can be read after a missing op, and lets it change the rows if it is to."""
    for one in later:
        found = read_change(file, table, one)
        if found and found != UNREAD:
            table.later.append((one["op"], found))
        if found != UNREAD and (past or not found):
            change(table, one, found)


def read_blocks(file, state, table, refusal):
    """Puts the rows of the blocks of the checkpoint."""
    if "references" not in state:
        table.missing.append((refusal.removeprefix("Damaged "), "the checkpoint's trailer, so that nothing says which blocks have the table: each row "
                                                                "that wasn't put again since"))
        return
    ends = [take_block(file, table, number, *one) for number, one in enumerate(sorted(state["references"].items()))]
    table.stored = len(table.rows)
    for number, found in enumerate(ends):
        if isinstance(found, str):
            before = [one[1] for one in ends[:number] if isinstance(one, tuple)]
            behind = [one[0] for one in ends[number + 1 :] if isinstance(one, tuple)]
            table.missing.append((found, f"a block of at most {rows_in_block(table.fields)} rows{keys_between(before, behind)}"))
    other = other_program(file, state, table)
    if other:
        table.foreign.append((f"checkpoint {table.fields['Op']}", other))


def take_block(file, table, number, address, checksum):
    """Puts the rows of one block; gives its first and its last key, or its place and class where it isn't shown."""
    place, f = f"Grid {address}", table.fields
    one = shown(file, f, "Grid", address)
    if isinstance(one, str) or one["kind"] != BLOCK or one["checksum"] != checksum:
        table.closed = table.closed or f"Damaged {place} {class_at(one)}"
        return f"{place} {class_at(one)}"
    rows = rows_in(one["body"])
    if rows is None:
        table.has_foreign(place, f"a block of kind {one['block_kind']} that isn't whole rows")
        return None
    table.boots.add(one["boot"])
    twice = [key for key, _ in rows if key in table.rows] + [key for key, count in Counter(key for key, _ in rows).items() if count > 1]
    if twice:
        table.has_foreign(place, f"the key {twice[0]} stands here, and before it, too")
    for key, value in rows:
        table.rows.setdefault(key, value)
    if number >= blocks_of_table(f) or len(table.rows) > most_rows(f):
        table.has_foreign(place, "with it there are more blocks or rows than a table of this layout has")
    return (rows[0][0], rows[-1][0]) if rows else None


def keys_between(before, behind):
    """Between which keys the rows of a block stand that isn't shown, if all stand in order."""
    above = f" above {before[-1]}" if before else ""
    below = f" below {behind[0]}" if behind else ""
    joined = " and".join(part for part in (above, below) if part)
    return f", of keys{joined}" if joined else ""


def other_program(file, state, table):
    """Why the checkpoint seems to be another program's than the table's, which writes a root of no bytes, all its blocks in the boot of
    the trailer, and a checkpoint as its ring is full; nothing where it doesn't."""
    f, chain = table.fields, state["chain"]
    last = shown(file, f, "Grid", chain[-1][0]) if chain else ""
    if isinstance(last, str) or (state["references"] and not table.boots):
        return ""
    if not state["root"] and (table.boots == {last["boot"]} if table.boots else f["Op"] % f["Slots"] == 0):
        return ""
    return ("another program than the table made it, or the file was copied to this layout: puts and drops that stood in the ring alone then "
            "are gone")


def known_of(state):
    """The checksums of the prepares that the superblock names: that of its head, and by the parents those below, as far as a prepare or a
    header is there that has the parent."""
    f, known = state["fields"], {}
    op, wanted = f["Pin"], f["PinChecksum"]
    while op > f["Op"]:
        known[op] = wanted
        shown_there = (ring[op % f["Slots"]] for ring in (state["prepares"], state["headers"]))
        one = next((one for one in shown_there if not isinstance(one, str) and number(one["checksum"], 0, 16) == wanted), None)
        if one is None:
            break
        op, wanted = op - 1, one["parent"]
    return known


def is_meant(state, known, op):
    """Whether an op's slot shows a prepare of it that is none of before: up to the superblock's head no other than the known one, and above it
    one of the superblock's boot or of a later one, against which no header speaks."""
    f, slot = state["fields"], op % state["fields"]["Slots"]
    header, one = state["headers"][slot], state["prepares"][slot]
    if isinstance(one, str) or one["op"] != op:
        return False
    if op <= f["Pin"]:
        return known.get(op) in (None, number(one["checksum"], 0, 16))
    speaks = not isinstance(header, str) and (header["op"] > op or (header["op"] == op and header["boot"] >= f["Boot"]))
    return one["boot"] >= f["Boot"] and not (speaks and header["checksum"] != one["checksum"])


def chain_of(state, known):
    """The prepares after the checkpoint each of which has the one before as its parent, up to the last whole group."""
    f, run = state["fields"], []
    before = f["OpChecksum"]
    for op in range(f["Op"] + 1, f["Op"] + f["Slots"] + 1):
        one = state["prepares"][op % f["Slots"]]
        if not is_meant(state, known, op) or one["parent"] != before:
            break
        run.append(one)
        before = number(one["checksum"], 0, 16)
    while run and not is_over(run[-1]):
        run.pop()
    return run


def told_up_to(state, head):
    """The greatest op that something in the file tells of."""
    f = state["fields"]
    units = [one for ring in ("headers", "prepares", "places") for one in state[ring]
             if not isinstance(one, str) and one["boot"] >= f["Boot"] and not (ring == "prepares" and is_cut(one, head))]
    return max([f["Head"], *(max(one["op"], one["mark"]) for one in units)])


def log_of(state):
    """The prepares after the checkpoint, in order of op, up to the first that is missing; the ops that are missing; and the prepares after
    the first of these. A file that opens has none of the latter two."""
    f, known = state["fields"], known_of(state)
    run = state["tail"] if "tail" in state else chain_of(state, known)
    head = f["Op"] + len(run)
    behind = range(head + 1, told_up_to(state, head) + 1)
    in_ring = behind[-f["Slots"] :]
    later = [op for op in in_ring if is_meant(state, known, op) and (op > f["Pin"] or op in known)]
    lacking = [range(behind.start, in_ring.start)] if in_ring.start > behind.start else []
    lacking += [op for op in in_ring if op not in later]
    return run, lacking, [state["prepares"][op % f["Slots"]] for op in later]


def read_change(file, table, one):
    """The put or the drop that a prepare is; None where it is another one's, `UNREAD` where it isn't shown any more."""
    if one["client"] != CLIENT or one["size"] > HEADER + 1 + KEY + LONGEST:
        return None
    seen = shown(file, table.fields, "WalPrepares", one["op"] % table.fields["Slots"])
    return UNREAD if isinstance(seen, str) or seen["checksum"] != one["checksum"] else change_in(seen["body"])


def change(table, one, found):
    """What a prepare does to the rows."""
    slot = one["op"] % table.fields["Slots"]
    if found is None:
        table.has_foreign(f"WalPrepares {slot}", f"op {one['op']} of client {one['client']}, which is no put and no drop of a table")
        return
    key, value = found
    table.front += not any(place.startswith("WalPrepares") for place, _ in table.foreign)
    if value is None:
        table.drops += 1
        table.rows.pop(key, None)
        return
    table.puts += 1
    if key not in table.rows and len(table.rows) >= most_rows(table.fields):
        table.has_foreign(f"WalPrepares {slot}", f"op {one['op']} puts a row more than a table of this layout has")
    table.rows[key] = value


def older(file, state, table):
    """The state of a file whose superblock is an older one: by a later checkpoint, where that is there."""
    f, found = table.fields, latest_state(file, state)
    by = f"; read by the later checkpoint of sequence {found['fields']['Sequence']} that stands in the grid" if found else ""
    table.missing.append((f"Superblock {f['Copy']} Stale", f"the superblock is an older one, of sequence {f['Sequence']} and boot {f['Boot']}{by}: what "
                                                           "was put and dropped since may be missing"))
    table.fields = (found or state)["fields"]
    return found or state


def tell_lacking(table, prepares, lacking):
    """Names the ops that are missing."""
    for op in lacking:
        if isinstance(op, range):
            table.missing.append((f"WalPrepares ops {op[0]} to {op[-1]}", "the puts and drops of these ops, whose slots have later ones"))
        else:
            slot = op % table.fields["Slots"]
            table.missing.append((f"WalPrepares {slot} {class_at(prepares[slot])}", f"the put or the drop of op {op}"))
