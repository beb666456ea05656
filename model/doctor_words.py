"""The doctor's words: what a place holds, why a file is refused, and what to do next."""

from doctor_case import cases_by_copy, copies_of, copy_fields, looks, members_of, slot_case, strange_text
from doctor_next import CHECK, cut_lines, newer_reply, refused_next, rolled_lines, strange_next
from reader import class_of_copy, evidence_of, is_copy, later_of
from reader_units import BLOCK, HEADER, PREPARE, REPLY, RESERVED, SECTOR, bytes_at, fields_at, look, zones_of

NAMES = {RESERVED: "reserved header", PREPARE: "prepare", REPLY: "reply", BLOCK: "block", 5: "trailer block"}
# This many places are described one by one.
FEW = 6
FIELDS = {  # what is asked of a field of the superblock, or of a part of its checkpoint's trailer
    "Slots": "it has to be 16 to 1024, and a multiple of 16", "Clients": "it has to be 1 to 64",
    "MessageSize": "it has to be 4096 to 1048576, and a multiple of 4096", "Blocks": "it has to be 8 to 16384",
    "BlockSize": "it has to be 4096 to 524288, and a multiple of 4096", "Cluster": "it has to be above 0",
    "Sequence": "it has to be 1 to 2^62", "Op": "it has to be at most 2^62", "OpChecksum": "it has to be zeros, as Op is 0",
    "Head": "it has to be Op to Op + Slots, and at most 2^62; or this is the checksum of its prepare, which has to be OpChecksum where Head is "
            "Op, and zeros where Head is 0",
    "Replies": "it has to be at most Head, and at most 8 below it; or this is the first place from Clients on that has the checksum of a reply",
    "TrailerAddress": "it has to be at most Blocks, and 0 only where Op is 0", "Boot": "it has to be at most 2^62",
    "TrailerChecksum": "it has to be zeros, as TrailerAddress is 0",
    "TrailerSize": "it has to be 0 where TrailerAddress is 0, else from 1 to the greatest trailer",
    "Zero": "the byte at this offset of the copy has to be zero",
    "TrailerChain": "the block at this address is no link of the trailer's chain, or the trailer references it",
    "TrailerRoot": "the length of the root, or of a text that is too short to say it; the root has to have at most 1024 bytes, and to be in the text",
    "TrailerSessions": "the number of sessions, above Clients or more than the text has; or the place of one that breaks a rule; or the length of a "
                       "text that ends before that number",
    "TrailerBits": "at this offset of the trailer's text the bits end too early, or have one past the last block",
    "TrailerEnd": "the length of the text in bytes; its references ask for another",
    "Pending": "this op waits for its reply, and is the last op of no session",
}


def unit_text(h):
    """What a header says, in words."""
    text = {
        RESERVED: f"slot {h['slot']}", BLOCK: f"kind {h['block_kind']} for address {h['op']}",
        PREPARE: f"op {h['op']}, client {h['client']}, request {h['request']}, mark {h['mark']}, checkpoint {h['checkpoint']}",
        REPLY: f"op {h['op']}, client {h['client']}, request {h['request']}, mark {h['mark']}, checkpoint {h['checkpoint']}",
    }.get(h["kind"], f"index {h['mark']} of checkpoint {h['checkpoint']}, for address {h['op']}")
    boot = f", boot {h['boot']}" if h["boot"] else ""
    return f"a {NAMES[h['kind']]}: {text}{boot}, {h['size']} bytes, cluster {h['cluster']}"


def copy_text(sector):
    """What a copy says, in words."""
    c = copy_fields(sector)
    return (f"copy {sector[16]} of a superblock: version {c['Version']}, sequence {c['Sequence']}, boot {c['Boot']}, cluster {c['Cluster']}, "
            f"layout {layout_text(c)}, checkpoint {c['Op']}, head {c['Head']}, replies {c['Replies']}")


def layout_text(f):
    text = ",".join(str(f[name]) for name in ("Slots", "MessageSize", "Clients", "BlockSize", "Blocks"))
    return {"32,8192,4,16384,64": "small", "1024,1048576,64,524288,16384": "large"}.get(text, text)


def nature(data):
    """What bytes are, where they are no unit."""
    if len(set(data)) == 1:
        return "zeros" if not data[0] else f"bytes {data[0]:02x} alone"
    if all(byte in b"\t\n\r" or 32 <= byte < 127 for byte in data.rstrip(b"\0")):
        return f"text, {bytes(data[:24]).decode('ascii')!r} .."
    return "bytes of all sorts" if len(set(data)) > 128 else "a few kinds of bytes"


def natures(file, first, end):
    """What the sectors from a first one up to another hold, in runs."""
    runs = []
    for at in range(first, end):
        name = nature(bytes_at(file, SECTOR * at, SECTOR))
        if runs and runs[-1][2] == name:
            runs[-1][1] = at + 1
        else:
            runs.append([at, at + 1, name])
    shown = [f"{span(start, stop)}: {name}" for start, stop, name in runs[:FEW]]
    return "; ".join(shown + ([f"and {len(runs) - FEW} runs more"] if len(runs) > FEW else []))


def span(first, end):
    return f"sector {first}" if end == first + 1 else f"sectors {first}..{end}"


def place_lines(file, f, zone, index):
    """Where a place is, and what it holds."""
    one = zones_of(f)[zone]
    at, first = one.at(index), one.at(index) // SECTOR
    end = -(-(at + one.length) // SECTOR)
    lines = [f"{zone} {index}: {span(first, end)}, bytes {at}..{at + one.length}"]
    if zone == "Superblock":
        sector = bytes_at(file, at, SECTOR)
        return lines + ["there: " + (copy_text(sector) if is_copy(sector) else f"no copy. {natures(file, first, end)}")]
    seen = look(file, f, zone, index)
    if seen.header:
        return lines + [f"there: {unit_text(seen.header)}" + (f"; {seen.why}" if seen.why else "")]
    raw = bytes_at(file, at, HEADER)
    h = fields_at(raw)
    close = h["kind"] in NAMES and h["version"] in (1, 2) and h["cluster"] == f["Cluster"]
    return lines + [f"there: no unit, since {seen.why}" + (f". Its fields would be {unit_text(h)}" if close else "")
                    + ". " + (nature(raw) if zone == "WalHeaders" else natures(file, first, end))]


def told(state, head):
    """Who tells of ops above the head."""
    found = [f"{zone} {index} (op {op})" if zone != "the superblock" else f"the superblock (head {op})"
             for op, zone, index in evidence_of(state) if op > head]
    return ", ".join(found[:FEW]) + (f" and {len(found) - FEW} places more" if len(found) > FEW else "")


def named_lines(file, state, slot):
    """Why a prepare is missed that the superblock names."""
    f, op = state["fields"], slot_case(state, slot)[0]
    lines = [f"the superblock names the prepares up to op {f['Pin']}, of boot {f['Boot']} and before, and op {op} belongs in slot {slot}"]
    if not isinstance(state["prepares"][slot], str):
        lines.append("another prepare stands there, or this one doesn't fit those before it")
    return lines + slot_lines(file, f, slot)


def slot_lines(file, f, slot):
    """What both rings have of a slot."""
    return place_lines(file, f, "WalPrepares", slot) + cut_lines(file, f, "WalPrepares", slot) + place_lines(file, f, "WalHeaders", slot)


def lost_lines(file, state):
    """Why the prepare after the tail is missed."""
    f, head = state["fields"], state["head"]
    op, slot = head + 1, (head + 1) % f["Slots"]
    lines = [f"the file has the ops up to {head}; op {op} belongs in slot {slot}, and is known from {told(state, head)}"]
    one, header = state["prepares"][slot], state["headers"][slot]
    if not isinstance(one, str) and one["op"] == op:
        other = not isinstance(header, str) and header["op"] == op and header["checksum"] != one["checksum"]
        lines.append("a prepare of this op is there, but " + (
            "its header in the ring of headers is that of another one" if other else
            "doesn't fit those before it by its parent, its mark, or its client's request"))
    return lines + slot_lines(file, f, slot)


def damaged_lines(case, zone, index):
    """Why a place refuses the file."""
    file, state, f = case.file, case.state, case.fields
    if case.strange:
        return ["the superblock: " + strange_text(f, case.strange), *place_lines(file, f, zone, index), *copy_lines(file)]
    if zone == "Superblock":
        found = later_of(state)
        return rolled_lines(case) + [line for each in found[:FEW] for line in place_lines(file, f, *each)] + copy_lines(file)
    if case.later:
        return rolled_lines(case) + place_lines(file, f, zone, index) + copy_lines(file)
    if zone == "WalPrepares":
        return lost_lines(file, state) if "head" in state else named_lines(file, state, index)
    if zone == "ClientReplies":
        client, last = list(state["sessions"].items())[index]
        lines = [f"the reply to op {last['op']}, request {last['request']} of client {client}, was stored, and isn't shown here"]
        newer = newer_reply(case, zone, index)
        lines += [f"the superblock is older than the file: what stands here is the reply to op {newer['op']}, a later one"] if newer else []
    else:
        lines = [f"the trailer of the checkpoint, whose last block is at address {f['TrailerAddress']}, needs its block here"]
    return lines + place_lines(file, f, zone, index) + cut_lines(file, f, zone, index)


def copy_lines(file):
    """What each of the four sectors of copies has."""
    sectors = copies_of(file)
    members = members_of(sectors)
    return [f"Superblock {place}: {'chosen' if place in members else class_of_copy(sector, place)}, "
            + (copy_text(sector) if is_copy(sector) else nature(sector)) for place, sector in enumerate(sectors)]


def alone_lines(file):
    """What an open would answer were one of the copies enough."""
    lines = []
    for place, case in cases_by_copy(file):
        head = "" if case.refusal else f", head {case.state['head']}, replies {case.state['stored']}"
        lines.append(f"were the copy in sector {place} enough: {case.verdict()}{head}")
    return lines


def refusal_lines(case, sectors):
    """Why an open refuses the file; `sectors` are those that may hold something."""
    words = case.refusal.split()
    if words[0] == "Damaged":
        return damaged_lines(case, words[1], int(words[2]))
    if words[0] in ("NotFormatted", "NoQuorum"):
        why = "the first four sectors are zeros" if words[0] == "NotFormatted" else "no two of the four copies agree"
        return [why, *copy_lines(case.file), *alone_lines(case.file), *look_lines(case.file, sectors)]
    if words[0] == "Version":
        return [f"the superblock has version {words[2]}; the program opens only version 2", *copy_lines(case.file)]
    if words[0] == "BootSpent":
        return ["the boot is 2^62, the greatest, and no open can raise it", *copy_lines(case.file)]
    return [f"{words[1]} {words[2]}: {FIELDS[words[1]]}", *copy_lines(case.file)]


def look_lines(file, sectors):
    """What the sectors look like, whatever the layout."""
    runs = looks(file, sectors)
    listed = [f"{span(first, end)}: {name}, {count} of them" for first, end, name, count in runs[: 4 * FEW]]
    return listed + ([f"and {len(runs) - 4 * FEW} runs more"] if len(runs) > 4 * FEW else [])


def next_lines(case):
    """What to do."""
    if case.refusal:
        return refused_next(case)
    if case.strange:
        return strange_next(case)
    lines = []
    if case.later:
        lines.append("the superblock is older than the file: keep it as it is, run no `filemirror`, and take it whole from its newest copy; if it was "
                     "made by a `filecopy` or a `format`, remove it, and make it again (docs/OPERATING.md, \"An older superblock\")")
    elif case.lost:
        lines.append("keep a copy of the file, since mending takes some of these traces away; then compare what was acknowledged, "
                     "with `prepare` and `lookup`, before a new line is given: what was taken back is accepted again")
    if case.mends:
        lines.append("`run`, `recover` or `scrub` mends what is listed: there is nothing to do by hand")
    if case.failing:
        lines.append("copy this file, then `filemirror FILE COPY` restores the blocks that fail from any copy that shows them "
                     "(docs/OPERATING.md, \"Mending from a copy\"). If none does: release them, write them again from elsewhere, and make a "
                     f"checkpoint. In any case {CHECK}")
    return lines or ["nothing"]
