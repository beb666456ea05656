#!/usr/bin/env python3
"""A reader of the data file, written from docs/FORMAT.md alone. It shares nothing with the model beside it.

    python3 model/reader.py FILE [VERSION]

Prints why the file is refused, where this version is asked for (2 by default), or its layout, its cluster, its sequence and its boot, its checkpoint,
each prepare and each stored reply.
"""

import sys

from reader_trailer import Refused, checkpoint_of, class_at, number
from reader_units import BLOCK, COPIES, REPLY, SECTOR, TOP, bytes_at, checksum, shown

NUMBERS = {  # field of a superblock copy: offset and bytes
    "Version": (32, 4), "Slots": (36, 4), "MessageSize": (40, 4), "Clients": (44, 4), "Cluster": (48, 16),
    "BlockSize": (64, 4), "Blocks": (68, 4), "Sequence": (72, 8), "Op": (80, 8), "Head": (88, 8), "Replies": (96, 8),
    "TrailerAddress": (104, 8), "OpChecksum": (112, 16), "TrailerChecksum": (128, 16), "TrailerSize": (144, 8),
    "Boot": (152, 8),
}


def is_copy(sector):
    return checksum(sector[32:]) == sector[:16] and number(sector, 16, 4) < COPIES and not any(sector[20:32])


def class_of_copy(sector, place):
    """The class of a sector among which there is no choice."""
    if not any(sector):
        return "Blank"
    if not is_copy(sector):
        return "Garbled"
    return "Stale" if number(sector, 16, 4) == place else f"Elsewhere Superblock {number(sector, 16, 4)}"


def content(copy):
    return copy[:16] + copy[32:]


def choose(sectors):
    """The sector of the lowest-numbered copy that has the chosen content; None without a choice."""
    votes = [sector for place, sector in enumerate(sectors) if is_copy(sector) and number(sector, 16, 4) == place]
    chosen = None
    for one in votes:
        agreed = sum(content(one) == content(other) for other in votes) >= 2
        if agreed and (chosen is None or rank(one) > rank(chosen)):
            chosen = one
    return chosen


def rank(copy):
    """What contents are compared by, whatever their version: the sequence, and then the boot."""
    return number(copy, 72, 8), number(copy, 152, 8)


def names_of(f, copy):
    """What a superblock of its version has after the fields of both: the tests of these fields, each with what is told where it
    fails; the offsets that are to be zero; and which prepares and replies it names."""
    if f["Version"] == 1:
        named = {"Pin": f["Op"], "PinChecksum": f["OpChecksum"], "Answered": 0, "ReplyChecksums": ()}
        return (("Boot", f["Boot"] == 0, f["Boot"]),), range(160, SECTOR), named
    head = number(copy, 160, 16)
    sums = [number(copy, 192 + 16 * place, 16) for place in range(64)]
    spare = next((place for place in range(f["Clients"], 64) if sums[place]), None)
    is_head = (f["Head"] != 0 or head == 0) and (f["Head"] != f["Op"] or head == f["OpChecksum"])
    tests = (("Boot", f["Boot"] <= TOP, f["Boot"]), ("Head", is_head, head), ("Replies", spare is None, spare))
    named = {"Pin": f["Head"], "PinChecksum": head, "Answered": f["Replies"] + 1, "ReplyChecksums": sums}
    return tests, [*range(176, 192), *range(1216, SECTOR)], named


def fields_of(copy, version=2):
    """The fields of a superblock that passes the tests of version and fields."""
    f = {name: number(copy, at, size) for name, (at, size) in NUMBERS.items()}
    if f["Version"] != version:
        raise Refused(f"Version found {f['Version']}")
    greatest = 4 + 1024 + 4 + 32 * f["Clients"] + (f["Blocks"] + 7) // 8 + 16 * f["Blocks"]
    has_trailer = f["TrailerAddress"] != 0
    tests = (
        ("Slots", 16 <= f["Slots"] <= 1024 and f["Slots"] % 16 == 0),
        ("MessageSize", 4096 <= f["MessageSize"] <= 1048576 and f["MessageSize"] % 4096 == 0),
        ("Clients", 1 <= f["Clients"] <= 64),
        ("BlockSize", 4096 <= f["BlockSize"] <= 524288 and f["BlockSize"] % 4096 == 0),
        ("Blocks", 8 <= f["Blocks"] <= 16384),
        ("Cluster", f["Cluster"] != 0),
        ("Sequence", 1 <= f["Sequence"] <= TOP),
        ("Op", f["Op"] <= TOP),
        ("OpChecksum", f["Op"] != 0 or f["OpChecksum"] == 0),
        ("Head", f["Op"] <= f["Head"] <= f["Op"] + f["Slots"] and f["Head"] <= TOP),
        ("Replies", f["Replies"] <= f["Head"] <= f["Replies"] + 8),
        ("TrailerAddress", f["TrailerAddress"] <= f["Blocks"] and (has_trailer or f["Op"] == 0)),
        ("TrailerChecksum", has_trailer or f["TrailerChecksum"] == 0),
        ("TrailerSize", 1 <= f["TrailerSize"] <= greatest if has_trailer else f["TrailerSize"] == 0),
    )
    own, zeros, named = names_of(f, copy)
    for name, passes, value in [(name, passes, f[name]) for name, passes in tests] + [*own]:
        if not passes:
            raise Refused(f"BadField {name} {value}")
    for at in zeros:
        if copy[at]:
            raise Refused(f"BadField Zero {at}")
    return f | named


def superblock_of(file, checkpoints, version=2):
    """The fields of the file's superblock, and the lowest copy that has it."""
    sectors = [bytes_at(file, SECTOR * place, SECTOR) for place in range(COPIES)]
    if not any(map(any, sectors)):
        raise Refused("NotFormatted")
    copy = choose(sectors)
    if copy is None:
        raise Refused("NoQuorum " + " ".join(class_of_copy(sector, place) for place, sector in enumerate(sectors)))
    f = fields_of(copy, version)
    if f["TrailerAddress"] and not checkpoints:
        raise Refused(f"BadField TrailerAddress {f['TrailerAddress']}")
    f["Copy"] = number(copy, 16, 4)
    return f


def is_own(one, f):
    """Whether a unit of the superblock's boot is shown: one of an earlier boot proves nothing."""
    return not isinstance(one, str) and one["boot"] == f["Boot"]


def group_of(one):
    """The first and the last op of a prepare's group; one that names no group is alone."""
    return one["group"] or one["op"], one["group_last"] or one["op"]


def is_over(one):
    """Whether a prepare is the last of its group."""
    return group_of(one)[1] <= one["op"]


def lacking_of(f, prepares):
    """The greatest op that the superblock names and whose slot doesn't show the prepare that is named; None where all are shown."""
    op, wanted = f["Pin"], f["PinChecksum"]
    while op > f["Op"]:
        one = prepares[op % f["Slots"]]
        if isinstance(one, str) or number(one["checksum"], 0, 16) != wanted:
            return op
        op, wanted = op - 1, one["parent"]
    return None


def is_taken(f, op, header, one):
    """Whether this op's prepare is taken from its slot. Up to the pin its checksum is known."""
    if isinstance(one, str) or one["op"] != op:
        return False
    if op <= f["Pin"]:
        return True
    speaks = not isinstance(header, str) and (header["op"] > op or (header["op"] == op and is_own(header, f)))
    return is_own(one, f) and not (speaks and header["checksum"] != one["checksum"])


def fits(f, one, before, sessions):
    """Whether a prepare fits the one before it, if there is one, and the sessions up to it."""
    op, last = one["op"], sessions.get(one["client"])
    chained = one["parent"] == (number(before["checksum"], 0, 16) if before else f["OpChecksum"])
    marked = one["mark"] >= (before["mark"] if before else 0) and one["mark"] + 8 >= op
    if last:
        follows = one["request"] == last["request"] + 1 and last["op"] <= one["mark"]
    else:
        follows = one["request"] == 1 and len(sessions) < f["Clients"]
    grouped = group_of(one)[0] == op if before is None or is_over(before) else group_of(one) == group_of(before)
    return chained and marked and follows and grouped and (op != f["Pin"] or is_over(one))


def reach_of(f, headers, prepares, known):
    """The longest list of prepares after the checkpoint that are taken and fit; the sessions that are known first."""
    reached, sessions = [], dict(known)
    for op in range(f["Op"] + 1, f["Op"] + f["Slots"] + 1):
        header, one = headers[op % f["Slots"]], prepares[op % f["Slots"]]
        if not is_taken(f, op, header, one) or not fits(f, one, reached[-1] if reached else None, sessions):
            break
        reached.append(one)
        sessions[one["client"]] = one
    return reached


def tail_of(f, reached, known):
    """Of these prepares those up to the last whole group; with each client's last request, in order of place, the sessions that
    are known first."""
    tail, sessions = list(reached), dict(known)
    while tail and not is_over(tail[-1]):
        tail.pop()
    for one in tail:
        sessions[one["client"]] = one
    return tail, sessions


def rings_of(file, f, bodies=True):
    """What each place of the rings and of the replies shows. Without bodies only the headers are kept."""
    def every(zone, count):
        return [kept(shown(file, f, zone, index)) for index in range(count)]

    def kept(one):
        return one if bodies or isinstance(one, str) else dict(one, body=None)
    return {"headers": every("WalHeaders", f["Slots"]), "prepares": every("WalPrepares", f["Slots"]),
            "places": every("ClientReplies", f["Clients"])}


def stored_of(f, tail, sessions, places):
    """How many replies are stored, and for each client its stored reply or what waits."""
    replies = [one["op"] for one in places if is_own(one, f)]
    stored = max(f["Replies"], tail[-1]["mark"] if tail else 0, *replies, 0)
    kept = {}
    for place, (client, last) in enumerate(sessions.items()):
        one = places[place]
        kept[client] = last
        if last["op"] <= stored:
            if not is_answer(f, place, one, last):
                raise Refused(f"Damaged ClientReplies {place} {class_at(one)}")
            kept[client] = one
    return stored, kept


def is_answer(f, place, one, last):
    """Whether what a reply slot shows answers its client's last request. A reply that the superblock names has the checksum that it
    has for the place, and any other one is of its boot."""
    if isinstance(one, str) or any(one[name] != last[name] for name in ("client", "request", "op")):
        return False
    if one["op"] < f["Answered"]:
        return number(one["checksum"], 0, 16) == f["ReplyChecksums"][place]
    return is_own(one, f)


def is_cut(one, head):
    """Whether a prepare is of a group of several right above the head, which counts as a whole alone."""
    first, last = group_of(one)
    return one["boot"] > 0 and first == head + 1 and first < last and one["op"] > head


def evidence_of(state):
    """Each op that something in the file tells of, where this head is found: the op, and where it is told."""
    f, head = state["fields"], state["head"]
    told = [(f["Head"], "the superblock", 0)]
    told += [(one["op"], "WalHeaders", slot) for slot, one in enumerate(state["headers"]) if is_own(one, f)]
    told += [(one["op"], "WalPrepares", slot) for slot, one in enumerate(state["prepares"]) if is_own(one, f) and not is_cut(one, head)]
    for place, one in enumerate(state["places"]):
        told += [(max(one["op"], one["mark"]), "ClientReplies", place)] if is_own(one, f) else []
    return told


def later_of(state):
    """The places whose units are of a later checkpoint than the superblock's, or of a later boot."""
    f, found = state["fields"], []
    for ring, zone in (("headers", "WalHeaders"), ("prepares", "WalPrepares"), ("places", "ClientReplies")):
        for index, one in enumerate(state[ring]):
            beyond = ring != "places" and not isinstance(one, str) and one["op"] > f["Op"] + f["Slots"]
            later = not isinstance(one, str) and (one["checkpoint"] > f["Sequence"] or one["boot"] > f["Boot"])
            if beyond or later:
                found.append((zone, index))
    return found


def damage_of(state, op):
    """The refusal that blames the prepare slot of an op."""
    slot = op % state["fields"]["Slots"]
    return Refused(f"Damaged WalPrepares {slot} {class_at(state['prepares'][slot])}")


def find(file, state, checkpoints=True, bodies=True, version=2):
    """Fills in what the file has, as far as it isn't refused where this version is asked for: the superblock's fields, its
    checkpoint, what each place of the rings and of the replies shows, the tail, the sessions, the head, how many replies are stored,
    and those."""
    f = state["fields"] = superblock_of(file, checkpoints, version)
    state.update(checkpoint_of(lambda address: shown(file, f, "Grid", address), f))
    state.update(rings_of(file, f, bodies))
    if later_of(state):
        raise Refused(f"Damaged Superblock {f['Copy']} Stale")
    lacking = lacking_of(f, state["prepares"])
    if lacking is not None:
        raise damage_of(state, lacking)
    reached = reach_of(f, state["headers"], state["prepares"], state["known"])
    behind = f["Op"] + len(reached) + 1
    if behind <= f["Pin"]:
        raise damage_of(state, behind)
    state["tail"], state["sessions"] = tail_of(f, reached, state["known"])
    head = state["head"] = f["Op"] + len(state["tail"])
    if max(op for op, _, _ in evidence_of(state)) > head:
        raise damage_of(state, behind)
    state["stored"], state["replies"] = stored_of(f, state["tail"], state["sessions"], state["places"])
    if f["Boot"] == TOP:
        raise Refused("BootSpent")


def state_of(file, checkpoints=True, version=2):
    """All that is read of the file, with its referenced blocks, where this version is asked for. Without checkpoints a file that
    has one is refused, as by a program that knows none."""
    state = {}
    find(file, state, checkpoints, version=version)
    f, listed = state["fields"], state["references"].items()
    return state | {"blocks": {address: block_of(file, f, address, checksum) for address, checksum in listed}}


def block_of(file, f, address, checksum):
    """A referenced block, or the class of what is there."""
    one = shown(file, f, "Grid", address)
    return one if not isinstance(one, str) and one["kind"] == BLOCK and one["checksum"] == checksum else class_at(one)


def text_of(one):
    """A prepare or a reply, as the program prints it after its kind."""
    return (f"{one['op']} client {one['client']} request {one['request']} mark {one['mark']} "
            f"checkpoint {one['checkpoint']} body {one['body'].hex() or '-'}")


def main():
    if len(sys.argv) not in (2, 3) or sys.argv[2:] not in ([], ["1"], ["2"]):
        sys.exit("usage: reader.py FILE [VERSION]")
    with open(sys.argv[1], "rb") as opened:
        file = opened.read()
    try:
        state = state_of(file, version=int((sys.argv[2:] or ["2"])[0]))
    except Refused as why:
        sys.exit(f"refused {why}")
    f = state["fields"]
    print("layout", *(f[name] for name in ("Slots", "MessageSize", "Clients", "BlockSize", "Blocks")))
    print("cluster", f["Cluster"])
    print("sequence", f["Sequence"])
    print("boot", f["Boot"])
    print("root", state["root"].hex() or "-")
    for address, one in state["blocks"].items():
        print("block", address, one if isinstance(one, str) else f"kind {one['block_kind']} body {one['body'].hex() or '-'}")
    print("replies", state["stored"])
    for prepare in state["tail"]:
        print("prepare", text_of(prepare))
    for reply in state["replies"].values():
        if reply["kind"] == REPLY:
            print("reply", text_of(reply))


if __name__ == "__main__":
    main()
