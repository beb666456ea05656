"""The trailer of a checkpoint, for `reader.py`: its chain of blocks, its text, and why one is refused."""

TOP = 2**62
TRAILER = 5


class Refused(Exception):
    """Why a file isn't read, in the words of the program's line."""


def number(data, at, size):
    return int.from_bytes(data[at : at + size], "little")


def class_at(what):
    """The class of what is shown and isn't wanted."""
    return what if isinstance(what, str) else "Stale"


def chain_of(shown_at, f):
    """The bodies of the trailer blocks put together, and each one's address with its checksum, in order of index; `shown_at`
    gives what an address shows."""
    room = f["BlockSize"] - 256
    count = (f["TrailerSize"] + room - 1) // room
    address, wanted, text, chain = f["TrailerAddress"], f["TrailerChecksum"], b"", []
    for index in range(count - 1, -1, -1):
        block = shown_at(address)
        if isinstance(block, str) or block["kind"] != TRAILER or number(block["checksum"], 0, 16) != wanted:
            raise Refused(f"Damaged Grid {address} {class_at(block)}")
        size = room if index < count - 1 else f["TrailerSize"] - room * index
        leads = index == 0 or 1 <= block["request"] <= f["Blocks"]
        if (block["mark"], len(block["body"]), block["checkpoint"]) != (index, size, f["Sequence"]) or not leads:
            raise Refused(f"BadField TrailerChain {address}")
        text, chain = block["body"] + text, [(address, block["checksum"]), *chain]
        address, wanted = block["request"], block["parent"]
    return text, chain


def session_at(text, at):
    return {"client": number(text, at, 16), "request": number(text, at + 16, 8), "op": number(text, at + 24, 8), "kind": 0}


def parts_of(text, f):
    """The root, the sessions and the references of a text, or its first failing part."""
    end = len(text)
    root = number(text, 0, 4)
    if end < 4:
        raise Refused(f"BadField TrailerRoot {end}")
    if root > 1024 or end < 4 + root:
        raise Refused(f"BadField TrailerRoot {root}")
    if end < 8 + root:
        raise Refused(f"BadField TrailerSessions {end}")
    count, at = number(text, 4 + root, 4), 8 + root
    if count > f["Clients"]:
        raise Refused(f"BadField TrailerSessions {count}")
    sessions = {}
    for place in range(count):
        if end < at + 32:
            raise Refused(f"BadField TrailerSessions {count}")
        one = session_at(text, at)
        ops = [other["op"] for other in sessions.values()]
        ranges = one["client"] and 1 <= one["request"] <= TOP and 1 <= one["op"] <= f["Op"]
        if not ranges or one["client"] in sessions or one["op"] in ops:
            raise Refused(f"BadField TrailerSessions {place}")
        sessions[one["client"]] = one
        at += 32
    return text[4 : 4 + root], sessions, references_of(text, at, f)


def references_of(text, at, f):
    """The referenced addresses with their checksums; the bits begin at an offset of the text."""
    end = at + (f["Blocks"] + 7) // 8
    if len(text) < end:
        raise Refused(f"BadField TrailerBits {len(text)}")
    set_bits = [bit for bit in range(8 * (end - at)) if text[at + bit // 8] >> bit % 8 & 1]
    if set_bits and set_bits[-1] >= f["Blocks"]:
        raise Refused(f"BadField TrailerBits {end - 1}")
    if len(text) != end + 16 * len(set_bits):
        raise Refused(f"BadField TrailerEnd {len(text)}")
    return {bit + 1: text[end + 16 * place : end + 16 * place + 16] for place, bit in enumerate(set_bits)}


def checkpoint_of(shown_at, f):
    """What the superblock's checkpoint says: its root, sessions by client, references by address, and its trailer's chain."""
    if f["TrailerAddress"] == 0:
        return {"root": b"", "known": {}, "references": {}, "chain": []}
    text, chain = chain_of(shown_at, f)
    root, sessions, references = parts_of(text, f)
    for address in sorted(address for address, _ in chain):
        if address in references:
            raise Refused(f"BadField TrailerChain {address}")
    ops = [one["op"] for one in sessions.values()]
    for op in range(f["Replies"] + 1, f["Op"] + 1):
        if op not in ops:
            raise Refused(f"BadField Pending {op}")
    return {"root": root, "known": sessions, "references": references, "chain": chain}
