"""What the superblock of a table's file lost. Of a checkpoint whose trailer is gone what that said follows from the blocks of rows that it
referenced, and the superblock has its checksum, so that a guess is known to be right. And of a superblock that is an older one, the latest
checkpoint whose trailer stands in the grid."""

from reader_trailer import TOP, Refused, chain_of, number, parts_of
from reader_units import BLOCK, HEADER, TRAILER, bytes_at, checksum, header_of, shown, zones_of

CLIENT = 1
# Of a table without rows this many boots before the superblock's are tried.
EARLIER = 1000


def references_again(file, state):
    """The addresses with their checksums that the lost trailer of a table has, in order; None where no guess is right."""
    f = state["fields"]
    bits = (f["Blocks"] + 7) // 8
    count, rest = divmod(f["TrailerSize"] - 8 - 32 - bits, 16)
    if count < 0 or rest or f["TrailerSize"] > f["BlockSize"] - HEADER:
        return None
    for addresses in guesses(file, f, count):
        blocks = [shown(file, f, "Grid", address) for address in addresses]
        if all(not isinstance(one, str) and one["kind"] == BLOCK for one in blocks) and is_named(state, blocks, bits):
            return {one["op"]: one["checksum"] for one in blocks}
    return None


def guesses(file, f, count):
    """Where this many blocks of rows may stand. The table writes them at the least addresses that are free, and then the trailer: right before it, or
    where the checkpoint before, whose trailer may still be there, has none."""
    last = f["TrailerAddress"]
    if last > count:
        yield range(last - count, last)
    for address, one in trailers_of(file, f, f["Sequence"] - 1):
        try:
            held = {address, *parts_of(one["body"], f)[2]}
        except Refused:
            continue
        free = [other for other in range(1, f["Blocks"] + 1) if other not in held][: count + 1]
        if free[count:] == [last]:
            yield free[:count]


def trailers_of(file, f, sequence):
    """The trailer blocks of this sequence that stand in the grid, each with its address."""
    for address in range(1, f["Blocks"] + 1):
        one, _ = header_of(bytes_at(file, zones_of(f)["Grid"].at(address), HEADER))
        if one and one["kind"] == TRAILER and one["checkpoint"] == sequence:
            seen = shown(file, f, "Grid", address)
            if not isinstance(seen, str):
                yield address, seen


def latest_state(file, state):
    """The state by the latest checkpoint that some unit of the rings or some reply is of, and so was durable, where its trailer is in the grid, whole;
    None where it isn't, or is the superblock's own."""
    f = state["fields"]
    units = [one for ring in ("headers", "prepares", "places") for one in state[ring] if not isinstance(one, str)]
    sequence = max(one["checkpoint"] for one in units)
    for address, last in trailers_of(file, f, sequence) if sequence > f["Sequence"] else ():
        named = {"Sequence": sequence, "TrailerAddress": address, "TrailerChecksum": number(last["checksum"], 0, 16),
                 "TrailerSize": last["mark"] * (f["BlockSize"] - HEADER) + len(last["body"])}
        try:
            text, chain = chain_of(lambda there: shown(file, f, "Grid", there), {**f, **named})
            root, sessions, references = parts_of(text, {**f, "Op": TOP})
        except Refused:
            continue
        op = max((one["op"] for one in sessions.values()), default=0)
        behind = state["prepares"][(op + 1) % f["Slots"]]
        before = 0 if isinstance(behind, str) else behind["parent"]
        fields = {**f, **named, "Op": op, "OpChecksum": before, "Pin": op, "PinChecksum": before, "Head": op}
        return {**state, "fields": fields, "root": root, "known": sessions, "references": references, "chain": chain}
    return None


def is_named(state, blocks, bits):
    """Whether the trailer of these references is the one that the superblock names, with one session, that of the table's client."""
    f = state["fields"]
    behind = state["prepares"][(f["Op"] + 1) % f["Slots"]]
    requests = {f["Op"]} | ({behind["request"] - 1} if not isinstance(behind, str) else set())
    boots = {one["boot"] for one in blocks} or range(max(0, f["Boot"] - EARLIER), f["Boot"] + 1)
    held = sum(1 << one["op"] - 1 for one in blocks).to_bytes(bits, "little") + b"".join(one["checksum"] for one in blocks)
    for request in requests:
        session = CLIENT.to_bytes(16, "little") + request.to_bytes(8, "little") + f["Op"].to_bytes(8, "little")
        text = bytes(4) + (1).to_bytes(4, "little") + session + held
        if any(number(checksum(header(f, text, boot)), 0, 16) == f["TrailerChecksum"] for boot in boots):
            return True
    return False


def header(f, text, boot):
    """The bytes of the trailer's header after its checksum."""
    parts = [(f["Cluster"], 16), (0, 32), (f["TrailerAddress"], 8), (0, 16), (f["Sequence"], 8), (HEADER + len(text), 4), (0, 4),
             (TRAILER, 1), (0, 1), (f["Version"], 2), (boot, 8)]
    return (checksum(text) + b"".join(value.to_bytes(size, "little") for value, size in parts)).ljust(HEADER - 16, b"\0")
