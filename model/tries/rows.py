"""Worked rows: files, words and scripts whose answers are written out here, for the model and for the program."""

from functools import lru_cache

from . import checkpoint_rows, copy_rows, form, group_rows, recovery, report_rows, script, superblock, units
from .binary import expect
from .common import Try, asked, session
from .copy_rows import A5, BLANK, FIRST, HOME, TOP, file_of, four
from .form import SECTOR, SMALL, Home
from .knows import knows
from .worked import NEW, answers, at_rest, followed, forged, ops, spoiled, struck, with_copies, with_headers

USAGE = report_rows.USAGE
ONE = "16,4096,1,4096"
NARROW, MANY = form.Layout(16, 4096, 1, 4096, 8), form.Layout(16, 4096, 1, 4096, 1024)
WIDE = Home(form.Layout(32, 8192, 16, 16384, 64), 7)
FOUR = "".join(f"append {client} 1 -\n" for client in range(1, 5)) + "reply 1 -\n"
EIGHT = "".join(f"append {client} 1 -\n" for client in range(1, 9))
EARLIER = form.sector(script.run(NEW, ops(1).encode()).data, 70)
SECOND, FIFTH = {"client": form.number(2)}, {"client": form.number(5)}
CLIENT = {"client": form.number(9), "request": 1}
LATER_OP = {"kind": units.PREPARE, "op": 35, "slot": 3, "checkpoint": 1, **CLIENT}
LATER_SEQUENCE = {"kind": units.REPLY, "op": 1, "slot": 3, "mark": 1, "checkpoint": 2, **CLIENT}
LATER_MARK = {"kind": units.REPLY, "op": 1, "slot": 3, "mark": 33, "checkpoint": 1, **CLIENT}
SECOND_OP = {"kind": units.PREPARE, "op": 2, "slot": 2, "checkpoint": 1, **CLIENT}
FIRST_OP = {"kind": units.REPLY, "op": 1, "slot": 3, "mark": 1, "checkpoint": 1, **CLIENT}
EMPTY = {"kind": units.RESERVED, "slot": 9}
IN_GRID = {"kind": units.BLOCK, "op": 64, "block_kind": 1}
OUTSIDE = {"kind": units.BLOCK, "op": 65, "block_kind": 1}
TWO = "append 1 1 -\nreply 1 -\nappend 2 1 -\n"
# What a superblock names of a file after one op: its prepare and the reply to it.
_PREPARE = units.prepare(HOME, 1, bytes(16), 1, 1, 1, b"", 0, 1)
_REPLY = units.reply(HOME, 1, _PREPARE.checksum, recovery.Session(1, 1, 1), 0, b"", 1, 1)
ONE_OP = superblock.naming(_PREPARE.checksum, [(0, _REPLY.checksum)])


def twice(text: str) -> bytes:
    """A new file after this script, which was opened once more."""
    return script.run(struck(NEW, text), b"").data


def another() -> bytes:
    """A file whose second prepare, which an open named, is another one with its header."""
    file = twice(ops(2))
    header = forged(file, "", SECOND_OP, form.WAL_HEADERS, 2, boot=1)
    return at_rest(forged(file, "", SECOND_OP, form.WAL_PREPARES, 2, boot=1), (4, form.sector(header, 4)))


def again_lost() -> bytes:
    """A file whose second prepare was lost with its header and is there again, after another one of its op and of a later boot."""
    first = struck(NEW, TWO)
    lost = script.run(at_rest(first, (4, A5), (10, A5)), b"").data
    return at_rest(script.run(lost, b"append 2 1 bb\n").data, (10, form.sector(first, 10)))


FIRST_SESSION = ("""append 5 1 -
reply 1 aa
lookup 5
append 5 1 -
append 5 3 00
append 5 2 0102
append 5 2 0102
lookup 5
lookup 6
prepare 2
prepare 3
reply 1 -
append 0 1 -
""", """appended 1
replied 1
reply 1 client 5 request 1 mark 1 checkpoint 1 body aa
refused Repeated op 1
refused RequestOrder expected 2
appended 2
refused ReplyPending op 2
refused ReplyPending op 2
refused NoClient
prepare 2 client 5 request 2 mark 1 checkpoint 1 body 0102
refused NotKept first 1 last 2
refused ReplyOrder expected 2
refused ClientZero
""")
# The file, the words, the script; the text and the status.
ROWS = (
    (None, "format small 7", "", "formatted 336\n", 0),
    (None, "format large 1", "", "formatted 2375808\n", 0),
    (None, f"format {ONE},8 7", "", "formatted 30\n", 0),
    (None, f"format {ONE},1024 7", "", "formatted 1046\n", 0),
    (None, "format small 340282366920938463463374607431768211455", "", "formatted 336\n", 0),
    (NEW, "run", "", "", 0),
    (NEW, "format small 7", "", "refused NotBlank copy 0\n", 4),
    (file_of(BLANK, BLANK, BLANK, bytes(4095) + b"\1"), "format small 7", "", "refused NotBlank copy 3\n", 4),
    (None, "run", "append 5 1 -", "refused NotFormatted\n", 4),
    (bytes(4 * SECTOR) + b"\1", "run", "", "refused NotFormatted\n", 4),
    (bytes(4 * SECTOR - 1) + b"\1", "run", "", "refused NoQuorum Blank Blank Blank Garbled\n", 4),
    (None, "format small 0", "", "refused ClusterZero\n", 4),
    (NEW, "format small 0", "", "refused ClusterZero\n", 4),
    (None, "format small", "", USAGE, 2),
    (None, "format small 007", "", USAGE, 2),
    (None, "format 0,4096,1,4096,8 7", "", USAGE, 2),
    (None, "format small 340282366920938463463374607431768211456", "", USAGE, 2),
    (None, "format 24,4096,1,4096,8 7", "", USAGE, 2),
    (None, "format 1040,4096,1,4096,8 7", "", USAGE, 2),
    (None, "format 16,1052672,1,4096,8 7", "", USAGE, 2),
    (None, "format 16,4096,65,4096,8 7", "", USAGE, 2),
    (None, "format 16,4096,1,528384,8 7", "", USAGE, 2),
    (None, "format 16,4096,1,4096,7 7", "", USAGE, 2),
    (None, "format 16,4096,1,4096,16385 7", "", USAGE, 2),
    (None, "run --", "", USAGE, 2),
    (None, "append", "", USAGE, 2),
    (four(), "run", "append 5 1 -\nappend 6 1 0102\n", "appended 1\nappended 2\n", 0),
    (NEW, "run", "append 5 1 -\nappend 6 1 0102\n", "appended 1\nappended 2\n", 0),
    (NEW, "run", "append 5 1 -\nappend 6 1 0102", "appended 1\nappended 2\n", 0),
    (NEW, "run", "append 4 1 -\n\n", "appended 1\nscript 2\n", 3),
    (NEW, "run", "append 4 1 -\nappend 5 1 abc", "appended 1\nscript 2\n", 3),
    (NEW, "run", "append 4 1 -\nappend 5 01 -", "appended 1\nscript 2\n", 3),
    (NEW, "run", "append 4 1 -\nAppend 5 1 -", "appended 1\nscript 2\n", 3),
    # A first session.
    (NEW, "run", FIRST_SESSION[0], FIRST_SESSION[1], 0),
    # A full ring.
    (NEW, "run", ops(32) + "append 1 33 -\n", answers(32) + "refused WalFull op 33 checkpoint_op 0\n", 0),
    (script.fresh(Home(form.Layout(16, 4096, 1, 4096, 8), 9)), "run", ops(16) + "append 1 17 -",
     answers(16) + "refused WalFull op 17 checkpoint_op 0\n", 0),
    # The longest body.
    (NEW, "run", "append 1 1 " + "00" * 7936, "appended 1\n", 0),
    (NEW, "run", "append 1 1 " + "00" * 7937, "refused BodyTooLong max 7936\n", 0),
    (NEW, "run", "append 1 1 -\nreply 1 " + "00" * 7937, "appended 1\nrefused BodyTooLong max 7936\n", 0),
    (NEW, "run", "append 1 1 -\nreply 2 " + "00" * 7937, "appended 1\nrefused ReplyOrder expected 1\n", 0),
    # A layout's own bounds: of a line, and of its ring.
    (script.fresh(Home(NARROW, 7)), "run", "append 11 1 " + "0" * 8244, "refused BodyTooLong max 3840\n", 0),
    (script.fresh(Home(NARROW, 7)), "run", "append 1 1 " + "0" * 8246, "script 1\n", 3),
    (script.fresh(Home(form.Layout(48, 4096, 1, 4096, 8), 7)), "run", ops(33), answers(33), 0),
    # Which refusal comes first, and the mark of a reply to an op that isn't the last one.
    (NEW, "run", "append 9 2 -\nappend 0 1 " + "00" * 7937, "refused RequestOrder expected 1\nrefused ClientZero\n", 0),
    (NEW, "run", "append 1 1 -\nappend 2 1 -\nreply 1 -\nlookup 1\n",
     "appended 1\nappended 2\nreplied 1\nreply 1 client 1 request 1 mark 2 checkpoint 1 body -\n", 0),
    # Many clients.
    (NEW, "run", "".join(f"append {client} 1 -\n" for client in range(1, 6)),
     "".join(f"appended {op}\n" for op in range(1, 5)) + "refused ClientsFull max 4\n", 0),
    (script.fresh(Home(form.Layout(32, 8192, 16, 16384, 64), 7)), "run",
     "".join(f"append {client} 1 -\n" for client in range(1, 10)),
     "".join(f"appended {op}\n" for op in range(1, 9)) + "refused PipelineFull waiting 8\n", 0),
    # Sectors that are struck.
    (struck(NEW, ops(12), (24, A5)), "run", "", "refused Damaged WalPrepares 9 Garbled\n", 4),
    (struck(NEW, ops(12), (4, A5)), "run", "append 1 13 -", "appended 13\n", 0),
    (struck(NEW, ops(12), (12, 14), (13, 15), (14, 12), (15, 13)), "run", "",
     "refused Damaged WalPrepares 3 Elsewhere WalPrepares 4\n", 4),
    (struck(NEW, TWO, (70, A5)), "run", "", "refused Damaged ClientReplies 0 Garbled\n", 4),
    (struck(NEW, TWO, (4, A5), (10, A5)), "run", "prepare 2\nlookup 1\nreply 2 -\n", "refused NotKept first 1 last 1\n"
     "reply 1 client 1 request 1 mark 1 checkpoint 1 body -\nrefused NothingPending head 1\n", 0),
    (struck(NEW, TWO + "reply 2 -\n", (4, A5), (10, A5)), "run", "", "refused Damaged WalPrepares 2 Garbled\n", 4),
    # The last reply is lost with every trace of it.
    (struck(NEW, ops(2), (70, A5)), "run", "lookup 1\nreply 2 -\n", "refused ReplyPending op 2\nreplied 2\n", 0),
    # A stop within a write of headers: a run mends them.
    (struck(NEW, ops(16) + "append 1 17 -", (5, A5)), "run", "reply 17 -", "replied 17\n", 0),
    # A later superblock without a trailer; then the earlier one again, which is behind what was written since.
    (with_headers(four(sequence=2)), "run", "append 5 1 -\nprepare 1", "appended 1\n"
     "prepare 1 client 5 request 1 mark 0 checkpoint 2 body -\n", 0),
    (with_copies(struck(with_headers(four(sequence=2)), "append 5 1 -")), "run", "", "refused Damaged Superblock 0 Stale\n", 4),
    # Units with right checksums that no run has left: of a later op, sequence or mark, or of another zone.
    (forged(NEW, ops(2), LATER_OP, form.WAL_HEADERS, 3), "run", "", "refused Damaged Superblock 0 Stale\n", 4),
    (struck(forged(NEW, ops(2), LATER_OP, form.WAL_PREPARES, 3), "", (0, A5)), "run", "",
     "refused Damaged Superblock 1 Stale\n", 4),
    (forged(NEW, ops(2), LATER_SEQUENCE, form.CLIENT_REPLIES, 3), "run", "", "refused Damaged Superblock 0 Stale\n", 4),
    (forged(NEW, ops(2), LATER_MARK, form.CLIENT_REPLIES, 3, boot=1), "run", "", "refused Damaged WalPrepares 3 Blank\n", 4),
    (forged(NEW, ops(32), LATER_MARK, form.CLIENT_REPLIES, 3, boot=1), "run", "", "refused Damaged WalPrepares 1 Stale\n", 4),
    # Of an earlier boot it says nothing of the head, and neither does one of version 1.
    (forged(twice(ops(2)), "", LATER_MARK, form.CLIENT_REPLIES, 3, boot=1), "run", "append 1 3 -", "appended 3\n", 0),
    (forged(NEW, ops(2), LATER_MARK, form.CLIENT_REPLIES, 3), "run", "append 1 3 -", "appended 3\n", 0),
    (forged(NEW, ops(2), IN_GRID, form.WAL_PREPARES, 2), "run", "", "refused Damaged WalPrepares 2 Elsewhere Grid 64\n", 4),
    (forged(NEW, TWO, IN_GRID, form.CLIENT_REPLIES, 0), "run", "",
     "refused Damaged ClientReplies 0 Elsewhere Grid 64\n", 4),
    (forged(NEW, TWO, OUTSIDE, form.CLIENT_REPLIES, 0), "run", "", "refused Damaged ClientReplies 0 Garbled\n", 4),
    (forged(NEW, ops(2), IN_GRID, form.WAL_HEADERS, 2), "run", "append 1 3 -", "appended 3\n", 0),
    # Units of a later boot, in either ring or in a reply slot, and a reserved header, which is of none.
    (forged(NEW, ops(2), SECOND_OP, form.WAL_HEADERS, 2, boot=3), "run", "", "refused Damaged Superblock 0 Stale\n", 4),
    (forged(NEW, ops(2), SECOND_OP, form.WAL_PREPARES, 2, boot=3), "run", "", "refused Damaged Superblock 0 Stale\n", 4),
    (forged(NEW, ops(2), FIRST_OP, form.CLIENT_REPLIES, 3, boot=3), "run", "", "refused Damaged Superblock 0 Stale\n", 4),
    (struck(forged(NEW, ops(2), FIRST_OP, form.CLIENT_REPLIES, 3, boot=3), "", (0, A5)), "run", "",
     "refused Damaged Superblock 1 Stale\n", 4),
    (forged(NEW, ops(2), EMPTY, form.WAL_HEADERS, 9, boot=3), "run", "append 1 3 -", "appended 3\n", 0),
    # A last prepare in both rings that fits, and ones that don't: by their parent, their mark, their client's request.
    (followed(ops(2)), "run", "prepare 3", "prepare 3 client 1 request 3 mark 2 checkpoint 1 body -\n", 0),
    (followed(ops(2), parent=bytes(16)), "run", "", "refused Damaged WalPrepares 3 Stale\n", 4),
    (followed(ops(2), mark=1), "run", "", "refused Damaged WalPrepares 3 Stale\n", 4),
    (followed(ops(3), mark=1), "run", "", "refused Damaged WalPrepares 4 Stale\n", 4),
    (followed(ops(3), mark=1, request=1, **SECOND), "run", "", "refused Damaged WalPrepares 4 Stale\n", 4),
    (followed(ops(2), request=4), "run", "", "refused Damaged WalPrepares 3 Stale\n", 4),
    (followed(ops(2), request=1), "run", "", "refused Damaged WalPrepares 3 Stale\n", 4),
    (followed(ops(2), **SECOND), "run", "", "refused Damaged WalPrepares 3 Stale\n", 4),
    (followed(ops(2), request=1, **SECOND), "run", "prepare 3",
     "prepare 3 client 2 request 1 mark 2 checkpoint 1 body -\n", 0),
    (followed(TWO, request=2, **SECOND), "run", "", "refused Damaged WalPrepares 3 Stale\n", 4),
    (followed(FOUR, request=1, **FIFTH), "run", "", "refused Damaged WalPrepares 5 Stale\n", 4),
    (followed(EIGHT, WIDE, mark=0, request=1, client=form.number(9)), "run", "",
     "refused Damaged WalPrepares 9 Stale\n", 4),
    # A last header without its prepare, a last prepare without its header, and a header of another prepare.
    (struck(NEW, TWO, (10, A5)), "run", "", "refused Damaged WalPrepares 2 Garbled\n", 4),
    (struck(NEW, TWO, (4, NEW[4 * SECTOR : 5 * SECTOR])), "run", "reply 2 aa", "replied 2\n", 0),
    (forged(NEW, ops(2), SECOND_OP, form.WAL_HEADERS, 2, boot=1), "run", "", "refused Damaged WalPrepares 2 Stale\n", 4),
    # What an open found is named, and then known by its checksum alone: another header is mended, and another prepare is damage.
    (forged(twice(ops(2)), "", SECOND_OP, form.WAL_HEADERS, 2, boot=1), "run", "append 1 3 -", "appended 3\n", 0),
    (forged(twice(ops(2)), "", SECOND_OP, form.WAL_PREPARES, 2, boot=1), "run", "", "refused Damaged WalPrepares 2 Stale\n", 4),
    (struck(twice(ops(2)), "", (10, A5), (8, A5), (4, A5)), "run", "", "refused Damaged WalPrepares 2 Garbled\n", 4),
    (struck(twice(ops(2)), "", (8, A5), (4, A5)), "run", "", "refused Damaged WalPrepares 1 Garbled\n", 4),
    (struck(twice(TWO), "", (4, A5), (10, A5)), "run", "reply 2 -\n", "refused Damaged WalPrepares 2 Garbled\n", 4),
    (struck(twice(ops(2)), "", (70, A5)), "run", "", "refused Damaged ClientReplies 0 Garbled\n", 4),
    (again_lost(), "run", "reply 2 -\n", "refused Damaged WalPrepares 2 Stale\n", 4),
    (another(), "run", "", "refused Damaged WalPrepares 2 Stale\n", 4),
    # A body that isn't the one of its checksum, and a unit of another cluster.
    (spoiled(NEW, TWO.replace("2 1 -", "2 1 aa"), SECTOR * 10 + 256), "run", "", "refused Damaged WalPrepares 2 Garbled\n", 4),
    (forged(NEW, ops(2), {"kind": units.PREPARE, "op": 4, "slot": 4, "checkpoint": 1, **CLIENT}, form.WAL_PREPARES, 2,
            Home(SMALL, 8)), "run", "", "refused Damaged WalPrepares 2 Garbled\n", 4),
    # What later prepares, an earlier reply, and the superblock's count of replies show.
    (struck(NEW, EIGHT[:56], (10, A5), (4, A5)), "run", "", "refused Damaged WalPrepares 2 Garbled\n", 4),
    (struck(NEW, ops(2) + "append 2 1 -", (70, EARLIER)), "run", "", "refused Damaged ClientReplies 0 Stale\n", 4),
    (four(sequence=2, boot=1, head=1, replies=1, behind=ONE_OP) + struck(NEW, ops(1), (70, A5))[4 * SECTOR :], "run", "",
     "refused Damaged ClientReplies 0 Garbled\n", 4),
    (four(sequence=2, boot=1, head=1, replies=1, behind=ONE_OP) + struck(NEW, ops(1))[4 * SECTOR :], "run", "lookup 1",
     "reply 1 client 1 request 1 mark 1 checkpoint 1 body -\n", 0),
    (NEW, "run", "append 1 1 -\nappend 2 1 -\nreply 2 -", "appended 1\nappended 2\nrefused ReplyOrder expected 1\n", 0),
    # A superblock that has seen an op or a reply which isn't there.
    (with_headers(four(head=8)), "run", "", "refused Damaged WalPrepares 8 Blank\n", 4),
    (with_headers(four(head=1, replies=1)), "run", "", "refused Damaged WalPrepares 1 Blank\n", 4),
    *copy_rows.ROWS,
)


@lru_cache
def listed() -> list:
    """The rows for what the program knows."""
    more = [*(checkpoint_rows.rows() if knows("blocks") else copy_rows.WITHOUT_CHECKPOINTS)]
    return [*ROWS, *more, *(report_rows.rows() if knows("reports") else []), *(group_rows.rows() if knows("groups") else [])]


def rows(t: Try) -> None:
    """Each row in turn, or one of them where many tries are made."""
    first = t.counts["tries: rows"] == 0
    for data, words, text, printed, status in listed() if first else [t.random.choice(listed())]:
        t.binary.put(data)
        got = asked(t, f"the row {words!r} {text[:60]!r} that prints {printed[:60]!r}", data, words.split(), text.encode())
        expect(f"the model's text of {words!r} {text[:60]!r}", printed.encode(), got.text)
        expect(f"the model's status of {words!r} {text[:60]!r}", status, got.status)
        t.counts["worked rows"] += 1
    torn_rows(t)


def torn_rows(t: Try) -> None:
    """A second append that is stopped within a write: its op is kept where its prepare was durable, else given out again."""
    data = script.run(NEW, b"append 5 1 -\n").data
    shown = b"prepare 2 client 6 request 1 mark 0 checkpoint 1 body -\n"
    for sector, line, printed in ((10, b"append 7 1 -\n", b"appended 2\n"), (4, b"prepare 2\n", shown)):
        after = script.run(data, b"append 6 1 -").data
        # Before the header is written its sector is as it was.
        image = script.state(data if sector == 10 else after, [script.Event("write", SECTOR * sector, A5)])
        t.binary.put(image)
        again = session(t, "the row of a torn append", image, line)
        expect("the row of a torn append", printed, again.text)


def example() -> None:
    """Bytes that are known: of the prepare of op 1 for client 5, of the superblock, and the sizes of files."""
    one = units.prepare(HOME, 1, bytes(16), 5, 1, 1, b"", 0, 1)
    listed = {16: "e3b0c44298fc1c149afbf4c8996fb924", 32: "07", 64: "05", 80: "0100000000000000", 88: "0100000000000000",
              104: "0100000000000000", 112: "00010000", 116: "01000000", 120: "02000200", 124: "0100000000000000",
              132: "0100000000000000", 140: "0100000000000000"}
    wanted = bytearray(form.HEADER)
    for at, digits in listed.items():
        wanted[at : at + len(digits) // 2] = bytes.fromhex(digits)
    expect("the prepare of op 1", bytes(wanted[16:]), one.header[16:])
    expect("the checksum of abc", "ba7816bf8f01cfea414140de5dae2223", form.check(b"abc").hex())
    copy = FIRST._replace(op=TOP).encode(3)
    expect("the number of a copy", "03000000" + "00" * 12, copy[16:32].hex())
    expect("the layout in a copy", ["00200000", "00400000"], [copy[40:44].hex(), copy[64:68].hex()])
    expect("an op", "0000000000000040", copy[80:88].hex())
    expect("equal copies have equal checksums", copy[:16], FIRST._replace(op=TOP).encode(0)[:16])
    expect("sectors", [336, 2375808, 30, 1046], [layout.sectors() for layout in (SMALL, form.LARGE, NARROW, MANY)])
    expect("trailers", [2192, 267272], [superblock.greatest_trailer(superblock.first(Home(layout, 1)))
                                        for layout in (SMALL, form.LARGE)])
    for zone, index, small, large in ((form.WAL_HEADERS, 16, 5, 5), (form.WAL_PREPARES, 9, 24, 68 + 256 * 9),
                                      (form.CLIENT_REPLIES, 3, 76, 262212 + 256 * 3), (form.GRID, 1, 80, 278656)):
        places = [layout.at(form.Place(zone, index)) // SECTOR for layout in (SMALL, form.LARGE)]
        expect(f"first sectors of {zone} {index}", [small, large], places)
    expect("lines", 32832, SMALL.line_max())
    torn_headers()


def torn_headers() -> None:
    """A stop within the write of header sector 5: the sixteen slots of it are mended, and what was appended is there."""
    torn = struck(NEW, ops(16) + "append 1 17 -", (5, A5))
    found = recovery.found(torn)
    expect("what is mended", [f"WalHeaders {slot} Garbled" for slot in range(16, 32)],
           [f"{place} {name}" for place, name in found.to_mend])
    view = found.view
    got = (view.checkpoint.sequence, view.head(), view.replies, len(view.sessions))
    expect("sequence, head, replies, sessions", (1, 17, 16, 1), got)
    mended = script.run(torn, b"")
    expect("what is mended afterwards", ((), view), (recovery.found(mended.data).to_mend, recovery.view_of(mended.data)))
    boot = ["write", "sync"] * form.COPIES
    expect("mending, and the boot update", ["sync", "write", "sync", *boot], [event.kind for event in mended.events])


example()
if knows("blocks"):
    checkpoint_rows.events()
KINDS = {"rows": (rows, 3)}
