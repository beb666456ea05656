"""Worked rows of the words `recover`, `inspect`, `scrub` and `workload`, and of the lines of the scrubber."""

from . import script, units
from .checkpoint_rows import BETWEEN, CHECKPOINT, FIVE, FULL_RING, WAITS, realistic
from .copy_rows import A5, HOME
from .forge_trailer import with_blocks
from .form import SECTOR, Home, Layout
from .grid import Event
from .knows import knows
from .words import USAGE as USAGE_BYTES, command
from .worked import NEW, after, ops, struck, torn

USAGE = USAGE_BYTES.decode()
SMALL = "cluster 7\nlayout 32 8192 4 16384 64\n"
REALISTIC = SMALL + """sequence 11
checkpoint 200
head 200
replies 200
sessions 4
references 0
root -
session 0 client 1 request 50 op 197 stored
session 1 client 2 request 50 op 198 stored
session 2 client 3 request 50 op 199 stored
session 3 client 4 request 50 op 200 stored
findings 0
"""
WORKED = "appended 3\nreplied 3\nwrote 0\nreleased 0\ncheckpoints 0\nrefused 0\nbytes 2231\nhead 3\nreplies 3\nsequence 1\n"
ONE = "appended 1\nreplied 1\nwrote 0\nreleased 0\ncheckpoints 0\nrefused 0\nbytes 1593\nhead 1\nreplies 1\nsequence 1\n"
STOPPED = "append 1 1 -\ncheckpoint 01\nstep\nstep\n"


def summary(sequence: int, checkpoint: int, head: int, replies: int, sessions: int, references: int) -> str:
    return SMALL + (f"sequence {sequence}\ncheckpoint {checkpoint}\nhead {head}\nreplies {replies}\nsessions {sessions}\n"
                    f"references {references}\n")


def words() -> list:
    """Words with and without a meaning."""
    bad = ("recover 1", "inspect -", "scrub 1 1", "workload", "workload 1", "workload 1 0", "workload 1 1000001",
           "workload 01 1", "workload 1 01", "upgrade 1", "upgraded", "workload -1 1", "workload 18446744073709551616 1", "workload 1 1 1", "recovers", "Scrub")
    return [
        *((NEW, text, "", USAGE, 2) for text in bad),
        (NEW, "workload 42 3", "append 9 9 -\n", WORKED, 0),
        (NEW, "workload 18446744073709551615 1", "", ONE, 0),
        # With one client each request has its reply before the next.
        (script.fresh(Home(Layout(16, 4096, 1, 4096, 8), 7)), "workload 42 3", "", WORKED, 0),
        (None, "recover", "", "refused NotFormatted\n", 4),
        (None, "inspect", "", "refused NotFormatted\n", 4),
        (b"", "scrub", "", "refused NotFormatted\n", 4),
        (b"", "upgrade", "", "refused NotFormatted\n", 4),
        (NEW, "upgrade", "append 1 1 -\n", "refused Version found 2\n", 4),
        (b"", "workload 1 1", "", "refused NotFormatted\n", 4),
        (NEW, "recover", "append 1 1 -\n", summary(1, 0, 0, 0, 0, 0), 0),
        (NEW, "scrub", "scrub\n", "tour 0 0\n", 0),
    ]


def reports() -> list:
    """Stops and damage, and what is found, mended and told."""
    torn_headers = torn(NEW, ops(16) + "append 1 17 -", 5)
    mended = script.run(torn_headers, b"").data
    mends = "".join(f"mend WalHeaders {slot} Garbled\n" for slot in range(16, 32))
    seventeen, session = summary(1, 0, 17, 16, 1, 0), "root -\nsession 0 client 1 request 17 op 17 pending\n"
    old = torn(NEW, STOPPED, 1)
    again = after("checkpoint 02\nstep\nstep\n", old)
    one = "root 02\nsession 0 client 1 request 1 op 1 pending\n"
    rest = struck(NEW, "", (1, A5), (3, A5))
    loose = script.state(NEW, [Event("write", SECTOR * at, A5) for at in range(80, 100)])
    whole = after(realistic()[0])
    return [
        (torn_headers, "inspect", "", seventeen + session + mends + "findings 16\n", 1),
        (torn_headers, "recover", "", seventeen, 0),
        (mended, "inspect", "", seventeen + session + "findings 0\n", 0),
        (torn(after(FULL_RING), "append 1 33 -", 8), "recover", "", summary(2, 32, 32, 32, 1, 0), 0),
        (old, "recover", "", summary(1, 0, 1, 0, 1, 0), 0),
        (torn(NEW, STOPPED, 2), "recover", "", summary(2, 1, 1, 0, 1, 0), 0),
        (again, "inspect", "", summary(2, 1, 1, 0, 1, 0) + one + "findings 0\n", 0),
        (lower_copy(old), "inspect", "", summary(2, 1, 1, 0, 1, 0) + one + "mend Superblock 0 Stale\nfindings 1\n", 1),
        (rest, "inspect", "", summary(1, 0, 0, 0, 0, 0) + "root -\nmend Superblock 1 Garbled\nmend Superblock 3 Garbled\n"
         "findings 2\n", 1),
        (struck(NEW, "", (0, A5), (1, A5), (2, A5)), "inspect", "", "refused NoQuorum Garbled Garbled Garbled Stale\n", 4),
        (whole, "inspect", "", REALISTIC, 0),
        (loose, "recover", "", summary(1, 0, 0, 0, 0, 0), 0),
        (after(BETWEEN), "recover", "", summary(2, 1, 2, 1, 1, 0), 0),
        (after(WAITS + "block 1 -\n" + CHECKPOINT), "inspect", "", summary(2, 3, 3, 1, 3, 1) + "root -\n"
         "session 0 client 1 request 1 op 1 stored\nsession 1 client 2 request 1 op 2 pending\n"
         "session 2 client 3 request 1 op 3 pending\nfindings 0\n", 0),
    ]


def lower_copy(old: bytes) -> bytes:
    """A file whose sequence 2 was written twice: copy 0 shows the first text of it, whose root is 01, the others the second."""
    stopped = script.run(NEW, STOPPED.encode()).events
    first = next(one for one in stopped if one.kind == "write" and one.at == 0)
    return script.state(after("checkpoint 02\nstep\nstep\n", old), [first])


def scrubs() -> list:
    """Tours over sound and damaged blocks."""
    five = after(FIVE + CHECKPOINT)
    hurt = struck(five, "", (84, A5), (92, A5), (104, A5))
    checked = "".join(f"checked {at} {'Garbled' if at in (2, 4) else 'Sound'}\n" for at in range(1, 7))
    one = struck(five, "", (80, A5))
    many = "scrub\n" * 7 * 70
    verdicts = "checked 1 Garbled\n" + "".join(f"checked {at} Sound\n" for at in range(2, 7)) + "tour 6 1\n"
    two = "scrub\n" * 7 * 40
    names = ("Garbled", "Sound", "Elsewhere Grid 5", "Sound", "Sound", "Sound")
    both = "".join(f"checked {at} {name}\n" for at, name in enumerate(names, 1))
    swapped = struck(five, "", (80, A5), (88, 96))
    listed = "".join(" 1 Garbled" if at % 2 == 0 else " 3 Elsewhere Grid 5" for at in range(64))
    # Of 66 findings the first two are dropped.
    thrice = "".join(f"checked {at} {'Garbled' if at in (1, 3, 5) else 'Sound'}\n" for at in range(1, 7)) + "tour 6 3\n"
    dropped = "recent 64" + "".join(f" {(1, 3, 5)[at % 3]} Garbled" for at in range(2, 66)) + "\n"
    return [
        (hurt, "scrub", "", "failing 2 Garbled\nfailing 4 Garbled\ntour 6 2\n", 1),
        (hurt, "run", "scrub\n" * 7 + "recent\n", checked + "tour 6 2\nrecent 2 2 Garbled 4 Garbled\n", 0),
        (five, "scrub", "", "tour 6 0\n", 0),
        (five[: 300 * SECTOR], "scrub", "", "tour 6 0\n", 0),
        (struck(five, "", (100, A5)), "scrub", "", "refused Damaged Grid 6 Garbled\n", 4),
        (struck(five, "", (80, 84)), "scrub", "", "failing 1 Elsewhere Grid 2\ntour 6 1\n", 1),
        (with_blocks(HOME, five, [units.block(HOME, 1, 2, 1, b"\7")]), "scrub", "", "failing 2 Stale\ntour 6 1\n", 1),
        (five[: 92 * SECTOR], "scrub", "", "refused Damaged Grid 6 Blank\n", 4),
        (NEW, "run", "scrub\nrecent\nscrub\n", "tour 0 0\nrecent 0\ntour 0 0\n", 0),
        # The ring of findings keeps the last 64; a tour begins anew after its end.
        (one, "run", many + "recent\n", verdicts * 70 + "recent 64" + " 1 Garbled" * 64 + "\n", 0),
        (swapped, "run", two + "recent\n", (both + "tour 6 2\n") * 40 + "recent 64" + listed + "\n", 0),
        (swapped, "run", "scrub\n" * 6 + "release 1\nscrub\nrecent\n" + two + "recent\n",
         both + "released 1\ntour 6 2\nrecent 2 1 Garbled 3 Elsewhere Grid 5\n" + (both + "tour 6 2\n") * 40
         + "recent 64" + listed + "\n", 0),
        (struck(five, "", (80, A5), (88, A5), (96, A5)), "run", "scrub\n" * 7 * 22 + "recent\n", thrice * 22 + dropped, 0),
        # Referenced are live, captured and released blocks, and trailer blocks once they are written; not free ones.
        (hurt, "run", "release 2\nscrub\nscrub\nscrub\nblock 1 -\nscrub\nscrub\nscrub\nscrub\nscrub\n",
         "released 2\nchecked 1 Sound\nchecked 2 Garbled\nchecked 3 Sound\nwrote 7\nchecked 4 Garbled\nchecked 5 Sound\n"
         "checked 6 Sound\nchecked 7 Sound\ntour 7 2\n", 0),
        (NEW, "run", "block 1 aa\ncheckpoint -\nscrub\nscrub\nscrub\nstep\nscrub\nscrub\nscrub\nrelease 1\nscrub\nscrub\nscrub\n"
         "step\nscrub\nrelease 1\n",
         "wrote 1\nbegun 1\nchecked 1 Sound\ntour 1 0\nchecked 1 Sound\nworking 1\nchecked 2 Sound\ntour 2 0\nchecked 1 Sound\n"
         "released 1\nchecked 2 Sound\ntour 2 0\nchecked 1 Sound\ndone 2\nchecked 2 Sound\nrefused NotLive\n", 0),
        # What is checked by a line says nothing of the status; a block written after the tour is checked in it.
        (hurt, "run", "scrub\nscrub\n", "checked 1 Sound\nchecked 2 Garbled\n", 0),
        (NEW, "run", "block 1 -\nscrub\nblock 1 -\nscrub\nrelease 2\nscrub\nscrub\n",
         "wrote 1\nchecked 1 Sound\nwrote 2\nchecked 2 Sound\nreleased 2\ntour 2 0\nchecked 1 Sound\n", 0),
    ]


def after_words(words: str) -> bytes:
    """A new file after these words."""
    return command(NEW, words.split()).data


def without_later_words() -> list:
    """The rows for a program that knows no word `scrub` or `workload`."""
    later = ("scrub", "workload")
    return [row for row in [*words(), *reports(), *scrubs()] if row[4] == 2 or row[1].split()[0] not in later]


def rows() -> list:
    """The file, the words, the script; the text and the status."""
    if not knows("all"):
        return without_later_words()
    # Over a file that has been worked on the workload's first requests are refused, and so are its replies.
    again = ("appended 0\nreplied 0\nwrote 0\nreleased 0\ncheckpoints 0\nrefused 6\nbytes 0\nhead 3\nreplies 3\n"
             "sequence 1\n")
    worked = [(NEW, "workload 42 2000", "", WORK, 0), (after_words("workload 42 3"), "workload 42 3", "", again, 0)]
    return [*words(), *reports(), *scrubs(), *worked]


WORK = ("appended 2000\nreplied 2000\nwrote 500\nreleased 492\ncheckpoints 125\nrefused 0\nbytes 2024968\nhead 2000\n"
        "replies 2000\nsequence 126\n")
