"""Worked rows of trailers: each part of a text that fails, each link of a chain, and what contradicts it."""

from . import form, units
from .copy_rows import A5, HOME, TOP
from .forge_trailer import changed, forged, text_of, with_blocks
from .form import Home
from .trailer import Session, word

TWELVE = Home(form.Layout(16, 4096, 1, 4096, 12), 7)
# Two trailer blocks without references: the bits alone have 2,048 bytes.
WIDE = Home(form.Layout(16, 4096, 64, 4096, 16384), 7)
NONE = text_of(HOME)
LONG = text_of(WIDE, bytes(1024), [Session(at, 1, at) for at in range(1, 33)])
AHEAD = {"op": 40, "head": 40, "replies": 40, "op_checksum": A5[:16]}


def refusal(why: str, home: Home, text: bytes, *given, **fields) -> tuple:
    """A file with a forged trailer that is refused."""
    return forged(home, text, *given, **fields), "run", "", f"refused {why}\n", 4


def with_sessions(*sessions: tuple) -> bytes:
    return text_of(HOME, b"", [Session(*one) for one in sessions])


def texts() -> list:
    """The first failing part of a text."""
    def bad(name: str, text: bytes, **fields) -> tuple:
        return refusal(f"BadField {name}", HOME, text, **fields)
    two = {"op": 2, "head": 2, "replies": 2, "op_checksum": A5[:16]}
    root, bits, check = word(5, 4) + bytes(5), word(1, 8), bytes(16)
    return [
        bad("TrailerRoot 3", bytes(3)),
        bad("TrailerRoot 1025", word(1025, 4) + bytes(1025) + NONE[4:]),
        bad("TrailerRoot 5", word(5, 4) + bytes(4)),
        bad("TrailerRoot 4294967295", word(2**32 - 1, 4) + NONE[4:]),
        bad("TrailerSessions 9", root),
        bad("TrailerSessions 12", root + bytes(3)),
        bad("TrailerSessions 5", word(0, 4) + word(5, 4) + NONE[8:]),
        bad("TrailerSessions 4294967295", word(0, 4) + word(2**32 - 1, 4)),
        bad("TrailerSessions 1", with_sessions((7, 1, 1), (7, 1, 2)), **two),
        bad("TrailerSessions 1", with_sessions((7, 1, 1), (8, 1, 1)), **two),
        bad("TrailerSessions 0", with_sessions((0, 1, 1), (7, 1, 2)), **two),
        bad("TrailerSessions 1", with_sessions((7, 1, 1), (8, 0, 2)), **two),
        bad("TrailerSessions 1", with_sessions((7, 1, 1), (8, TOP + 1, 2)), **two),
        bad("TrailerSessions 1", with_sessions((7, 1, 1), (8, 1, 0)), **two),
        bad("TrailerSessions 1", with_sessions((7, 1, 1), (8, 1, 3)), **two),
        # A session that is there whole comes before those that aren't.
        bad("TrailerSessions 0", with_sessions((7, 0, 1), (8, 1, 2))[:60], **two),
        bad("TrailerSessions 2", with_sessions((7, 1, 1), (8, 1, 2))[:71], **two),
        bad("TrailerSessions 2", with_sessions((7, 1, 1), (8, 1, 2))[:39], **two),
        bad("TrailerBits 15", NONE[:15]),
        bad("TrailerBits 8", NONE[:8]),
        refusal("BadField TrailerBits 9", TWELVE, NONE[:8] + word(1 << 12, 2)),
        refusal("BadField TrailerBits 9", TWELVE, NONE[:8] + word(1 << 15 | 3, 2)),
        bad("TrailerEnd 17", NONE + b"\0"),
        bad("TrailerEnd 31", NONE[:8] + bits + check[:15]),
        bad("TrailerEnd 48", NONE[:8] + bits + check * 2),
        bad("TrailerEnd 16", NONE[:8] + bits),
        bad("TrailerSize 2193", NONE, trailer_size=2193),
        # The rings come after the trailer, and the version before it.
        bad("TrailerEnd 17", NONE + b"\0", head=1),
        (forged(HOME, NONE + b"\0", version=9), "run", "", "refused Version found 9\n", 4),
    ]


def chains() -> list:
    """The links of a chain, from its last block back."""
    def bad(why: str, text: bytes = NONE, addresses=(1,), home: Home = HOME, links=None, **fields) -> tuple:
        return refusal(why, home, text, addresses, None, links, **fields)
    two = {"text": LONG, "home": WIDE, **AHEAD}
    return [
        bad("BadField TrailerChain 1", links={0: {"mark": 1, "request": 2}}),
        bad("BadField TrailerChain 1", links={0: {"checkpoint": 3}}),
        bad("BadField TrailerChain 1", sequence=3),
        bad("BadField TrailerChain 1", trailer_size=15),
        bad("BadField TrailerChain 1", trailer_size=17),
        bad("Damaged Grid 1 Stale", trailer_checksum=A5[:16]),
        bad("Damaged Grid 2 Blank", trailer_address=2),
        bad("BadField TrailerChain 1", NONE[:8] + word(1, 8) + A5[:16]),
        bad("BadField TrailerChain 3", NONE[:8] + word(0b111, 8) + A5[:48], (3,)),
        # Two blocks: the second leads outside the grid, has another index or sequence, or a first one of another size.
        bad("BadField TrailerChain 9", addresses=(4, 9), links={1: {"request": 16385}}, **two),
        bad("Damaged Grid 5 Blank", addresses=(4, 9), links={1: {"request": 5}}, **two),
        bad("Damaged Grid 4 Stale", addresses=(4, 9), links={1: {"parent": A5[:16]}}, **two),
        bad("BadField TrailerChain 9", addresses=(4, 9), links={1: {"mark": 2}}, **two),
        bad("BadField TrailerChain 4", addresses=(4, 9), links={0: {"checkpoint": 3}}, **two),
        bad("BadField TrailerChain 4", addresses=(4, 9), links={0: {"mark": 1, "request": 4}}, **two),
        # The chain is walked back from its last block: what that one has comes first.
        bad("BadField TrailerChain 9", addresses=(4, 9), links={0: {"checkpoint": 3}, 1: {"checkpoint": 3}}, **two),
        (with_blocks(HOME, forged(HOME, NONE), [units.block(HOME, 1, 1, 1, b"")]), "run", "", "refused Damaged Grid 1 Stale\n", 4),
    ]


def known_block(one: units.Unit) -> bytes:
    """A file whose checkpoint references this unit at its address."""
    text = text_of(HOME, references=[(one.op, one.checksum)])
    return with_blocks(HOME, forged(HOME, text, (1,)), [one])


def rows() -> list:
    """All of them; and trailers that open."""
    trailer_block = changed(units.trailer(HOME, 1, 5, None, 0, 2, b"\7"))
    seven = with_sessions((7, 3, 38), (8, 1, 40), (9, 1, 39))
    waits = {"op": 40, "head": 40, "replies": 37, "op_checksum": A5[:16]}
    odd_block = forged(HOME, NONE, trailer_checksum=units.block(HOME, 1, 1, 1, NONE).checksum)
    return [
        *texts(), *chains(),
        # Ops that a checkpoint covers and that wait are those of sessions.
        refusal("BadField Pending 38", HOME, with_sessions((8, 1, 40), (9, 1, 39)), **waits),
        refusal("BadField Pending 40", HOME, with_sessions((7, 3, 38), (9, 1, 39)), **waits),
        refusal("BadField TrailerChain 1", HOME, NONE[:8] + word(1, 8) + A5[:16], **{**waits, "replies": 39}),
        (forged(HOME, seven, **waits), "run", "lookup 8\nreply 38 aa\nlookup 7\nappend 7 4 -\nlookup 9\n",
         "refused ReplyPending op 40\nreplied 38\nreply 38 client 7 request 3 mark 40 checkpoint 2 body aa\n"
         "appended 41\nrefused ReplyPending op 39\n", 0),
        # A stored reply of a session of the checkpoint is asked for.
        refusal("Damaged ClientReplies 0 Blank", HOME, seven, **{**waits, "replies": 38}),
        # A block stands where the trailer block is named, with that checksum.
        (with_blocks(HOME, odd_block, [units.block(HOME, 1, 1, 1, NONE)]), "run", "", "refused Damaged Grid 1 Stale\n", 4),
        # Referenced units are looked at when they are read, and then their kind too.
        (known_block(units.block(HOME, 1, 64, 255, b"\7")), "run", "read 64\nread 63\n",
         "block 64 kind 255 body 07\nrefused NotLive\n", 0),
        (with_blocks(HOME, known_block(units.block(HOME, 1, 64, 1, b"")), [units.block(HOME, 1, 64, 1, b"\7")]), "run", "read 64\n",
         "refused Damaged Grid 64 Stale\n", 0),
        (known_block(trailer_block), "run", "read 5\n", "refused Damaged Grid 5 Stale\n", 0),
        # Of the address of a block that is referenced nothing is given out.
        (known_block(units.block(HOME, 1, 2, 1, b"")), "run", "block 1 -\nblock 1 -\nrelease 2\nblock 1 -\n",
         "wrote 3\nwrote 4\nreleased 2\nwrote 5\n", 0),
        # Two trailer blocks that are sound; of a session that they have the reply is asked for.
        refusal("Damaged ClientReplies 0 Blank", WIDE, LONG, (4, 9), **AHEAD),
        (forged(WIDE, text_of(WIDE, bytes(1024), (), [(address, A5[:16]) for address in range(20, 68)]), (4, 9)), "run",
         "block 1 -\n" * 4 + "read 20\n", "wrote 1\nwrote 2\nwrote 3\nwrote 5\nrefused Damaged Grid 20 Blank\n", 0),
    ]
