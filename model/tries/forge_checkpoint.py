"""Trailers with right checksums of a file's checkpoint, in which up to two things break one rule, or just keep it."""

from random import Random

from . import form, generate, recovery, superblock, trailer, units
from .forge_trailer import Link, changed, with_blocks, with_copies
from .form import LIMIT, Layout
from .trailer import CHECK, SESSION, Checkpoint, Session, word

BIG = 2**64 - 1

# How far after the grid's start a forged block may stand, in bytes: a file is held in memory here, its holes too.
REACH = 1 << 26


def parts_of(random: Random, data: bytes) -> tuple:
    """A checkpoint of the file, most often its own, with other parts now and then; and what the superblock records beside it."""
    found = recovery.found(data)
    view, state = found.view, found.content.recorded()
    one = view.checkpoint
    if one.chain and random.random() < 0.8:
        return one, state
    op, checksum = view.head(), view.tail[-1].checksum if view.tail else one.op_checksum
    listed = random.sample(range(1, view.home.layout.blocks + 1), random.choice((0, 1, 5)))
    references = tuple((address, random.randbytes(16)) for address in sorted(listed))
    stored = tuple((place, reply.checksum) for place, reply in view.stored)
    state = state._replace(head=op, head_checksum=checksum, replies=view.replies, stored=stored)
    return Checkpoint(max(2, one.sequence), op, checksum, random.randbytes(3), view.sessions, references), state


def odd_session(random: Random, one: Session, others: tuple, op: int) -> Session:
    """A session with one field at or over an edge."""
    other = random.choice(others)
    return random.choice((
        one._replace(client=0), one._replace(client=other.client), one._replace(client=2**128 - 1), one._replace(request=0),
        one._replace(request=LIMIT), one._replace(request=LIMIT + 1), one._replace(op=0), one._replace(op=op),
        one._replace(op=op + 1), one._replace(op=other.op), one._replace(op=BIG), one._replace(request=one.request + 1),
    ))


def odd_parts(random: Random, one: Checkpoint, layout: Layout) -> Checkpoint:
    """The checkpoint with another root, session or reference."""
    what = random.choice(("root", "session", "session", "no session", "reference", "checksum", "chain"))
    if what == "root":
        return one._replace(root=random.randbytes(random.choice((0, 1, 1024, 1025))))
    if what in ("session", "no session") and one.sessions:
        place = random.randrange(len(one.sessions))
        odd = [odd_session(random, one.sessions[place], one.sessions, one.op)] if what == "session" else []
        return one._replace(sessions=one.sessions[:place] + tuple(odd) + one.sessions[place + 1 :])
    references = dict(one.references)
    if what == "checksum" and references:
        references[random.choice(list(references))] = random.randbytes(16)
    elif what == "chain" and one.chain:
        references[random.choice(one.chain)[0]] = random.randbytes(16)
    else:
        references[random.randint(1, layout.blocks)] = random.randbytes(16)
    return one._replace(references=tuple(sorted(references.items())))


def odd_text(random: Random, text: bytes, layout: Layout) -> bytes:
    """A text that is cut, longer, or has another number or byte."""
    root = 4 + trailer.number_at(text, 0, 4)
    count = trailer.number_at(text, root, 4)
    bits = root + 4 + SESSION * count
    end = bits + (layout.blocks + 7) // 8
    edge = random.choice((0, 4, root, root + 4, bits, end, len(text) - CHECK, random.randrange(len(text) + 1)))
    what = random.choice(("cut", "longer", "root", "count", "bit", "byte"))
    if what == "cut":
        return text[: max(0, min(len(text), edge + random.choice((-1, 0, 0, 1))))]
    if what == "longer":
        return text + bytes(random.choice((1, 8, 16, 32)))
    if what == "root":
        length = random.choice((0, root - 3, max(0, root - 5), 1024, 1025, len(text) - 4, len(text), 2**32 - 1))
        return word(length, 4) + text[4:]
    if what == "count":
        number = random.choice((0, count + 1, max(0, count - 1), layout.clients, layout.clients + 1, 2**32 - 1))
        return text[:root] + word(number, 4) + text[root + 4 :]
    at = random.choice((end - 1, random.randrange(bits, end))) if what == "bit" else random.randrange(len(text))
    return text[:at] + bytes([text[at] ^ 1 << random.randrange(8)]) + text[at + 1 :]


def odd_link(random: Random, one: units.Unit, layout: Layout) -> units.Unit:
    """A trailer block with another link, index, sequence, length or kind."""
    f = one.fields()
    if random.random() < 0.1:
        return units.Unit(units.seal(dict(one.fields(), size=f["size"] - 1), one.body[:-1])[: form.HEADER], one.body[:-1])
    if random.random() < 0.1:
        zeros = {name: units.NOTHING[name] for name in ("parent", "request", "mark", "checkpoint")}
        return changed(one, kind=units.BLOCK, block_kind=1, **zeros)
    name, value = random.choice((
        ("mark", f["mark"] + 1), ("mark", max(0, f["mark"] - 1)), ("mark", BIG), ("request", 0), ("request", 1),
        ("request", layout.blocks), ("request", layout.blocks + 1), ("request", BIG), ("request", f["op"]),
        ("parent", bytes(16)), ("parent", random.randbytes(16)), ("checkpoint", 1), ("checkpoint", f["checkpoint"] + 1),
        ("checkpoint", max(2, f["checkpoint"] - 1)), ("checkpoint", LIMIT), ("client", form.number(1)), ("slot", 1),
    ))
    return changed(one, **{name: value})


def odd_content(random: Random, c: superblock.Content) -> superblock.Content:
    """A superblock that names the trailer, with one field at or over an edge."""
    name, value = random.choice((
        ("trailer_size", c.trailer_size + 1), ("trailer_size", max(1, c.trailer_size - 1)), ("trailer_size", 1),
        ("trailer_size", superblock.greatest_trailer(c)), ("trailer_address", random.randint(1, c.blocks)),
        ("trailer_checksum", random.randbytes(16)), ("sequence", c.sequence + 1), ("sequence", max(1, c.sequence - 1)),
        ("replies", max(0, c.replies - 1)), ("replies", min(c.head, c.replies + 1)), ("op", c.op + 1), ("op", max(0, c.op - 1)),
        ("head", c.head + 1), ("head", max(c.op, c.head - 1)), ("op_checksum", random.randbytes(16) if c.op else bytes(16)),
        ("boot", c.boot + 1), ("boot", max(0, c.boot - 1)), ("boot", LIMIT), ("behind", superblock.naming(random.randbytes(16))),
        ("behind", superblock.naming(c.head_checksum())),
    ))
    return c._replace(**{name: value})


def sealed(random: Random, home: form.Home, boot: int, text: bytes, addresses: list, sequence: int, odds: float) -> list:
    """The trailer blocks of a text, made in a boot, with these odds one of them an odd one."""
    odd, chain = random.random() < odds, []
    pieces = trailer.pieces(text, home.layout)
    which = random.randrange(len(pieces))
    for index, piece in enumerate(pieces):
        before = Link(addresses[index - 1], chain[-1].checksum) if chain else None
        one = units.trailer(home, boot, addresses[index], before, index, sequence, piece)
        chain.append(odd_link(random, one, home.layout) if odd and index == which else one)
    return chain


def forge(random: Random, data: bytes) -> tuple:
    """A file that opens with a forged trailer in it; and what was forged."""
    home = generate.home_of(data)
    (one, state), what = parts_of(random, data), random.choice(("parts", "parts", "text", "text", "link", "superblock", "nothing"))
    for _ in range(random.choice((1, 1, 2)) if what == "parts" else 0):
        one = odd_parts(random, one, home.layout)
    text = one.text(home.layout)
    text = (odd_text(random, text, home.layout) if what == "text" else text) or b"\0"
    count = len(trailer.pieces(text, home.layout))
    taken = [address for address, _ in one.chain][:count]
    free = generate.machine_of(data).free() or [1]
    addresses = taken + [free[at % len(free)] for at in range(count - len(taken))]
    if random.random() < 0.05:
        addresses[random.randrange(count)] = random.randint(1, min(home.layout.blocks, 1 + REACH // home.layout.block_size))
    chain = sealed(random, home, max(1, state.boot), text, addresses, one.sequence, 1.0 if what == "link" else 0.0)
    content = one.content(home, state)._replace(
        trailer_address=addresses[-1], trailer_checksum=chain[-1].checksum, trailer_size=len(text))
    content = odd_content(random, content) if what == "superblock" else content
    return what, with_copies(with_blocks(home, data, chain), content)
