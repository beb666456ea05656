"""Tries of the reader beside the model: over a damaged file the program refuses what it refuses, and reads what it reads."""

import reader

from . import copies, damage, forge_checkpoint, form, generate, recovery, superblock, units
from .binary import expect
from .common import Try
from .forge import forge, put
from .knows import knows


def tied(t: Try) -> bytes:
    """Two contents of equal sequence and boot on each of which two copies agree, or nearly so."""
    random = t.random
    home = generate.home(random)
    data = generate.image(random, 6, home, 0)
    own = damage.own_of(data)
    other = superblock.first(home._replace(cluster=home.cluster % 2**127 + 1))
    if random.random() < 0.3:
        other = superblock.first(generate.home(random))
    both = (own, other._replace(boot=own.boot))
    for place, which in enumerate(random.choice(((0, 0, 1, 1), (0, 1, 0, 1), (0, 1, 1, 0), (1, 1, 0, 0), (1, 0, 1, 0), (1, 0, 0, 1)))):
        data = copies.put(data, place, both[which].encode(place))
    return copies.put(data, 3, copies.damaged(random, data, 3)[1]) if random.random() < 0.2 else data


def struck(t: Try) -> bytes:
    """A file with damage, most often in its slots."""
    home = generate.home(t.random)
    data = bytearray(generate.image(t.random, of=home))
    for _ in range(t.random.choice((0, 1, 1, 2, 5))):
        damage.strike(t, data, home.layout)
    return bytes(data)


def forged(t: Try) -> bytes:
    """A file with forged copies, or with forged units."""
    random, home = t.random, generate.home(t.random)
    data = generate.image(random, 12, home, 0)
    own = damage.own_of(data)
    if knows("blocks") and random.random() < 0.5:
        return forge_checkpoint.forge(random, data)[1]
    if random.random() < 0.4:
        contents = [damage.later(t, own, data), copies.odd(random, own), copies.odd(random, own)]
        return copies.forged(random, data, [own, *contents][: random.randint(1, 4)])
    image = bytearray(data)
    for _ in range(random.randint(1, 2)):
        forge(random, generate.machine_of(data), image)
    return bytes(image)


def rewritten(t: Try) -> bytes:
    """A file in which one prepare is another one of its op, in one ring or in both, so that the next has another parent."""
    random, home = t.random, generate.home(t.random)
    data = generate.image(random, 12, home, 0)
    view = recovery.view_of(data)
    if not view.tail:
        return data
    one, image = random.choice(view.tail), bytearray(data)
    client = form.number(one.client % 2**127 + 1)
    name, value = random.choice((("client", client), ("parent", random.randbytes(16)), ("mark", one.op - 1)))
    whole = units.seal(dict(one.fields(), **{name: value}), one.body)
    rings = random.choice(((form.WAL_PREPARES,), (form.WAL_HEADERS,), (form.WAL_PREPARES, form.WAL_HEADERS)))
    for zone in rings:
        at = home.layout.at(form.Place(zone, one.op % home.layout.slots))
        put(image, at, whole[: form.HEADER] if zone == form.WAL_HEADERS else whole)
    return bytes(image)


def read(t: Try) -> None:
    """The reader and the program agree on a refusal, or on all that is read of the file and on what comes next."""
    kind = t.random.choice((tied, struck, struck, forged, rewritten))
    data = kind(t)
    lines, wanted = [], []
    try:
        state = reader.state_of(data, knows("blocks"))
        for one in state["tail"]:
            lines.append(f"prepare {one['op']}")
            wanted.append("prepare " + reader.text_of(one))
        for client, one in state["replies"].items():
            lines.append(f"lookup {client}")
            wanted.append("reply " + reader.text_of(one) if one["kind"] == 3 else f"refused ReplyPending op {one['op']}")
        for address, one in state["blocks"].items():
            lines.append(f"read {address}")
            wanted.append(f"refused Damaged Grid {address} {one}" if isinstance(one, str) else
                          f"block {address} kind {one['block_kind']} body {one['body'].hex() or '-'}")
        lines += [f"prepare {state['head'] + 1}", "reply 0 -"]
        wanted.append(f"refused NotKept first {state['fields']['Op'] + 1} last {state['head']}")
        done = state["stored"] == state["head"]
        wanted.append(f"refused NothingPending head {state['head']}" if done else
                      f"refused ReplyOrder expected {state['stored'] + 1}")
    except reader.Refused as why:
        wanted = [f"refused {why}"]
    t.binary.put(data)
    text = "".join(line + "\n" for line in lines).encode()
    expect(f"a {kind.__name__} file", "".join(line + "\n" for line in wanted).encode(), t.binary.run(text).text)
    t.counts[f"files read: {kind.__name__}, {'opened' if lines else ' '.join(wanted[0].split()[:2])}"] += 1


KINDS = {"read": (read, 4)}
