"""Tries of the words that open a file and execute no script: `recover`, `inspect`, `scrub` and `workload`."""

from . import damage, form, generate, recovery, script, units
from .binary import expect, require
from .checkpoints import checkpoint_script
from .common import Try, asked, session
from .damage import look
from .forge import put
from .forge_checkpoint import forge
from .knows import knows
from .plan import other_words
from .stops import moment, stop


def file_for(t: Try) -> bytes:
    """A file that a session, a stop or damage left."""
    random, home = t.random, generate.home(t.random)
    data = generate.image(random, 16, home)
    text = generate.text_of(random, checkpoint_script(random, generate.machine_of(data)))
    wanted = script.run(data, text)
    kind = random.random()
    if kind < 0.3:
        return stop(t, data, wanted.events, moment(t, wanted.events))
    data = bytearray(wanted.data)
    if kind < 0.4:
        return forge(random, bytes(data))[1]
    for _ in range(random.choice((0, 1, 1, 2, 5)) if kind < 0.9 else 0):
        damage.strike(t, data, home.layout)
    return bytes(data)


def reports(t: Try) -> None:
    """The words over files of all sorts, one after another. A report writes nothing; after a mending it has no finding."""
    data = file_for(t)
    t.binary.put(data)
    first = asked(t, "inspect", data, ["inspect"], b"append 1 1 -\n")
    expect("a report writes nothing", data, first.data)
    expect("the same report twice", first.text, asked(t, "inspect, once more", data, ["inspect"]).text)
    for number in range(t.random.randint(1, 3)):
        words = t.random.choice((["recover"], ["inspect"], other_words(t), *([["scrub"]] if knows("all") else [])))
        data = asked(t, f"{words}, word {number + 1}", data, words).data
        t.counts[f"words over files: {words[0]}"] += 1
    text = session(t, "a run after the words", data, look(t, data)).data
    last = asked(t, "inspect at last", text, ["inspect"]).text
    refused = recovery.found(text).refusal
    require("a run leaves nothing to mend", bool(refused) or last.endswith(b"findings 0\n"))


def scrubbed(t: Try) -> None:
    """Blocks are struck: the tour lists just those that fail, and so do lines of the scrubber, before and after changes."""
    random, home = t.random, generate.home(t.random)
    data = script.fresh(home)
    m = generate.machine_of(data)
    listed = [line for line in checkpoint_script(random, m) + checkpoint_script(random, m) if line]
    image = bytearray(script.run(data, generate.text_of(random, listed)).data)
    view = recovery.view_of(bytes(image))
    # Free blocks are struck, too, and those of the trailer aren't, so that the file opens.
    known = [address for address, _ in view.checkpoint.references] + generate.machine_of(bytes(image)).free()[:2]
    for address in random.sample(known, min(len(known), random.choice((0, 1, 2, 5)))):
        at = home.layout.at(form.Place(form.GRID, address))
        other = form.whole_sectors(units.block(home, 1, address, 1, b"another").encode())
        first = form.part(image, home.layout.grid(), form.SECTOR)
        strike = random.choice((bytes(form.SECTOR), b"\xa5" * form.SECTOR, first, other))
        put(image, at, strike)
    data = bytes(image)
    t.binary.put(data)
    before = asked(t, "scrub", data, ["scrub"])
    t.counts["blocks found failing"] += before.text.count(b"failing ")
    # The tour's open has raised the boot.
    data = before.data
    m, lines = generate.machine_of(data), []
    for _ in range(random.randint(5, 40)):
        line = b"scrub" if random.random() < 0.7 else generate.line_of(random, m, 0.05)
        m.line(script.parse(line, m.layout) or ("recent",))
        lines.append(line)
    session(t, "lines of the scrubber", data, generate.text_of(random, [*lines, b"recent"]))


KINDS = {"reports": (reports, 6)} if knows("reports") else {}
if knows("all"):
    KINDS["scrubbed"] = (scrubbed, 6)
