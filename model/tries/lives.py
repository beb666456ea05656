"""Lives of a file that is damaged before each of its opens: an open that succeeds finds a state that was settled since the last one."""

from typing import NamedTuple

from . import form, generate, hurt, recovery, script
from .binary import require
from .common import Try, reads_of, session
from .stops import moment, stop

SESSIONS = 10


class Life(NamedTuple):
    """A file as its newest log leaves it, the views settled since the last open that raised its boot, and images settled before."""

    home: form.Home
    data: bytes
    since: list
    earlier: list


def settled(t: Try, data: bytes, events: list) -> list:
    """Some of the files that were settled in a session of these events, the first and the last among them."""
    syncs = [at for at, event in enumerate(events, 1) if event.kind == "sync"]
    chosen = {0, *syncs[-1:], *t.random.sample(syncs, min(3, len(syncs)))}
    return [script.state(data, events[:at]) for at in sorted(chosen)]


def gone_back(t: Try, life: Life) -> tuple:
    """The file with many of its sectors as they were at one earlier time, two copies at most among them; and which these are."""
    old, odds = t.random.choice(life.earlier), t.random.choice((0.3, 0.7, 1))
    parts = hurt.zones(life.home.layout)
    names = t.random.sample(["headers", "prepares", "replies", "grid"], t.random.randint(1, 4))
    count = -(-max(len(old), len(life.data)) // form.SECTOR)
    there = [at for name in names for at in parts[name] if at < count and t.random.random() < odds]
    image, sectors = life.data, set()
    for at in there + t.random.sample(parts["copies"], t.random.choice((0, 0, 1, 2))):
        before = form.sector(old, at)
        if before != form.sector(life.data, at):
            image = script.state(image, [script.Event("write", form.SECTOR * at, before)])
            sectors.add(at)
    t.counts["files of which many sectors went back"] += 1
    return image, sectors


def hurt_again(t: Try, life: Life) -> tuple:
    """What the disk shows before the next open, and the sectors that are hurt. Where the four copies aren't equal none of them is."""
    past, what = hurt.History(life.home, life.data, set(), life.earlier), t.random.random()
    image, sectors = (life.data, set()) if what < 0.15 else gone_back(t, life) if what < 0.5 else hurt.damage(t, past)
    if not hurt.at_rest(life.data):
        front = form.SECTOR * form.COPIES
        image = life.data[:front] + image[front:]
        sectors = {at for at in sectors if at >= form.COPIES}
    return image, sectors


def checked(t: Try, what: str, life: Life, image: bytes, sectors: set) -> recovery.Found:
    """What an open finds was settled since the last open that raised the boot; with no sector hurt it is the newest view."""
    found, newest = recovery.found(image), recovery.view_of(life.data)
    if found.refusal:
        require(f"{what}: a refusal of damage: {found.refusal}", bool(sectors) and found.refusal.startswith("Damaged"))
        name = "refused"
    else:
        require(f"{what}: a state settled since the last open", found.view in life.since)
        require(f"{what}: nothing is hurt: the newest state", bool(sectors) or found.view == newest)
        name = "the newest state" if found.view == newest else "an earlier state"
    t.counts[f"opens after damage: {name}"] += 1
    return found


def raised(data: bytes, events: list) -> int:
    """How many events of an open there are up to the sync that settles its boot update: that of the second of the four copies."""
    copies = [at for at, event in enumerate(events) if event.kind == "write" and event.at < form.SECTOR * form.COPIES]
    boot = recovery.found(data).content.boot
    for at in copies:
        after = script.state(data, events[: at + 1])
        if recovery.found(after).content.boot > boot:
            return at + 2
    raise AssertionError("an open raises the boot")


def goes_on(t: Try, life: Life, image: bytes, wanted: script.Outcome) -> Life:
    """The life after a session over this image, which comes to its end or is stopped within it."""
    stopped = t.random.random() < 0.35
    upto = moment(t, wanted.events) if stopped else len(wanted.events)
    data = stop(t, image, wanted.events, upto)
    views = [view for view, _, durable in wanted.spans if durable <= upto] + [recovery.view_of(data)]
    # An open that was stopped before its boot update was settled isn't the last one.
    behind = recovery.found(data).content.boot > recovery.found(image).content.boot
    since = views if behind or upto >= raised(image, wanted.events) else life.since + views
    t.counts["sessions stopped after damage" if stopped else "sessions after damage"] += 1
    return Life(life.home, data, since, life.earlier + settled(t, image, wanted.events[:upto]) + [data])


def lives(t: Try) -> None:
    """A new file, and ten sessions with damage before each: units of the whole life may be shown again."""
    home = generate.home(t.random)
    made = script.fresh(home)
    life = Life(home, made, [recovery.view_of(made)], [made])
    for number in range(SESSIONS):
        image, sectors = hurt_again(t, life)
        what = f"session {number + 1} after damage of sectors {sorted(sectors)}"
        found = checked(t, what, life, image, sectors)
        t.binary.put(image)
        m = generate.machine_of(image)
        listed = reads_of(m, 3) + generate.script_of(t.random, m, t.random.choice((0, 1, 3, 8)), 0.05, 1)
        wanted = session(t, what, image, generate.text_of(t.random, listed))
        if not found.refusal:
            life = goes_on(t, life, image, wanted)
    t.counts["lives"] += 1


KINDS = {"lives": (lives, 6)}
