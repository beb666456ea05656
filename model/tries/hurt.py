"""Damage of files whose history is known: what is found is a state that the file had, or the named place was hurt."""

from typing import NamedTuple

from . import form, generate, recovery, script, superblock
from .binary import require
from .common import Try, reads_of, session
from .form import COPIES, SECTOR, Place
from .knows import knows
from .stops import moment, stop
from .units import Unit


class History(NamedTuple):
    """A file, the views that it had whenever something of it was durable, and what it held at some earlier moments."""

    home: form.Home
    data: bytes
    views: set
    earlier: list


def history(t: Try) -> History:
    """A few sessions over a new file, the last of which may be stopped."""
    home = generate.home(t.random)
    data = script.fresh(home)
    views, earlier, sessions = {recovery.view_of(data)}, [data], t.random.randint(1, 3)
    for number in range(sessions):
        m = generate.machine_of(data)
        listed = generate.script_of(t.random, m, t.random.choice((1, 4, 10, 30)), 0, t.random.choice((1, None)))
        wanted = script.run(data, generate.text_of(t.random, listed))
        stopped = number == sessions - 1 and t.random.random() < 0.3
        upto = moment(t, wanted.events) if stopped else len(wanted.events)
        earlier += [script.state(data, wanted.events[: min(upto, moment(t, wanted.events))]) for _ in range(3)]
        data = stop(t, data, wanted.events, upto)
        # The line in flight may have stood on the disk whole before the stop took it back, and damage may bring it there again.
        views.update(view for view, may, _ in wanted.spans if may <= upto)
        views.add(recovery.view_of(data))
    return History(home, data, views, earlier)


def zones(layout: form.Layout) -> dict:
    """The sectors of each zone that there are."""
    def sectors(start: int, end: int) -> range:
        return range(start // SECTOR, end // SECTOR)
    return {
        "copies": sectors(0, SECTOR * COPIES), "headers": sectors(SECTOR * COPIES, layout.first()),
        "prepares": sectors(layout.first(), layout.end()), "replies": sectors(layout.end(), layout.replies_end()),
        "grid": range(layout.grid() // SECTOR, layout.sectors()),
    }


def struck(t: Try, past: History, index: int) -> tuple:
    """What damage leaves in a sector, with the name of the damage."""
    random, now = t.random, form.sector(past.data, index)
    old = form.sector(random.choice(past.earlier), index)
    other = form.sector(past.data, random.choice(written(past)))
    at = random.randrange(512, SECTOR, 512)
    return random.choice((
        ("A5", b"\xa5" * SECTOR), ("A5", b"\xa5" * SECTOR), ("earlier", old), ("earlier", old), ("another place's", other),
        ("zeros", bytes(SECTOR)), ("earlier up to 512s", old[:at] + now[at:]), ("earlier from 512s on", now[:at] + old[at:]),
        ("another place's up to 512s", other[:at] + now[at:]),
    ))


def written(past: History) -> list:
    """The sectors in which something stands; the copies are among them."""
    return [at for at in range(-(-len(past.data) // SECTOR)) if any(form.sector(past.data, at))] or [0]


def damage(t: Try, past: History) -> tuple:
    """The file with some sectors hurt, and the numbers of these. Sometimes one zone alone is hurt."""
    random, layout = t.random, past.home.layout
    parts = zones(layout)
    only = random.choice((None, None, ("headers",), ("copies",), ("prepares",), ("replies",), ("prepares", "replies"),
                          *([("grid",), ("grid", "copies")] if knows("blocks") else [])))
    there = set(written(past))
    choices = [at for name, part in parts.items() if only is None or name in only for at in part if at in there]
    chosen = set(random.sample(choices, min(len(choices), random.choice((1, 1, 1, 2, 2, 3, 5))))) if choices else set()
    copies = sorted(chosen & set(parts["copies"]))
    chosen -= set(copies[2:])
    image, hurt = past.data, set()
    for index in chosen:
        name, sector = struck(t, past, index)
        image = script.state(image, [script.Event("write", SECTOR * index, sector)])
        if sector != form.sector(past.data, index):
            hurt.add(index)
            t.counts[f"sectors hurt: {name}"] += 1
    return image, hurt


def place_is_hurt(past: History, words: list, hurt: set) -> bool:
    """Whether the place that a refusal names was hurt; of a reply also the prepare slot of a later op of its client."""
    layout, place = past.home.layout, Place(words[1], int(words[2]))

    def touched(one: Place) -> bool:
        first = layout.at(one) // SECTOR
        return bool(hurt & set(range(first, first + layout.fits(one.zone) // SECTOR)))

    if place.zone in (form.WAL_PREPARES, form.GRID):
        return touched(place)
    view = recovery.view_of(past.data)
    client = view.sessions[place.index].client
    later = [one.op for one in view.tail if one.client == client]
    return touched(place) or any(touched(Place(form.WAL_PREPARES, op % layout.slots)) for op in later)


def at_rest(data: bytes) -> bool:
    """Whether the four copies are equal, as they are but within an update that was stopped."""
    copies = superblock.all_seen(data)
    return not isinstance(copies[0], str) and copies.count(copies[0]) == form.COPIES


def promised(what: str, past: History, image: bytes, hurt: set) -> None:
    """What an open of a hurt file may find."""
    parts, found = zones(past.home.layout), recovery.found(image)
    before, rests = recovery.view_of(past.data), at_rest(past.data)
    if found.refusal:
        words = found.refusal.split()
        kinds = ("Damaged",) if rests else ("Damaged", "NoQuorum", "NotFormatted")
        require(f"{what}: a refusal of damage: {found.refusal}", bool(hurt) and words[0] in kinds)
        if rests:
            require(f"{what}: the superblock isn't blamed: {found.refusal}", words[1] != form.SUPERBLOCK)
            require(f"{what}: the place that is named was hurt: {found.refusal}", place_is_hurt(past, words, hurt))
    else:
        require(f"{what}: a state that the file had", found.view in past.views)
        require(f"{what}: at rest its checkpoint", not rests or found.view.checkpoint == before.checkpoint)
    if hurt <= set(parts["headers"]) or rests and hurt <= set(parts["copies"]):
        require(f"{what}: headers or copies alone: the same state", found.view == before)
    if not hurt & {*parts["headers"], *parts["copies"]} and found.view:
        rings = recovery.rings_of(past.data, past.home)
        known = [one.op for one in rings.headers if isinstance(one, Unit) and one.op > before.checkpoint.op]
        require(f"{what}: each prepare whose header is there", found.view.head() >= max(known, default=0))


def hurt(t: Try) -> None:
    """Sectors of a file are hurt; the open finds what is promised, and the program does as the model."""
    past = history(t)
    for number in range(20):
        image, sectors = damage(t, past)
        what = f"damage {number + 1} of sectors {sorted(sectors)}"
        promised(what, past, image, sectors)
        found = recovery.found(image)
        same = "as before" if found.view == recovery.view_of(past.data) else "an earlier one"
        t.counts[f"hurt files: {' '.join(found.refusal.split()[:2]) if found.refusal else same}"] += 1
        if number % 5:
            # That the promise is kept is shown by the model alone; of some files the program is asked, too.
            continue
        m = generate.machine_of(image)
        listed = reads_of(m, 6) + generate.script_of(t.random, m, 3, 0.1)
        t.binary.put(image)
        session(t, what, image, generate.text_of(t.random, listed))


KINDS = {"hurt": (hurt, 12)}
