"""One file under all five programs: the two programs of two files, and damage, against the plain history of the file."""

import reader

from . import filecopies, filemirrors, form, generate, hurt, lives, plain, plain_read, script, stops, units
from .binary import expect, require
from .common import Try, same_bytes
from .form import GRID, SECTOR, WAL_PREPARES, Layout, Place
from .grid import Event
from .plain import State
from .together import Life, Told, went

LAYOUTS = (form.SMALL, Layout(16, 4096, 1, 4096, 8), Layout(16, 4096, 2, 4096, 8), Layout(32, 4096, 4, 4096, 64), Layout(16, 8192, 4, 4096, 40))


# ---- filecopy

def copy(t: Try, life: Life) -> None:
    """A copy to another layout, sometimes ended; it has the source's state, and sometimes the life goes on with it."""
    own = life.home.layout
    layout = t.random.choice((own, *LAYOUTS, own._replace(blocks=min(16384, own.blocks + 8), clients=min(64, own.clients + 1))))
    wanted = filecopies.command(life.data, None, [layout.word()])
    state, what, told = life.state, f"filecopy to {layout.word()}", Told([Event("state", data=life.state)], script.DONE)
    if t.random.random() < 0.3:
        upto = stops.moment(t, wanted.source)
        t.counts["runs of filecopy that were ended"] += 1
        left = stops.stop(t, life.data, wanted.source, upto)
        went(t, life, f"{what}, ended after {upto} events of the source", wanted.source[:upto], left, told, 0)
        return
    got, source, target = life.programs["filecopy"].pair(life.data, None, [layout.word()])
    expect(f"{what}: text", wanted.text, got.text)
    expect(f"{what}: status", wanted.status, got.status)
    same_bytes(f"{what}: the source", wanted.data, source)
    same_bytes(f"{what}: the target", wanted.copy or None, target or None)
    resting(life, what, layout, got.text.decode())
    t.counts[f"runs of filecopy, status {got.status}"] += 1
    went(t, life, what, wanted.source, source, told, None)
    if got.status != script.DONE:
        return
    moved = state.moved(layout)
    begun(t, what, moved, wanted.target)
    require(f"{what}: the copy has the source's state", plain_read.read(target)[0] == moved)
    if t.random.random() < 0.5:
        life.begins(target, [moved])
        t.counts["lives that went on in a copy"] += 1


def resting(life: Life, what: str, layout: Layout, text: str) -> None:
    """Whether a file is copied is what the plain history has."""
    state, word = life.state, " ".join(text.split()[:2])
    bodies = [len(one.reply.body) for one in state.sessions if one.reply]
    moved = state.moved(layout) if state.rests() else state
    if not state.rests():
        wanted = "refused NotAtRest"
    elif len(state.sessions) > layout.clients:
        wanted = "refused TooFewClients"
    elif len(moved.blocks) + len(moved.trailer) > layout.blocks:
        wanted = "refused TooFewBlocks"
    elif any(size > layout.body_max() for size in bodies):
        wanted = "refused ReplyTooLong"
    elif word == "refused Damaged":
        require(f"{what}: {text}: this place is hurt", life.hurt(Place(GRID, int(text.split()[3]))))
        return
    elif any(len(body) > layout.block_max() for _, (_, body) in state.blocks):
        wanted = "refused BlockTooLong"
    else:
        wanted = f"copied {layout.sectors()}"
    expect(what, wanted, word)


def begun(t: Try, what: str, moved: State, events: list) -> None:
    """A copy that is ended is no file yet, or all of it."""
    upto = stops.moment(t, events)
    image = stops.stop(t, b"", events, upto)
    t.counts["stops"] += 1
    try:
        require(f"{what}: after {upto} events the target is whole", plain_read.read(image)[0] == moved)
        t.counts["copies that were ended, and there"] += 1
    except reader.Refused as why:
        copies = [at for at, event in enumerate(events, 1) if event.kind == "write" and event.at < SECTOR * form.COPIES]
        require(f"{what}: after {upto} events the target is refused {why}", upto <= copies[1] and str(why).split()[0] in ("NotFormatted", "NoQuorum"))
        t.counts["copies that were ended, and no file yet"] += 1


# ---- damage

def swapped(t: Try, life: Life) -> tuple:
    """The file with two sectors in each other's place, none of them a copy's."""
    there = [at for at in hurt.written(hurt.History(life.home, life.data, set(), [])) if at >= form.COPIES]
    if len(there) < 2:
        return life.data, set()
    one, two = t.random.sample(there, 2)
    pair = [form.sector(life.data, at) for at in (one, two)]
    image = script.state(life.data, [Event("write", SECTOR * one, pair[1]), Event("write", SECTOR * two, pair[0])])
    t.counts["sectors swapped"] += pair[0] != pair[1]
    return image, {one, two} if pair[0] != pair[1] else set()


def found_in(t: Try, life: Life, what: str, image: bytes, sectors: set):
    """The state that is found, one that the file had since the last open that raised its boot; or why it is refused, naming what is hurt."""
    try:
        found, _ = plain_read.read(image)
    except reader.Refused as why:
        named = str(why).split()
        require(f"{what}: refused {why}", bool(sectors) and named[0] == "Damaged" and named[1] != "Superblock")
        place = Place(named[1], int(named[2]))
        require(f"{what}: refused {why}: it is hurt", any(life.is_hurt(image, one) for one in spoken(life, place)))
        t.counts[f"opens after damage: refused {' '.join(named[:2])}"] += 1
        return str(why)
    fits = [one for one in life.since if plain_read.is_read_as(one, found, lambda place: life.is_hurt(image, place))]
    require(f"{what}: a state that the file had: head {found.head()}, {found.replies} replies", bool(fits))
    require(f"{what}: nothing is hurt: the newest state", bool(sectors) or life.state in fits)
    state = life.state if life.state in fits else fits[-1]
    t.counts[f"opens after damage: {'the newest state' if state == life.state else 'an earlier state'}"] += 1
    return state


def spoken(life: Life, place: Place) -> list:
    """What a refusal may speak of: the place, and of a reply also the later prepares of its client."""
    if place.zone != form.CLIENT_REPLIES:
        return [place]
    ops = range(life.state.op + 1, life.state.head() + 1)
    return [place, *(Place(WAL_PREPARES, op % life.home.layout.slots) for op in ops)]


def inspected(t: Try, life: Life, what: str, image: bytes, found) -> None:
    """The program's report of the file, which it leaves as it is."""
    binary = life.programs["datafile"]
    binary.put(image)
    got = binary.run(b"", ["inspect"])
    wanted = f"refused {found}\n" if isinstance(found, str) else "".join(f"{line}\n" for line in found.report())
    require(f"{what}: the report is {wanted!r}, but not {got.text!r}", got.text.decode().startswith(wanted))
    same_bytes(f"{what}: inspect", image, binary.get())


def strike(t: Try, life: Life) -> None:
    """Damage, and what comes of it: the file is opened as it is, mended from a copy, taken from one, or shown again as it was."""
    image, sectors = swapped(t, life) if t.random.random() < 0.15 else lives.hurt_again(t, life)
    what = f"damage of sectors {sorted(sectors)}"
    found = found_in(t, life, what, image, sectors)
    inspected(t, life, what, image, found)
    t.counts["damages"] += 1
    if t.random.random() < (0.75 if isinstance(found, str) else 0.35):
        image = mirror(t, life, image)
        found = found_in(t, life, f"{what}, mended", image, sectors)
        if filemirrors.run(image, b"").text == b"mended 0\n" and sectors <= known_sectors(life) and life.raised and hurt.at_rest(life.data):
            require(f"{what}, mended: known units alone were hurt: the newest state", found == life.state)
            t.counts["files that are as they were, mended from a copy"] += 1
    if isinstance(found, str):
        if t.random.random() < 0.3:
            life.begins(*t.random.choice(life.copies))
            t.counts["files taken from a copy"] += 1
        return
    accept(t, life, image, found)


def known_sectors(life: Life) -> set:
    """The sectors of the units that are known."""
    found = set()
    for place, unit in filemirrors.known(life.good):
        first = life.home.layout.at(place) // SECTOR
        found |= set(range(first, first + len(form.whole_sectors(unit.encode())) // SECTOR))
    return found


def accept(t: Try, life: Life, image: bytes, found: State) -> None:
    """The file goes on as the disk shows it."""
    life.takes(t, image, [], found)
    life.rows, life.tidy = plain.rows_of(found), False


# ---- filemirror

def mirror(t: Try, life: Life, image: bytes) -> bytes:
    """The file is mended from a copy of it, perhaps an older one, or from another file; sometimes the run is ended first."""
    other = t.random.choice(life.copies if t.random.random() < 0.5 else life.copies[-1:])[0]
    if t.random.random() < 0.05:
        other = script.fresh(generate.home(t.random))
    if t.random.random() < 0.3:
        wanted = filemirrors.command(image, other, [])
        image = stops.stop(t, image, wanted.events, stops.moment(t, wanted.events))
        t.counts["runs of filemirror that were ended"] += 1
        t.counts["stops"] += 1
    wanted = filemirrors.command(image, other, [])
    got, one, two = life.programs["filemirror"].pair(image, other, [])
    what = "filemirror"
    expect(f"{what}: text", wanted.text, got.text)
    expect(f"{what}: status", wanted.status, got.status)
    same_bytes(f"{what}: the file", wanted.data, one)
    same_bytes(f"{what}: its copy", other, two)
    mends(t, life, image, other, one, got)
    t.counts[f"runs of filemirror, status {got.status}"] += 1
    return one


def mends(t: Try, life: Life, image: bytes, other: bytes, after: bytes, got) -> None:
    """What was known and lacked is there again, in order, up to the first unit that the copy lacks, too."""
    lines = got.text.decode().split("\n")[:-1]
    expected, known = [], [one for one in filemirrors.known(life.good) if one[0].zone != form.CLIENT_REPLIES]
    for place, unit in known:
        if units.shown(image, life.home, place) == unit:
            continue
        if units.shown(other, life.home, place) != unit:
            expected.append(f"refused Neither {place} {units.class_of(units.shown(image, life.home, place))}")
            break
        expected.append(f"mended {place}")
        expect(f"filemirror: {place}", unit, units.shown(after, life.home, place))
    told = [line for line in lines if line.split()[-2 if line.startswith("mended") else 2] in (form.GRID, WAL_PREPARES)]
    expect("what filemirror mends", expected, told)
    if lines[-1].split()[0] == "mended":
        require("each block and each prepare that is known is there", all(units.shown(after, life.home, place) == unit for place, unit in known))
        expect("how many are mended", f"mended {len(lines) - 1}", lines[-1])
    t.counts["units that came back from a copy"] += len(lines) - 1
