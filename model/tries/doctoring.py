"""Tries of `doctor.py`, which is built on the reader: what it says of a file is what the program answers, and where damage takes
back what was acknowledged it says so."""

import os
import subprocess
import sys
from xml.etree import ElementTree

import doctor as told
from doctor_case import examine
from doctor_next import is_named
from doctor_picture import picture

from . import filemirrors, form, generate, hurt, objects, reading, recovery, reporting, rows, script, stops, units
from .binary import expect, require
from .common import Try
from .forge import put
from .form import SECTOR, Place
from .knows import knows

DOCTOR = os.path.abspath(told.__file__)


def older(t: Try) -> bytes:
    """A file whose copies are those of an earlier moment: something in it is of a later checkpoint, perhaps a reply alone."""
    past = hurt.history(t)
    copies = t.random.choice(past.earlier)[: SECTOR * form.COPIES]
    return copies + past.data[SECTOR * form.COPIES :]


def of_garbage(t: Try) -> bytes:
    size = t.random.choice((0, 1, 4096, 16384, 30000))
    return t.random.choice((t.random.randbytes(size), bytes(size), (b"append 1 1 -\n" * 2400)[:size]))


def of_table(t: Try) -> bytes:
    """A table's file, to which another program perhaps wrote, and of which a sector is perhaps hurt."""
    random, layout = t.random, t.random.choice((form.SMALL, form.Layout(16, 4096, 1, 4096, 8)))
    keys = [b"put %d aa" % random.randrange(50) for _ in range(random.randrange(60))] + [b"drop %d" % random.randrange(50)]
    data = objects.run(script.fresh(form.Home(layout, 7)), b"\n".join(keys)).data
    other = random.choice((b"", b"", b"", b"append 5 1 -", b"checkpoint -\nstep\nstep", b"block 1 00\ncheckpoint -\nstep\nstep"))
    data = script.run(data, other).data if other else data
    if random.random() < 0.3:
        at = SECTOR * random.randrange(len(data) // SECTOR)
        data = script.state(data, [script.Event("write", at, b"\xa5" * SECTOR)])
    return data


MAKERS = {
    "tied": reading.tied, "struck": reading.struck, "forged": reading.forged, "rewritten": reading.rewritten,
    "reported": reporting.file_for, "hurt": lambda t: hurt.damage(t, hurt.history(t))[0],
    "with older copies": older, "of a table": of_table, "of a worked row": lambda t: t.random.choice(rows.listed())[0] or b"", "of garbage": of_garbage,
}


def asked(t: Try) -> tuple:
    """The doctor's lines and status over the program's file, and its case."""
    file = told.opened(t.binary.path)
    try:
        case = examine(file)
        lines, status = told.report(case, t.binary.path)
        drawing = picture(case, "file") if t.random.random() < 0.3 else None
    finally:
        os.close(file.fd)
    if drawing:
        ElementTree.fromstring(drawing)
        t.counts["pictures drawn"] += 1
    return lines, status, case


def only(lines: list, *words: str) -> list:
    """The lines that begin with one of these words."""
    return [line for line in lines if line.split(" ")[0] in words]


def doctor(t: Try) -> None:
    """A file of any sort: the refusal, what is mended, the sessions and the blocks that fail are the program's."""
    name = t.random.choice(list(MAKERS))
    data = MAKERS[name](t)
    t.binary.put(data)
    lines, status, case = asked(t)
    expect("the doctor writes nothing", data, t.binary.get())
    if t.random.random() < 0.1:
        done = subprocess.run([sys.executable, DOCTOR, t.binary.path], capture_output=True, text=True)
        expect("the doctor as a program", ("\n".join(lines) + "\n", status, ""), (done.stdout, done.returncode, done.stderr))
    answer = t.binary.run(words=["inspect"])
    printed = answer.text.decode().splitlines()
    expect("the model", recovery.found(data).refusal or "", case.refusal)
    if case.refusal:
        expect("the refusal", [f"refused {case.refusal}"], printed)
        expect("the doctor's status", 2, status)
        expect("the doctor's verdict", True, lines[0] in (f"refused: {case.refusal}", "no data file"))
        require("the refusal is told", any(case.refusal in line for line in lines))
    else:
        expect("sessions and what is mended", only(printed, "session", "mend"), only(lines, "session", "mend"))
        expect("whether something is mended", answer.status == 1, bool(case.mends))
        scrubbed(t, lines, status, case)
        tabled(data, lines, case)
    t.counts[f"files {name}: " + (" ".join(lines[0].split()[:2]) if case.refusal else lines[0])] += 1


def scrubbed(t: Try, lines: list, status: int, case) -> None:
    """The blocks that fail are those of a tour, and the status follows."""
    if knows("all"):
        toured = t.binary.run(words=["scrub"]).text.decode().splitlines()
        expect("failing blocks", [*only(toured, "failing"), f"tour {case.checked} {len(case.failing)}"],
               [*only(lines, "failing"), toured[-1]])
    expect("the doctor's status", int(bool(case.mends or case.failing or case.lost or case.is_closed())), status)


def tabled(data: bytes, lines: list, case) -> None:
    """What it says of a table is the model's."""
    table, wanted = case.table, objects.table_of(data)
    if table is None:
        require(f"a table with rows is told of, and not {len(wanted)} rows", isinstance(wanted, str) or not wanted)
        return
    expect("why it is no table", wanted if isinstance(wanted, str) else "", table.closed)
    expect("the verdict on it", table.closed.startswith("NotTable") and bool(table.stored or table.front), "its table is closed" in lines[0])
    if isinstance(wanted, dict):
        found = recovery.found(data).view
        commands = [objects.command_in(one.body)[0] for one in found.tail]
        told_of = [line for line in lines if line.startswith("table: ")][0]
        expect("its rows", wanted, table.rows)
        require(f"the rows and the ring are told: {told_of}", told_of.startswith(f"table: {len(wanted)} row"))
        expect("its puts and drops", (commands.count("put"), commands.count("drop")), (table.puts, table.drops))



def taken_back(t: Try) -> None:
    """Sectors of the newest prepares, headers and replies are hurt. Where the file opens in an earlier state, the doctor lists
    what may be lost; and nothing of a file that is whole."""
    random, home = t.random, generate.home(t.random)
    listed = generate.script_of(random, generate.machine_of(script.fresh(home)), random.choice((2, 5, 12)), 0, 1)
    data = script.run(script.fresh(home), generate.text_of(random, listed)).data
    before, layout = recovery.view_of(data), home.layout
    t.binary.put(data)
    expect("a whole file lost nothing", [], asked(t)[2].lost)
    ops = range(max(before.checkpoint.op + 1, before.head() - 1), before.head() + 1)
    places = [layout.at(Place(form.CLIENT_REPLIES, place)) for place, _ in enumerate(before.sessions)]
    image = bytearray(data)
    for op in ops:
        if random.random() < 0.5 or op == before.head():
            places += [layout.place(op), layout.header_sector(op % layout.slots)]
    for at in random.sample(places, min(len(places), random.choice((1, 2, 2, 3)))) if random.random() < 0.5 else places[-2:]:
        put(image, at, b"\xa5" * SECTOR)
    t.binary.put(bytes(image))
    found, case = recovery.found(bytes(image)), asked(t)[2]
    earlier = not found.refusal and found.view != before
    require(f"what may be lost after op {before.head()} is told", not earlier or bool(case.lost))
    what = " ".join(found.refusal.split()[:2]) if found.refusal else "taken back, and told" if earlier else "as before"
    t.counts[f"newest units hurt: {what}"] += 1


def advised(t: Try) -> None:
    """Of the place for which a hurt file is refused the doctor says that a copy gives it back exactly where `filemirror` does; of a file whose copies are
    those of an earlier moment it says so, where blocks or units tell."""
    past = hurt.history(t)
    image, _ = hurt.damage(t, past)
    t.binary.put(image)
    case = asked(t)[2]
    words = case.refusal.split()
    if words[:1] != ["Damaged"] or words[1] == "Superblock" or case.later:
        return
    given = b"mended %s %s" % (words[1].encode(), words[2].encode()) in filemirrors.run(image, past.data).text.splitlines()
    expect(f"whether a copy gives back {' '.join(words[1:])}", given, is_named(case, words[1], int(words[2])))
    t.counts[f"{words[1]} refused: {'a copy gives it back' if given else 'nothing names it'}"] += 1


def rolled_back(t: Try) -> None:
    """A file whose four copies are those of an earlier moment is called so wherever a unit of a later boot or checkpoint stands in it, and a file
    that is whole never."""
    past = hurt.history(t)
    t.binary.put(past.data)
    expect("blocks that are later than a whole file's superblock", [], asked(t)[2].later)
    old = t.random.choice(past.earlier)[: SECTOR * form.COPIES]
    t.binary.put(old + past.data[SECTOR * form.COPIES :])
    lines, _, case = asked(t)
    if case.later or case.refusal.startswith("Damaged Superblock"):
        require("a superblock that is older is called so", any("older than the file" in line for line in lines))
        require("and what to do is not filemirror", any("no `filemirror`" in line for line in lines))
    t.counts["older copies: " + ("told" if case.later or case.refusal else "opened")] += 1


def headers_in(data: bytes, home: form.Home) -> int:
    """How many headers of the file's units stand in its zones, reserved ones aside."""
    layout = home.layout
    firsts = ((form.WAL_HEADERS, 0, layout.slots), (form.WAL_PREPARES, 0, layout.slots), (form.CLIENT_REPLIES, 0, layout.clients), (form.GRID, 1, layout.blocks + 1))
    places = (Place(zone, index) for zone, first, end in firsts for index in range(first, end))
    headers = (units.decode(form.part(data, layout.at(place), form.HEADER)) for place in places)
    return sum(bool(one) and one["kind"] != units.RESERVED and one["cluster"] == form.number(home.cluster) for one in headers)


def strange(t: Try) -> None:
    """A file whose four copies are those of another file of its layout: the doctor names the file's own cluster, with how many of its units stand in it,
    and advises against `filemirror`; of a file that is whole it says nothing of this."""
    past = hurt.history(t)
    home = past.home
    t.binary.put(past.data)
    expect("units of another file in a whole one", (), asked(t)[2].strange)
    other = script.fresh(form.Home(home.layout, home.cluster % (2**128 - 1) + 1))
    if t.random.random() < 0.5:
        other = script.run(other, stops.script_for(t, other)).data
    image = other[: SECTOR * form.COPIES] + past.data[SECTOR * form.COPIES :]
    t.binary.put(image)
    lines, _, case = asked(t)
    count = headers_in(image, home)
    expect("why an open refuses it", recovery.found(image).refusal or "", case.refusal)
    expect("the cluster that most units are of", (home.cluster, count) if count else (), case.strange)
    if count:
        require("a superblock of another file is called so", any("It is another file's" in line for line in lines))
        require("and what to do is not filemirror", any("no `filemirror`" in line for line in lines))
    t.counts["another file's copies: " + ("refused" if case.refusal else "opened") + (", and told" if count else ", with no unit beside them")] += 1


def doctor_paths(t: Try) -> None:
    """Paths that are no file: the doctor names the status that the program answers."""
    loop = os.path.join(t.binary.folder, "ring")
    if not os.path.lexists(loop):
        os.symlink(loop, loop)
    absent = os.path.join(t.binary.folder, f"absent{t.random.randrange(10**9)}")
    missing = os.path.join(t.binary.folder, "no", "file")
    path = t.random.choice(("", "/", t.binary.folder, missing, loop, "/dev/null/x", "x" * 300, absent))
    done = subprocess.run([sys.executable, DOCTOR, path], capture_output=True, text=True, cwd=t.binary.folder)
    expect("the doctor of no file", ("no data file", 2, ""), (done.stdout.splitlines()[0], done.returncode, done.stderr))
    require("the doctor makes nothing", not os.path.exists(absent))
    got = t.binary.run(words=["run"], path=path)
    told_of = "refused NotFormatted" in done.stdout if path == absent else "answers status 5" in done.stdout
    expect("the program's status, as the doctor has it", (4 if path == absent else 5, True), (got.status, told_of))
    t.counts["paths of no file"] += 1


KINDS = {
    "doctor": (doctor, 6), "taken_back": (taken_back, 3), "doctor_paths": (doctor_paths, 1), "advised": (advised, 3), "rolled_back": (rolled_back, 2),
    "strange": (strange, 2),
} if knows("reports") else {}
