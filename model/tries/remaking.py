"""Tries of `rows.py`: the lines of a table's file make the same table in a file of another layout; and of a damaged file it prints what can be
read, a part of a state that the file had, and names what it can't read."""

import os
import subprocess
import sys
from typing import Optional

import rows as told

from . import form, objects, recovery, script, superblock, units
from .binary import expect, require
from .common import Try
from .form import GRID, SECTOR, WAL_PREPARES, Home, Image, Layout, Place
from .machine import Machine
from .units import BLOCK, PREPARE

PROGRAM = os.path.abspath(told.__file__)
LAYOUTS = (form.SMALL, Layout(16, 4096, 1, 4096, 8), Layout(16, 4096, 1, 4096, 64), Layout(32, 4096, 1, 4096, 64), Layout(48, 8192, 3, 8192, 40))
A5 = b"\xa5"


def asked(t: Try, past: bool = False) -> tuple:
    """What the tool prints of the program's file: its lines, what it says beside them, and its status."""
    file = told.opened(t.binary.path)
    try:
        lines, words, status = told.told(file, past)
    finally:
        os.close(file.fd)
    if t.random.random() < 0.03:
        before = t.binary.get()
        done = subprocess.run([sys.executable, PROGRAM, t.binary.path, *["--past"][: int(past)]], capture_output=True, text=True)
        expect("the tool as a program", ("".join(f"{line}\n" for line in lines), status), (done.stdout, done.returncode))
        expect("what it says", "".join(f"{t.binary.path}: {line}\n" for line in words), done.stderr)
        expect("the tool writes nothing", before, t.binary.get())
        t.counts["rows.py as a program"] += 1
    return lines, words, status


def spelled(rows: dict) -> list:
    """The lines of a map."""
    return [f"put {key} {rows[key].hex() or '-'}" for key in sorted(rows)]


def remade(t: Try, what: str, data: bytes, rows: dict) -> None:
    """The tool prints the lines of this table, and nothing else."""
    t.binary.put(data)
    expect(f"{what}: the lines of its table", (spelled(rows), [], told.DONE), asked(t))
    made_of(t, what, rows)


def made_of(t: Try, what: str, rows: dict) -> None:
    """The program makes the table of these lines in a file of another layout, and of that the tool prints them again."""
    layout = t.random.choice([layout for layout in LAYOUTS if objects.most_rows(layout) >= len(rows)] or [form.LARGE])
    text = "".join(f"{line}\n" for line in spelled(rows)).encode()
    expect(f"{what}: the lines of the new file", text, filled(t, what, layout, text, len(rows)))
    if layout != form.LARGE:
        expect(f"{what}: its table", rows, objects.table_of(t.binary.get()))
    t.counts["tables remade in another layout"] += 1
    t.counts["rows of these"] += len(rows)


def filled(t: Try, what: str, layout: Layout, text: bytes, count: int) -> bytes:
    """This many new rows are put into a new file, each of which is accepted; gives what the tool prints of it."""
    t.binary.put(script.fresh(Home(layout, t.random.randint(1, 9))))
    got = t.binary.run(text, ("table",))
    expect(f"{what}: what the new file answers", "".join(f"put {op}\n" for op in range(1, count + 1)).encode(), got.text)
    expect(f"{what}: its status", 0, got.status)
    lines, words, status = asked(t)
    expect(f"{what}: nothing is wanting", ([], told.DONE), (words, status))
    return "".join(f"{line}\n" for line in lines).encode()


def opening(t: Try, what: str, data: bytes) -> None:
    """Of a file of any program: where it is a table its rows are printed, and else why it is none is told."""
    t.binary.put(data)
    lines, words, status = asked(t)
    opened, table = recovery.found(data), objects.table_of(data)
    if isinstance(table, dict):
        expect(f"{what}: the lines of its table", spelled(table), lines)
        require(f"{what}: its status is {status}", status in (told.DONE, told.MISSING))
    elif not opened.refusal and status != told.REFUSED:
        require(f"{what}: `{table}` is told, and not {words}", f"note `objecttable` answers `refused {table}`" in words)
        expect(f"{what}: its status", told.MISSING, status)
    require(f"{what}: something is said where the status isn't 0", bool(words) or status == told.DONE)
    t.counts[f"files of other programs that rows.py ended with {status}"] += 1


def history(t: Try, lines, layout: Layout) -> tuple:
    """A file that some sessions of the table wrote one after the other: its bytes after each, and the map after each op."""
    data, maps = script.fresh(Home(layout, 7)), [{}]
    files = [data]
    for _ in range(t.random.choice((1, 2, 2, 3))):
        ran = objects.run(data, lines(t, maps[-1], t.random.randint(1, 60)))
        maps += [rows for rows, _, _ in ran.spans[1:]]
        data = ran.data
        files.append(data)
    return files, maps


def old(t: Try) -> None:
    """A file of version 1, whose table stands in its ring."""
    home, keys = Home(t.random.choice((form.SMALL, Layout(16, 4096, 1, 4096, 8))), 7), range(1, t.random.randint(2, 6))
    rows, parent, slots = {}, units.NO_BYTES, [units.seal(units.fields_of(home, units.RESERVED, slot=slot)) for slot in range(home.layout.slots)]
    events = [script.Event("write", SECTOR * place, superblock.first(home)._replace(version=1).encode(place)) for place in range(form.COPIES)]
    for op in range(1, t.random.randint(1, 12)):
        command = t.random.choice((("put", t.random.choice(keys), t.random.randbytes(t.random.randrange(4))), ("drop", t.random.choice(keys))))
        body = objects.body_of(command)
        one = units.seal(units.fields_of(home, PREPARE, body, parent=parent, client=form.number(1), op=op, request=op, mark=op - 1, checkpoint=1,
                                         slot=op), body)
        objects.apply(rows, command)
        parent, slots[op] = one[:16], one[: form.HEADER]
        events.append(script.Event("write", home.layout.place(op), form.whole_sectors(one)))
    t.binary.put(script.state(b"", [*events, script.Event("write", SECTOR * form.COPIES, b"".join(slots))]))
    lines, words, status = asked(t)
    expect("the lines of a file of version 1", (spelled(rows), told.DONE), (lines, status))
    require("its version is told", any("version 1" in line for line in words))
    t.counts["files of version 1"] += 1


def leaves_no_trace(layout: Layout, hurt: list, ops: range) -> bool:
    """Whether each sector that shows any of these ops is hurt: their prepares, their headers, and the reply slot of the table's client."""
    replies = layout.at(Place(form.CLIENT_REPLIES, 0)) in hurt
    return replies and all(layout.place(op) in hurt and layout.header_sector(op % layout.slots) in hurt for op in ops)


def damaged(t: Try, lines) -> None:
    """A table's file with some sectors hurt."""
    layout = t.random.choice((Layout(16, 4096, 1, 4096, 8), Layout(16, 4096, 1, 4096, 16), form.SMALL))
    files, maps = history(t, lines, layout)
    machine = Machine(recovery.found(files[-1]), Image(files[-1]))
    image, older, hurt = files[-1], False, chosen(t, machine)
    for at in hurt:
        how = t.random.choice(("a5", "a5", "a5", "zeros", "random", "another", "older"))
        older = older or how == "older"
        source = t.random.choice(files[:-1]) if how == "older" else image
        sector = {"a5": A5 * SECTOR, "zeros": bytes(SECTOR), "random": t.random.randbytes(SECTOR),
                  "another": form.part(source, SECTOR * t.random.randrange(30), SECTOR), "older": form.part(source, at, SECTOR)}[how]
        image = script.state(image, [script.Event("write", at, sector)])
    t.binary.put(image)
    lines, words, status = asked(t)
    file = told.opened(t.binary.path)
    try:
        op = told.table_of(file)[0].op
    except told.Refused:
        op = None
    finally:
        os.close(file.fd)
    what = "a damaged file"
    rows = dict(objects.parse(line.encode(), layout)[1:] for line in lines)
    if status == told.REFUSED:
        expect(f"{what}: lines of no file", [], lines)
        require(f"{what}: no sector is a copy", not [copy for copy in superblock.all_seen(image) if not isinstance(copy, str)] or older)
    else:
        require(f"{what}: op {op} is one of it", op < len(maps))
        require(f"{what}: what is printed is a part of the state at op {op}", rows.items() <= maps[op].items())
    gone = op is not None and op + 1 < len(maps) and leaves_no_trace(layout, hurt, range(op + 1, len(maps)))
    require(f"{what}: what is wanting is told", rows == maps[-1] or older or gone or status in (told.MISSING, told.REFUSED))
    refusal = objects.table_of(image)
    if isinstance(refusal, str):
        named = refusal.removeprefix("Damaged ")
        require(f"{what}: `{named}` is told, and not {words}", any(named in line for line in words))
        require(f"{what}: an older superblock is missing something", not named.startswith("Superblock") or status == told.MISSING)
    wanted = readable(machine, files[-1], image)
    if wanted is not None and (wanted[3] or any("made again" in line for line in words)):
        expect(f"{what}: what is printed", spelled(wanted[0]), lines)
        t.counts["damaged files whose readable rows are known" if wanted[3] else "trailers made again"] += 1
        if wanted[2] == 1:
            expect(f"{what}: what is printed with --past", spelled(wanted[1]), asked(t, True)[0])
            t.counts["damaged files with one op missing"] += 1
    elif wanted is not None:
        t.counts["trailers lost"] += 1
    if any("read by the later checkpoint" in line for line in words):
        t.counts["older superblocks, with all rows printed" if rows == maps[-1] else "older superblocks, with some rows printed"] += 1
    t.counts[f"damaged files that rows.py ended with {status}"] += 1
    if lines and t.random.random() < 0.1:
        made_of(t, what, rows)


def chosen(t: Try, machine: Machine) -> list:
    """The offsets of the sectors that are hurt."""
    layout, tail = machine.layout, machine.tail
    grid = [layout.at(Place(GRID, address)) for address in [*machine.live, *dict(machine.durable.chain)]]
    ring = [layout.place(one.op) for one in tail] + [layout.header_sector(one.op % layout.slots) for one in tail[-2:]]
    copies = [SECTOR * copy for copy in range(4)]
    replies = [layout.at(Place(form.CLIENT_REPLIES, 0))]
    listed = []
    for _ in range(t.random.choice((1, 1, 1, 2, 3, 5))):
        listed.append(t.random.choice(t.random.choice([places for places in (grid, grid, ring, ring, copies, replies) if places])))
    if t.random.random() < 0.15:
        listed += t.random.sample(copies, t.random.randint(2, 4))
    return listed


def readable(machine: Machine, before: bytes, image: bytes) -> Optional[tuple]:
    """The rows that can be read of a damaged file, by what it had: up to the first op that is lost, and all; how many are lost; and whether each
    block of the trailer is shown. None where the superblock is lost or an older one."""
    layout, home = machine.layout, machine.home
    whole, found = superblock.opened(before), superblock.opened(image)
    if found.refusal or found.content != whole.content:
        return None

    def at(place: Place, kind: int, checksum: bytes) -> Optional[units.Unit]:
        one = units.shown(image, home, place)
        return one if units.known(one, kind, checksum) else None
    chained = all(at(Place(GRID, address), units.TRAILER, checksum) for address, checksum in machine.durable.chain)
    rows: dict = {}
    for address in sorted(machine.live):
        one = at(Place(GRID, address), BLOCK, machine.live[address])
        rows.update(objects.rows_in(one.body) if one else [])
    past, lost = dict(rows), 0
    for one in machine.tail:
        seen = at(Place(WAL_PREPARES, one.op % layout.slots), PREPARE, one.checksum)
        lost += seen is None
        for each in ([rows, past] if not lost else [past]) if seen else []:
            objects.apply(each, objects.command_in(seen.body))
    return rows, past, lost, chained
