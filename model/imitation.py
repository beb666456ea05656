#!/usr/bin/env python3
"""The model as a program, with one bug where one is named, so that the tries themselves can be tried.

    BUG=NAME python3 model/model.py model/imitation.py

Reads, writes, syncs and answers with the calls that the built program makes, in its order. Without BUG it has none. Python itself ends with status 1
before it begins, where standard input is a folder.
"""

import sys

sys.dont_write_bytecode = True

import os

sys.path.insert(0, os.path.dirname(os.path.abspath(__file__)))

from device import DONE, FOUND, SCRIPT, WORDS, End, File, fill_streams, lines_of, refuse, tell
from tries import form, recovery, reports, script, superblock
from tries.bugs import has, refuse_unknown
from tries.form import COPIES, SECTOR, Place
from tries.knows import knows
from tries.words import USAGE, meaning
from wrong import Machine, Rules, choose, read, seen_copies
from wrong_scrub import counted, inspection, tour

# The lines of a summary.
SUMMARY = 8


def copies_of(file: File) -> list:
    """The four copies."""
    return seen_copies([file.read(SECTOR * place, SECTOR) for place in range(COPIES)])


def classes_of(copies: list) -> list:
    """The class of each copy, were it not the one wanted."""
    return [copy if isinstance(copy, str) else "Stale" for copy in copies]


def tested(file: File, version: int) -> tuple:
    """The copies and the content that they choose, where this version is asked for; a refusal ends the run."""
    copies = copies_of(file)
    content = choose(copies)
    if all(copy == superblock.BLANK for copy in copies):
        refuse("NotFormatted")
    if content is None:
        refuse("NoQuorum " + " ".join(classes_of(copies)))
    test_fields(content, version)
    return copies, content


def test_fields(content: superblock.Content, version: int) -> None:
    """The field tests; a refusal ends the run."""
    if content.version != version and not has("Version isn't tested"):
        refuse(f"Version found {content.version}")
    for field, value, fails in superblock.tests(content):
        if fails and not has(f"a field isn't tested: {field}"):
            refuse(f"BadField {field} {value}")


def repair(file: File, copies: list, content) -> None:
    places = [place for place, copy in enumerate(copies) if copy != content]
    if has("all copies are repaired") and places:
        places = list(range(COPIES))
    if has("repairs go from the last to the first"):
        places = places[::-1]
    if has("nothing is repaired"):
        return
    for place in places:
        file.write(SECTOR * place, content.encode(0 if has("a repaired copy has number 0") else place))
        if not has("repairs aren't synced"):
            file.sync()


def mend_headers(file: File, machine: Machine, slots: list) -> None:
    """Writes the header sectors of these slots, and syncs them."""
    if has("headers aren't mended"):
        return
    sectors = [slot // form.HEADERS for slot in slots]
    if not has("a needed header sector is mended for each slot"):
        sectors = sorted(set(sectors))
    if has("every header sector is mended"):
        sectors = list(range(machine.layout.slots // form.HEADERS))
    for sector in sectors:
        event = machine.header_sector(sector * form.HEADERS)
        file.write(event.at, event.data)
    if sectors and not has("mended headers aren't synced"):
        file.sync()


def make(file: File, home: form.Home) -> int:
    """The word `format`."""
    if home.cluster == 0 and not has("cluster 0 is taken"):
        refuse("ClusterZero")
    for place in range(COPIES):
        sector = file.read(SECTOR * place, SECTOR)
        if any(sector[:160] if has("format looks at the fields alone") else sector):
            refuse(f"NotBlank copy {place}")
        if has("format looks at copy 0 alone"):
            break
    parts = [make_headers, make_copies]
    for part in parts[::-1] if has("format writes the copies first") else parts:
        part(file, home)
    tell(b"formatted %d\n" % home.layout.sectors())
    return DONE


def make_headers(file: File, home: form.Home) -> None:
    if has("format writes no headers"):
        return
    for first in range(0, home.layout.slots, form.HEADERS):
        event = script.header_sector(home, first)
        file.write(event.at, event.data)
    if not has("format syncs no headers"):
        file.sync()


def make_copies(file: File, home: form.Home) -> None:
    for place in range(COPIES):
        file.write(SECTOR * place, superblock.first(home).encode(place))
        if not has("format syncs once") or place == COPIES - 1:
            file.sync()


def slots_of(file: File, home: form.Home) -> recovery.Rings:
    """What each slot shows, each of them read once."""
    layout, headers = home.layout, []
    for first in range(0, layout.slots, form.HEADERS):
        sector = file.read(layout.header_sector(first), SECTOR)
        headers += [read(sector[form.HEADER * at : form.HEADER * (at + 1)], home, Place(form.WAL_HEADERS, first + at))
                    for at in range(form.HEADERS)]
    others = []
    for zone, count in ((form.WAL_PREPARES, layout.slots), (form.CLIENT_REPLIES, layout.clients)):
        places = [Place(zone, index) for index in range(count)]
        others.append([read(file.read(layout.at(place), layout.message_size), home, place) for place in places])
    return recovery.Rings(headers, *others)


def block_of(file: File, home: form.Home, address: int):
    """What an address of the grid shows."""
    place = Place(form.GRID, address)
    return read(file.read(home.layout.at(place), home.layout.block_size), home, place)


def content_of(machine: Machine) -> superblock.Content:
    """The superblock that the machine writes now."""
    return machine.durable.content(machine.home, machine.recorded())


def read_back(file: File, machine: Machine) -> None:
    """Looks whether three copies at least are as they were written; else the run is refused."""
    if has("copies aren't read back"):
        return
    content, copies = content_of(machine), copies_of(file)
    bad = [place for place, copy in enumerate(copies) if copy != content]
    if len(bad) > 1 + has("two copies are enough") - has("one lost copy is damage"):
        what = copies[bad[0]]
        refuse(f"Damaged Superblock {bad[0]} {what if isinstance(what, str) else 'Stale'}")


def survey(file: File, version: int = 2) -> tuple:
    """What an open finds that asks for this version: the copies, and what is in the slots; a refusal ends the run."""
    tested(file, version)
    if not has("there is no barrier"):
        file.sync()
    copies, content = tested(file, version)
    if content.trailer_address and not knows("blocks"):
        refuse(f"BadField TrailerAddress {content.trailer_address}")
    if has("the layout is always small"):
        content = content._replace(**dict(zip(form.Layout._fields, form.SMALL)))
    if has("the cluster is always 7"):
        content = content._replace(cluster=7)
    members = [place for place, copy in enumerate(copies) if copy == content] or [0]
    members = [0, *members] if has("behind blames copy 0") else members
    opened = superblock.Opened(content, None, False, members)
    rules, home = Rules(), content.home()
    checkpoint = rules.checkpoint(lambda address: block_of(file, home, address), content)
    if isinstance(checkpoint, str):
        refuse(checkpoint)
    found = recovery.found_in(slots_of(file, home), opened, classes_of(copies), rules, checkpoint)
    if found.refusal:
        refuse(found.refusal)
    return copies, found


def opened(file: File, version: int = 2) -> Machine:
    """Finds the state of the file, mends it, and raises its boot; a file of version 1 is of version 2 then."""
    copies, found = survey(file, version)
    machine = Machine(found, form.Image(b""))
    machine.file = file
    slots = [place.index for place, _ in found.to_mend if place.zone == form.WAL_HEADERS]
    if has("the boot is raised before the mending"):
        raise_boot(file, machine)
    if has("copies are mended before headers"):
        repair(file, copies, found.content)
    mend_headers(file, machine, slots)
    if not has("repairs come last"):
        repair(file, copies, found.content)
    if not has("the boot is raised before the mending"):
        raise_boot(file, machine)
    return machine


def raise_boot(file: File, machine: Machine) -> None:
    """The boot update, whose copies are read back."""
    before = machine.boot
    events = machine.raised()
    if has("an open does no boot update"):
        return
    if has("the boot update is one write"):
        events = events[:2]
    perform(file, machine, [event for event in events if event.kind != "sync" or not has("the boot update isn't synced")])
    if has("units are of the boot before"):
        machine.boot = max(1, before)


def run(file: File, pace: tuple = (0, 0, 0)) -> int:
    """The word `run`, or `paced`."""
    machine = opened(file)
    execute(file, machine, pace)
    if has("repairs come last"):
        repair(file, copies_of(file), content_of(machine))
    return DONE


def execute(file: File, machine: Machine, pace: tuple) -> None:
    accepted = 0
    longest = 32832 if has("lines are bounded as for small") else machine.layout.line_max()
    for index, line in enumerate(lines_of(longest), 1):
        parsed = script.parse(line, machine.layout) if len(line) <= longest else None
        if parsed is None:
            tell(b"script %d\n" % index)
            raise End(SCRIPT)
        head = machine.head()
        events = machine.line(parsed)
        late = [event for event in events if event.kind == "answer"] if has("the work comes before the answer") else []
        perform(file, machine, [event for event in events if event not in late])
        accepted = work_behind(file, machine, pace, accepted + machine.head() - head)
        perform(file, machine, late)


def quietly(file: File, machine: Machine, line: tuple) -> bytes:
    """Does what a line asks for, and gives its answer, which isn't printed."""
    events = machine.line(line)
    perform(file, machine, [event for event in events if event.kind != "answer"])
    return b"".join(event.data for event in events if event.kind == "answer")


def work_behind(file: File, machine: Machine, pace: tuple, accepted: int) -> int:
    """The work after a line, of which nothing is printed; gives how many prepares count towards the next begin."""
    scrub, every, steps = pace
    if has("no work is done after a line"):
        return accepted
    if every and accepted >= every + has("a begin is due one append late") and not machine.running:
        root = b"" if has("the loop begins without a root") else machine.durable.root
        begun = quietly(file, machine, ("checkpoint", root)).startswith(b"begun")
        accepted = 0 if begun or has("a begin that is refused counts as done") else accepted
    for _ in range(steps + has("one step more is done than paced")):
        if machine.running:
            quietly(file, machine, ("step",))
    for _ in range(scrub):
        quietly(file, machine, ("scrub",))
    return accepted


def tell_all(lines: list) -> None:
    for line in lines:
        tell(line.encode() + b"\n")


def tell_summary(lines: list) -> list:
    """Writes the eight lines of a summary as one; gives those after it."""
    tell(b"".join(line.encode() + b"\n" for line in lines[:SUMMARY]))
    return lines[SUMMARY:]


def recover(file: File) -> int:
    """The word `recover`."""
    tell_summary(reports.summary(opened(file).view()))
    return DONE


def inspect(file: File) -> int:
    """The word `inspect`, which writes nothing."""
    _, found = survey(file)
    if has("inspect mends"):
        opened(file)
    tell_all(tell_summary(inspection(found)))
    return FOUND if found.to_mend and not has("findings don't count for the status") else DONE


def scrub(file: File) -> int:
    """The word `scrub`. Each line is told before the next block is read."""
    count = 0
    for line in tour(opened(file)):
        tell_all([line])
        count += 1
    return FOUND if count > 1 and not has("findings don't count for the status") else DONE


def upgrade(file: File) -> int:
    """The word `upgrade`."""
    tell_all([f"upgraded {opened(file, 1).durable.sequence}"])
    return DONE


def work(file: File, seed: int, count: int) -> int:
    """The word `workload`."""
    machine = opened(file)
    lines = counted(machine, seed, count, Performed(file, machine), [])
    tell(b"".join(line.encode() + b"\n" for line in lines))
    return DONE


class Performed(list):
    """Events that are done when they are added, but for their answer, which is the last one's to take."""

    def __init__(self, file: File, machine: Machine):
        super().__init__()
        self.file, self.machine = file, machine

    def __iadd__(self, events: list):
        perform(self.file, self.machine, events[:-1])
        self[:] = events[-1:]
        return self


def perform(file: File, machine: Machine, events: list) -> None:
    """Does what a line asks for. Copies that it wrote are read back."""
    updates = any(event.kind == "write" and event.at < SECTOR * COPIES for event in events)
    last = max((at for at, event in enumerate(events) if event.kind != "answer"), default=None)
    for at, event in enumerate(events):
        if event.kind == "write":
            file.write(event.at, event.data)
        elif event.kind == "sync":
            file.sync()
        else:
            tell(event.data)
        if updates and at == last:
            read_back(file, machine)


CALLS = {"run": run, "format": make, "recover": recover, "inspect": inspect, "scrub": scrub, "upgrade": upgrade, "workload": work, "paced": run}


def act(asked, file_of) -> int:
    """Does what the words ask for, over the file that is opened for it."""
    if asked is None:
        tell(USAGE)
        return WORDS
    return CALLS[asked[0]](file_of(), *asked[1:])


def main() -> int:
    refuse_unknown()
    fill_streams()
    words = [os.fsencode(word) for word in sys.argv[1:]]
    try:
        words[0].decode() if words else None
        asked = meaning(words[1:]) if words else None
    except UnicodeDecodeError:
        asked = None
    if has("a workload may have no commands") and asked is None and words[1:2] == [b"workload"] and words[3:] == [b"0"]:
        asked = meaning([words[1], words[2], b"1"])
    if has("leading zeros are taken") and asked is None and len(words) == 4:
        asked = meaning([words[1], words[2], words[3].lstrip(b"0") or b"0"])
    try:
        return act(asked, lambda: File(words[0]))
    except End as end:
        return end.args[0]


if __name__ == "__main__":
    os._exit(main())
