"""The model's programs over disks in memory, call by call: what each reads, writes, syncs and prints, in its order."""

import re
from typing import NamedTuple

import device
import imitation
from device import DISK, DONE, SCRIPT, End, Streams, lines_of, refuse, tell
from tries import filecopies, filemirrors, form, objects, recovery, units
from tries.disks import Disk, Failed
from tries.form import CLIENT_REPLIES, COPIES, GRID, SECTOR, WAL_PREPARES, Place
from tries.superblock import Content
from tries.units import NO_BYTES, REPLY, Unit
from tries.words import layout_of, meaning

STATUSES = ("Done", "Found", "Words", "Script", "Refused", "DiskFault", "ReadFault", "WriteFault", "Memory")
# A body is printed in pieces of this many digits.
DIGITS = 512
BODY = re.compile(rb"((?:prepare|reply|block) .* body |root )([0-9a-f-]+)\n")
RECENT = re.compile(rb"(recent [0-9]+)((?: .*)?)\n")


class File:
    """A disk as a file of the model's programs."""

    def __init__(self, disk: Disk):
        self.disk = disk

    def asked(self, call, *arguments):
        """A device call; one that fails ends the run."""
        try:
            return call(*arguments)
        except Failed:
            raise End(DISK) from None

    def read(self, at: int, length: int) -> bytes:
        return self.asked(self.disk.read, at, length)

    def write(self, at: int, data: bytes) -> None:
        self.asked(self.disk.write, at, data)

    def sync(self) -> None:
        self.asked(self.disk.sync)


class Memory(Streams):
    """A script and what is printed, in memory; the calls of these numbers fail, from 1 on."""

    def __init__(self, script: bytes, source, sink):
        self.script, self.printed = script, b""
        self.source, self.sink, self.reads, self.writes = source, sink, 0, 0

    def read(self, most: int) -> bytes:
        self.reads += 1
        if self.reads in self.source:
            raise OSError
        piece, self.script = self.script[:most], self.script[most:]
        return piece

    def write(self, text: bytes) -> int:
        for piece in pieces(text):
            self.writes += 1
            if self.writes in self.sink:
                raise OSError
            self.printed += piece
        return len(text)


def pieces(text: bytes) -> list:
    """An answer as the program prints it: what has a body in a front, pieces of the body, and the line's end; findings one by one; all
    else at once."""
    found = BODY.fullmatch(text)
    if found and found[2] == b"-":
        return [found[1], b"-\n"]
    if found:
        return [found[1], *(found[2][at : at + DIGITS] for at in range(0, len(found[2]), DIGITS)), b"\n"]
    found = RECENT.fullmatch(text)
    if found:
        return [found[1], *re.findall(rb" [0-9]+ [A-Z].*?(?= [0-9]+ [A-Z]|$)", found[2]), b"\n"]
    return [text]


class Done(list):
    """Events that are done when they are added; none is kept. What a machine writes of the superblock is read back."""

    def __init__(self, file: File, machine=None):
        super().__init__()
        self.file, self.machine = file, machine

    def append(self, event) -> None:
        self.__iadd__([event])

    def __iadd__(self, events):
        if self.machine is not None:
            imitation.perform(self.file, self.machine, list(events))
            return self
        for event in events:
            if event.kind == "write":
                self.file.write(event.at, event.data)
            else:
                self.file.sync()
        return self


def datafile(files: list, words: list) -> int:
    return imitation.act(meaning(words), lambda: files[0])


def served(files: list, words: list) -> int:
    """The word `run` in rooms that were taken for the layout of the first word."""
    reserved = layout_of(words[0])
    files[0].sync()
    _, content = imitation.tested(files[0], 2)
    found = form.Layout(*(getattr(content, name) for name in form.Layout._fields))
    if found != reserved:
        refuse("LayoutDiffers " + " ".join(map(str, (*reserved, *found))))
    return datafile(files, words[1:])


class Table(objects.Session):
    """The object table over a file."""

    def __init__(self, file: File):
        self.machine = imitation.opened(file)
        self.events, self.spans = Done(file, self.machine), []
        self.rows = objects.found(self.machine)


def objecttable(files: list, words: list) -> int:
    if words != ["table"]:
        tell(objects.USAGE)
        return objects.WORDS
    table = Table(files[0])
    if isinstance(table.rows, str):
        refuse(table.rows)
    table.catch_up()
    layout = table.machine.layout
    for index, line in enumerate(lines_of(layout.line_max()), 1):
        parsed = objects.parse(line, layout)
        if parsed is None:
            tell(b"script %d\n" % index)
            return SCRIPT
        table.line(parsed)
    return DONE


def filecopy(files: list, words: list) -> int:
    layout = layout_of(words[0]) if len(words) == 1 else None
    if layout is None:
        tell(filecopies.USAGE)
        return filecopies.WORDS
    source, target = files
    machine = imitation.opened(source)
    why = filecopies.resting(machine, layout)
    if why:
        refuse(why)
    for copy in range(COPIES):
        if any(target.read(SECTOR * copy, SECTOR)):
            refuse(f"NotBlank copy {copy}")
    copied = filecopies.Copy(machine, layout)
    copied.events = Done(target)
    copied.ring()
    why = copied.replies() or copied.blocks()
    if why:
        refuse(why)
    copied.superblock(copied.checkpoint())
    tell(b"copied %d\n" % layout.sectors())
    return DONE


class Mirror(filemirrors.Mirror):
    """A mending of the first file from the second one."""

    def __init__(self, first: File, second: File, content: Content):
        super().__init__(b"", b"", content)
        self.first, self.second, self.count = first, second, 0

    def look(self, file: File, place: Place):
        layout = self.home.layout
        return imitation.read(file.read(layout.at(place), units.length(place, layout)), self.home, place)

    def shown(self, place: Place):
        return self.look(self.first, place)

    def checkpoint(self):
        if self.content.trailer_address:
            self.chain()
        what = imitation.Rules().checkpoint(lambda address: self.shown(Place(GRID, address)), self.content)
        if isinstance(what, str):
            raise filemirrors.Refused(what)
        return what

    def unit(self, place: Place, kind: int, checksum: bytes) -> Unit:
        what = self.shown(place)
        if units.known(what, kind, checksum):
            return what
        has = self.look(self.second, place)
        if not units.known(has, kind, checksum):
            raise filemirrors.Refused(f"Neither {place} {units.class_of(what)}")
        event = filemirrors.write_of(self.home, place, has)
        self.first.write(event.at, event.data)
        self.first.sync()
        self.count += 1
        tell(f"mended {place}\n".encode())
        return has

    def replies(self, sessions: list) -> None:
        """As in the model; the ring of headers is read with that of prepares."""
        content, layout = self.content, self.home.layout
        for slot in range(0, layout.slots, form.HEADERS):
            self.first.read(layout.header_sector(slot), SECTOR)
        prepares = [self.shown(Place(WAL_PREPARES, slot)) for slot in range(content.slots)]
        later = {one.client for one in prepares if recovery.is_own(one, content) and one.op > content.pin()}
        for place, session in enumerate(sessions):
            checksum = content.reply_checksums()[place]
            if checksum == NO_BYTES or session.client in later:
                continue
            one = self.shown(Place(CLIENT_REPLIES, place))
            if not recovery.is_own(one, content) or one.op <= content.replies:
                self.unit(Place(CLIENT_REPLIES, place), REPLY, checksum)


def filemirror(files: list, words: list) -> int:
    if words:
        tell(filemirrors.USAGE)
        return filemirrors.WORDS
    first, second = files
    first.sync()
    _, content = imitation.tested(first, 2)
    mirror = Mirror(first, second, content)
    try:
        mirror.all()
    except filemirrors.Refused as why:
        refuse(str(why))
    tell(b"mended %d\n" % mirror.count)
    return filemirrors.FOUND if mirror.count else DONE


class Program(NamedTuple):
    """A program, and how many files it is given."""

    act: object
    files: int


PROGRAMS = {
    "datafile": Program(datafile, 1), "serve": Program(served, 1), "objecttable": Program(objecttable, 1), "filecopy": Program(filecopy, 2),
    "filemirror": Program(filemirror, 2),
}


def serve(program: str, disks: list, words: list, streams: Memory) -> str:
    """Runs a program's words over disks; gives the name of the status."""
    device.STREAMS[0] = streams
    try:
        return STATUSES[PROGRAMS[program].act([File(disk) for disk in disks], words)]
    except End as end:
        return STATUSES[end.args[0]]
