#!/usr/bin/env python3
"""Prints the table of a data file as the lines that make it again: `put KEY BODY` for each row, in order of key. It is built on the reader,
from the file's bytes alone, and writes nothing to it. See docs/OBJECTTABLE.md.

    python3 model/rows.py FILE [--past] > lines
    objecttable NEW table < lines

Status 0 says that all rows are printed; 1, that some may be missing: what can't be read is named on standard error; 4, that FILE is no table
or no data file; 5, that it can't be read; 7, that the lines can't be written.
"""

import argparse
import os
import stat
import sys

sys.dont_write_bytecode = True

from doctor import Bytes
from doctor_case import Under, copies_of, lost_appends, strange_text, strange_units
from reader import find, is_copy, rank
from reader_table import line_of, table_in
from reader_trailer import Refused, class_at
from reader_units import SECTOR

DONE, MISSING, WORDS, REFUSED, DISK, WRITE = 0, 1, 2, 4, 5, 7


class Sectors(Bytes):
    """The bytes of an open file; a sector that the device doesn't read is shown as garbled, and noted."""

    def __init__(self, fd):
        super().__init__(fd)
        self.failed = set()

    def __getitem__(self, span):
        try:
            return super().__getitem__(span)
        except OSError:
            edges = [span.start, *range((span.start // SECTOR + 1) * SECTOR, span.stop, SECTOR), span.stop]
            return b"".join(self.piece(*ends) for ends in zip(edges, edges[1:]))

    def piece(self, start, stop):
        """A part of one sector."""
        try:
            return super().__getitem__(slice(start, stop))
        except OSError:
            self.failed.add(start // SECTOR)
            return b"\xa5" * max(0, min(stop, self.size) - start)


class End(Exception):
    """The run ends with this status, and with these words on standard error."""


def opened(path):
    """The bytes of an ordinary file, opened for reading alone."""
    try:
        if not stat.S_ISREG(os.stat(path).st_mode):
            raise End(DISK, "no ordinary file")
        return Sectors(os.open(path, os.O_RDONLY | os.O_CLOEXEC))
    except (OSError, ValueError) as why:
        raise End(DISK, f"it can't be read: {getattr(why, 'strerror', None) or why}") from None


def found(file):
    """What the reader finds in a file of either version, and the words of its refusal."""
    for version in (2, 1):
        state, refusal = {}, ""
        try:
            find(file, state, bodies=False, version=version)
        except Refused as why:
            refusal = str(why)
        if refusal != "Version found 1":
            break
    return state, refusal


def table_of(file, past=False):
    """The table of a file, and the words of its refusal; by the latest single copy of the superblock where no two agree."""
    state, refusal = found(file)
    if refusal.startswith("NoQuorum"):
        copies = sorted((sector for sector in copies_of(file) if is_copy(sector)), key=rank, reverse=True)
        for under in (Under(file, sector) for sector in copies):
            state, _ = found(under)
            if "fields" in state:
                table = table_in(under, state, _, past)
                table.missing.insert(0, (refusal, "no two copies of the superblock agree; read by one of them, of sequence "
                                                  f"{state['fields']['Sequence']} and boot {state['fields']['Boot']}: what came since"))
                return table, refusal
    if "fields" not in state:
        raise Refused(refusal)
    table = table_in(file, state, refusal, past)
    strange = strange_units(file, table.fields)
    if strange:
        table.foreign.insert(0, (f"Superblock {table.fields['Copy']}", strange_text(table.fields, strange)))
    if "head" in state and not table.missing:
        table.missing += [(f"{zone} {slot} {class_at(state['prepares'][slot])}", text) for zone, slot, text in lost_appends(state)]
    return table, refusal


def told(file, past=False):
    """The lines, what is to be said of them, and the status."""
    try:
        table, refusal = table_of(file, past)
    except Refused as why:
        return [], [f"no data file that can be read: an open answers `refused {why}`"], REFUSED
    if table.foreign and not table.is_one():
        return [], ["no table: nothing in it is a row, a put or a drop", *said(table)], REFUSED
    lines = [line_of(key, value) for key, value in sorted(table.rows.items())]
    words = [f"note an open answers `refused {refusal}`"] if refusal else []
    words += ["note it is of version 1: `datafile FILE upgrade` makes it one that opens"] if table.fields["Version"] == 1 else []
    words += [f"note `objecttable` answers `refused {table.closed}`"] if table.closed and not refusal else []
    words += [f"note {note}" for note in table.notes] + said(table)
    words += [] if past else [f"later op {op}: {line_of(*change)}" for op, change in table.later]
    lacking = bool(table.missing or table.foreign)
    if lacking:
        words.append(f"{len(lines)} rows, as of op {table.op}{' and of what can be read after it' if past and table.later else ''}; some may be missing")
    return lines, words, MISSING if lacking else DONE


def said(table):
    """What can't be read, and what another program wrote."""
    return [f"missing {place}: {text}" for place, text in table.missing] + [f"foreign {place}: {text}" for place, text in table.foreign]


def write(fd, text):
    while text:
        text = text[os.write(fd, text) :]


def say(lines):
    """Writes lines to standard error, if anyone listens."""
    try:
        write(2, "".join(f"{line}\n" for line in lines).encode(errors="backslashreplace"))
    except OSError:
        pass


def fill_streams():
    """Closed standard streams are filled, so that the file never stands in for one."""
    for fd in (0, 1, 2):
        try:
            os.fstat(fd)
        except OSError:
            os.open("/", os.O_RDONLY)


def words():
    parser = argparse.ArgumentParser(description="Prints the table of a data file as the lines that make it again.")
    parser.add_argument("file", help="the data file, which isn't written")
    parser.add_argument("--past", action="store_true", help="where an op is missing, let also what can be read after it change the rows")
    return parser.parse_args()


def act(given):
    """Prints the lines, and gives the status."""
    file = opened(given.file)
    if any(os.path.samestat(os.fstat(fd), os.fstat(file.fd)) for fd in (1, 2)):
        raise End(WORDS, "it is the file itself that the lines would be written into")
    lines, more, status = told(file, given.past)
    more += [f"note sector {at} can't be read" for at in sorted(file.failed)]
    if os.fstat(file.fd).st_mtime_ns != file.changed:
        more.append("missing: the file was written while it was read: another process uses it, and these may be the rows of no moment of it")
        status = status or MISSING
    try:
        write(1, "".join(f"{line}\n" for line in lines).encode())
    except OSError as why:
        raise End(WRITE, f"the lines can't be written: {why.strerror}") from None
    say(f"{given.file}: {line}" for line in more)
    return status


def main():
    fill_streams()
    given = words()
    try:
        return act(given)
    except End as end:
        say([f"{given.file}: {end.args[1]}"])
        return end.args[0]


if __name__ == "__main__":
    # Nothing is left to be written as the interpreter ends.
    os._exit(main())
