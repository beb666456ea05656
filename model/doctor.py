#!/usr/bin/env python3
"""Says what a path is, and what an open of it would answer and why: the independent reader, grown up. It writes nothing.

    python3 model/doctor.py FILE [--picture OUT.svg]

The first line is the verdict: `sound`, `would be mended` or `opens`, each perhaps `, with losses`, `refused: WORDS`, or
`no data file`. Status 0 is sound; 1, something is to be mended or lost; 2, refused or no data file; 3, the words have no meaning, the
file couldn't be read to its end, or what is told couldn't be written. See docs/OPERATING.md.
"""

import argparse
import os
import signal
import stat
import sys

sys.dont_write_bytecode = True

from doctor_case import UNKNOWN, copies_of, examine, looks, members_of
from doctor_next import blank_next, cut_lines
from doctor_picture import NoPicture, draw, may_draw
from doctor_table import advice, table_lines
from doctor_words import layout_text, look_lines, place_lines, refusal_lines
from reader_units import SECTOR, zones_of

FIVE = "each word of the program answers status 5"
KINDS = {stat.S_ISDIR: f"a folder: {FIVE}", stat.S_ISFIFO: f"a pipe: {FIVE}", stat.S_ISSOCK: f"a socket: {FIVE}",
         stat.S_ISCHR: "a device, no ordinary file", stat.S_ISBLK: "a device, no ordinary file"}
# This many places that are to be mended are described one by one.
FEW = 4
# The status where the doctor can't say what it is asked for.
CANNOT = 3


class NoFile(Exception):
    """Why a path is no file that can be read, and what the program would do with it."""


class Bytes:
    """The bytes of an open file, read a piece at a time, so that a large file takes no memory."""

    def __init__(self, fd):
        self.fd, at = fd, os.fstat(fd)
        self.size, self.changed = at.st_size, at.st_mtime_ns

    def __getitem__(self, span):
        data = b""
        while len(data) < span.stop - span.start:
            piece = os.pread(self.fd, span.stop - span.start - len(data), span.start + len(data))
            if not piece:
                break
            data += piece
        return data

    def sectors(self):
        """The sectors that may hold something: those of holes aren't among them."""
        at = 0
        while at < self.size:
            try:
                start = os.lseek(self.fd, at, os.SEEK_DATA)
                end = os.lseek(self.fd, start, os.SEEK_HOLE)
            except OSError:
                # Nothing but a hole is left.
                return
            yield from range(max(start, at) // SECTOR, -(-end // SECTOR))
            at = -(-end // SECTOR) * SECTOR


def opened(path):
    """The bytes of a path that is an ordinary file."""
    try:
        os.fsencode(path).decode()
        mode = os.stat(path).st_mode
    except OSError as error:
        raise NoFile(missing(path, error)) from None
    except UnicodeDecodeError:
        raise NoFile("the path isn't UTF-8: the program prints its usage line, with status 2") from None
    for test, name in KINDS.items():
        if test(mode):
            raise NoFile(name)
    try:
        return Bytes(os.open(path, os.O_RDONLY | os.O_CLOEXEC))
    except OSError as error:
        raise NoFile(f"it can't be read: {error.strerror}. To this user {FIVE}") from None


def missing(path, error):
    """Why nothing is found at a path."""
    folder = os.path.dirname(os.path.realpath(path)) or "."
    if not path:
        return f"the path is empty: {FIVE}"
    if not isinstance(error, FileNotFoundError):
        return f"{error.strerror}: {FIVE}"
    if not os.path.isdir(folder):
        return f"the folder {folder} isn't there: {FIVE}"
    link = " (the path is a link to a file that isn't there)" if os.path.islink(path) else ""
    if not os.access(folder, os.W_OK | os.X_OK):
        return f"nothing is there{link}, and this user may not make files in {folder}: {FIVE}"
    return (f"nothing is there{link}. `format` would make a file here; each other word would leave an empty file, and answer "
            "`refused NotFormatted`")


def head_lines(path, file):
    """What the file is for the operating system."""
    lines = [f"file {path}: {file.size} bytes"]
    if not os.access(path, os.W_OK):
        lines.append(f"this user may not write it, so that {FIVE}")
    return lines


def state_lines(case):
    """The state of a file that opens."""
    f, state = case.fields, case.state
    lines = [f"checkpoint {f['Op']}, sequence {f['Sequence']}, head {state['head']}, replies {state['stored']}, references "
             f"{len(state['references'])}, root {state['root'].hex() or '-'}"]
    for place, (client, last) in enumerate(state["sessions"].items()):
        what = "stored" if last["op"] <= state["stored"] else "pending"
        lines.append(f"session {place} client {client} request {last['request']} op {last['op']} {what}")
    return lines


def found_lines(case):
    """What is to be mended, what fails, and what may be lost, each place with what it holds."""
    file, f, lines = case.file, case.fields, []
    for number, (zone, index, name) in enumerate(case.mends):
        lines.append(f"mend {zone} {index} {name}")
        lines += indented(place_lines(file, f, zone, index)) if number < FEW else []
    lines += failing_lines(case)
    for word, listed in (("lost", case.lost), ("note", case.notes)):
        for zone, index, text in listed:
            lines += [f"{word} {zone} {index}: {text}", *indented(place_lines(file, f, zone, index))]
    return [*lines, f"to mend: {len(case.mends)}; failing, of {case.checked} referenced blocks: {len(case.failing)}; perhaps lost: "
                    f"{len(case.lost)}"]


def failing_lines(case):
    """The referenced blocks that aren't shown, each with what its address holds."""
    file, f, lines = case.file, case.fields, []
    for address, name in case.failing:
        lines += [f"failing {address} {name}", *indented(place_lines(file, f, "Grid", address) + cut_lines(file, f, "Grid", address))]
    return lines


def indented(lines):
    return ["    " + line for line in lines]


def report(case, path):
    """All lines, the verdict first, and the status."""
    file, f = case.file, case.fields
    if case.refusal.split()[:1] in (["NotFormatted"], ["NoQuorum"]) and not parts(file):
        first = "no data file"
        why = [f"an open would answer `refused {case.refusal}`, and no part of a data file is in it",
               *(look_lines(file, file.sectors()) if file.size else ["it is empty"])]
        what = ["name the right file; an empty one that a mistyped path left may be removed"]
        what = blank_next(file) if case.refusal == "NotFormatted" and file.size else what
        return [first, *head_lines(path, file), *why, *(f"next: {line}" for line in what)], 2
    lines = [case.verdict(), *head_lines(path, file)]
    if f:
        end = zones_of(f)["Grid"].at(f["Blocks"] + 1)
        members = " ".join(map(str, members_of(copies_of(file))))
        lines.append(f"layout {layout_text(f)}, {end} bytes; cluster {f['Cluster']}, version {f['Version']}, boot {f['Boot']}; the superblock stands in copies "
                     f"{members}")
        if file.size % SECTOR:
            lines.append(f"this length is no multiple of {SECTOR}: the file was cut, something was written after its end, or a full device or a size limit "
                         "cut a write short")
    lines += refusal_lines(case, file.sectors()) + failing_lines(case) if case.refusal else state_lines(case) + found_lines(case)
    lines += table_lines(case)
    return [*lines, *(f"next: {line}" for line in advice(case))], case.status()


def parts(file):
    """Whether some sector looks like a part of a data file."""
    return any(run[2] != UNKNOWN for run in looks(file, file.sectors()))


class Words(argparse.ArgumentParser):
    """The words; those without a meaning end it with a status of their own."""

    def error(self, message):
        self.print_usage(sys.stderr)
        self.exit(CANNOT, f"{self.prog}: {message}\n")


def words():
    parser = Words(description="Says what a path is, and what an open of it would answer and why.")
    parser.add_argument("file", help="the data file, which isn't written")
    parser.add_argument("--picture", metavar="OUT.svg", help="where a picture of the file is to be written, which has to be new or a picture")
    return parser.parse_args()


def told(given):
    """What is told of a path, and the status."""
    try:
        file = opened(given.file)
    except NoFile as why:
        return [f"no data file\n{given.file}: {why}"], 2
    drawn = given.picture is not None
    if drawn:
        may_draw(given.file, given.picture)
    case = examine(file)
    lines, status = report(case, given.file)
    # The picture comes first, since who reads the first line alone ends the rest.
    lines += [draw(case, given.file, given.picture)] if drawn else []
    if os.fstat(file.fd).st_mtime_ns != file.changed:
        lines.append("the file was written while it was read: another process uses it, and this may be true of no moment of it")
    return lines, status


def main():
    signal.signal(signal.SIGPIPE, signal.SIG_DFL)
    given = words()
    try:
        lines, status = told(given)
        if sys.stdout is None:
            return CANNOT
        sys.stdout.reconfigure(errors="backslashreplace")
        print("\n".join(lines), flush=True)
    except (NoPicture, OSError) as why:
        # Nothing that is left to be written may fail once more as the program ends.
        sys.stdout = None
        if sys.stderr is not None:
            print(f"doctor.py: {why}", file=sys.stderr)
        return CANNOT
    return status


if __name__ == "__main__":
    sys.exit(main())
