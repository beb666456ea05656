"""Works out the checksums of the examples in docs/FORMAT.md from their fields alone: python3 model/worked.py.

With a page, python3 model/worked.py docs/FORMAT.md, its status is 0 where the page has these checksums and no other ones.
"""

import hashlib
import pathlib
import re
import sys

NO_BYTES = b""


def check(data):
    return hashlib.sha256(data).digest()[:16]


def put(size, fields):
    """This many bytes, all zero but for these numbers and bytes at their offsets: (offset, bytes of a number, number) or (offset, bytes)."""
    data = bytearray(size)
    for at, *what in fields:
        piece = what[0] if len(what) == 1 else what[1].to_bytes(what[0], "little")
        data[at : at + len(piece)] = piece
    return bytes(data)


def header(kind, *fields, body=NO_BYTES, version=1, boot=0):
    """A header of cluster 7; its kind's own fields are given as for `put`."""
    rest = put(256, [(16, check(body)), (32, 16, 7), (112, 4, 256 + len(body)), (120, 1, kind), (122, 2, version), (124, 8, boot), *fields])[16:]
    return check(rest) + rest


def first_copy(number, *fields, version=1):
    """A copy of the superblock of layout small in cluster 7 and of sequence 1; further fields are given as for `put`."""
    layout = [(36, 4, 32), (40, 4, 8192), (44, 4, 4), (48, 16, 7), (64, 4, 16384), (68, 4, 64)]
    covered = put(4096, [(32, 4, version), *layout, (72, 8, 1), *fields])[32:]
    return check(covered) + put(16, [(0, 4, number)]) + covered


def units(version, boot):
    """One unit of each kind, by name."""
    made = dict(version=version, boot=boot)
    group = [(132, 8, 1), (140, 8, 1)] if version == 2 else []
    prepare = header(2, (64, 16, 5), (80, 8, 1), (88, 8, 1), (104, 8, 1), (116, 4, 1), *group, **made)
    first = header(5, (80, 8, 8), (104, 8, 2), **made)
    return {
        "reserved header of slot 3": header(1, (116, 4, 3), version=version),
        "prepare": prepare,
        "reply": header(3, (48, prepare[:16]), (64, 16, 5), (80, 8, 1), (88, 8, 1), (96, 8, 1), (104, 8, 1), (116, 4, 2), **made),
        "block": header(4, (80, 8, 9), (121, 1, 1), **made),
        "trailer block, index 0": first,
        "trailer block, index 1": header(5, (48, first[:16]), (80, 8, 9), (88, 8, 8), (96, 8, 1), (104, 8, 2), **made),
    }


def stored():
    """The reply to op 1 that boot 1 stored, with the body aa."""
    prepare = units(2, 1)["prepare"]
    own = [(64, 16, 5), (80, 8, 1), (88, 8, 1), (96, 8, 1), (104, 8, 1)]
    return header(3, (48, prepare[:16]), *own, body=b"\xaa", version=2, boot=1)


def acknowledged():
    """What a file has after its first open, two appends and the reply to the first."""
    first = units(2, 1)["prepare"]
    own = [(64, 16, 5), (80, 8, 2), (88, 8, 2), (96, 8, 1), (104, 8, 1), (116, 4, 2), (132, 8, 2), (140, 8, 2)]
    return {
        "superblock of boot 1": first_copy(0, (152, 8, 1), version=2),
        "reserved header of slot 0": header(1, version=2),
        "prepare of op 2 with body 0102": header(2, (48, first[:16]), *own, body=b"\x01\x02", version=2, boot=1),
        "reply to op 1 with body aa": stored(),
    }


def booted():
    """The superblock of the boot after boot 1, in which op 1 was appended and answered; and a prepare of a group of two."""
    prepare, reply = units(2, 1)["prepare"], stored()
    named = [(88, 8, 1), (96, 8, 1), (152, 8, 2), (160, prepare[:16]), (192, reply[:16])]
    own = [(64, 16, 5), (80, 8, 1), (88, 8, 1), (104, 8, 1), (116, 4, 1)]
    return {
        "superblock of boot 2 over op 1 and its reply": first_copy(2, *named, version=2),
        "the prepare as the first of a group of two": header(2, *own, (132, 8, 1), (140, 8, 2), version=2, boot=1),
    }


def examples():
    """All examples, by what they belong to."""
    firsts = {f"of version {version}": first_copy(2, version=version) for version in (1, 2)}
    return {
        "version 1, boot 0": units(1, 0),
        "version 2, boot 1": units(2, 1),
        "first superblock": firsts,
        "two acknowledged ops": acknowledged(),
        "boot 1, and the open after it": booted(),
    }


def missing(page):
    """What a page lacks of the checksums here, that of no bytes and that of the body aa, and what it has besides."""
    have = set(re.findall(r"\b[0-9a-f]{32}\b", pathlib.Path(page).read_text()))
    worked = {unit[:16].hex() for group in examples().values() for unit in group.values()}
    worked |= {check(NO_BYTES).hex(), check(b"\xaa").hex()}
    return sorted(have ^ worked)


def main():
    for group, made in examples().items():
        print(group)
        for name, unit in made.items():
            print("   ", unit[:16].hex(), name)
    differing = [it for page in sys.argv[1:] for it in missing(page)]
    for it in differing:
        print("on one side only:", it)
    return 1 if differing else 0


if __name__ == "__main__":
    sys.exit(main())
