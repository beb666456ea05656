"""Compares the pages' tables of bytes with the lists of pieces by which the definitions spell those bytes: python3 model/format_tables.py.

The lists stand in `specs` of df_format, df_trailer and df_rows; offsets follow from the widths, and a piece's name is that of the field that it
reads. In docs/FORMAT.md the tables of a superblock's copy and of a header are to have the offset, the name and the width of each piece, the table of
a trailer the width of each part and of each number of a session; docs/OBJECTTABLE.md the widths of a row. The status is 0 where all agree, else 1,
and each row that differs is printed.
"""

import itertools
import pathlib
import re
import sys

TOP = pathlib.Path(__file__).resolve().parent.parent
PIECE = r"(Byte|Number|Bytes|zeros)\b\s*(\d+|\w+|\([^()λ]*\))?\s*(\(λ .*\))?"
# how a page says a width that depends on what is spelled
WIDTHS = {"root": "that many", "32 * sessions": "32 each", "bits_size l": "`(blocks + 7) / 8`, rounded down"}


def text_of(*path):
    return TOP.joinpath(*path).read_text(encoding="utf-8")


def found(pattern, text, what, flags=re.MULTILINE):
    """What a pattern finds in a text, which has to have it."""
    match = re.search(pattern, text, flags)
    if match is None:
        sys.exit(f"{what} isn't where this program looks for it")
    return match


def piece(text):
    """The name and the width of a piece: 1 of a byte, else what stands before the field that it reads, and no field of zeros."""
    kind, width, get = found(PIECE, text, f"a piece in {text}").groups()
    names = re.findall(r"\w\.(\w+)", get or "")
    return names[-1] if names else "zero", "1" if kind == "Byte" else width.strip("()")


def pieces(crate, module, name):
    """The pieces of a list, in order."""
    listed = found(rf"^{name}\b[^=\n]*=(.*?)\[\]$", text_of("crates", crate, "specs", f"{module}.antt"), f"{name} of {crate}", re.MULTILINE | re.DOTALL)
    return [piece(it) for it in listed[1].split("∷") if it.strip()]


def placed(listed):
    """Pieces of known widths, each with its offset."""
    widths = [int(width) for _, width in listed]
    return list(zip(itertools.accumulate(widths, initial=0), (name for name, _ in listed), widths))


def rows(head):
    """The cells of the rows of FORMAT.md's table that begins with this line."""
    lines = found(rf"^{re.escape(head)}.*\n\|[-|]+\n((?:\|.*\n)+)", text_of("docs", "FORMAT.md"), head)[1].splitlines()
    return [[cell.strip() for cell in line.strip("|").split("|")] for line in lines]


def fields(head):
    """Offset, name and width of each row of such a table."""
    return [(int(at), name.replace(" ", "_"), int(width)) for at, name, width, *_ in rows(head)]


def differs(what, told, listed):
    """Says where a page isn't what is listed, row by row."""
    wrong = [f"{what}: the page has {one}, the list {two}" for one, two in itertools.zip_longest(told, listed) if one != two]
    print("\n".join(wrong or [f"{what}: {len(listed)} agree"]))
    return bool(wrong)


def copy():
    listed = placed(pieces("df_format", "Super", "front") + pieces("df_format", "Super", "fields") + pieces("df_format", "Super", "named"))
    return differs("a copy of the superblock", fields("| offset | field | size | what it says |"), listed)


def header():
    # its own checksum stands before the pieces that it covers
    listed = placed([("checksum", "16")] + pieces("df_format", "Spelling", "fields") + pieces("df_format", "Spelling", "tail"))
    return differs("a header", fields("| offset | field | size | test, for every kind |"), listed)


def trailer():
    parts = rows("| part | bytes | what it says |")
    spelled = text_of("crates", "df_trailer", "specs", "Spelling.antt")
    check = found(r"spelled (\d+) checksum", spelled, "a checksum of a trailer")[1]
    found(r"^bits_size l = \(l\.blocks \+ 7\) / 8$", spelled, "bits_size")
    listed = [WIDTHS.get(width, width) for _, width in pieces("df_trailer", "Spelling", "trailer_pieces")] + [f"{check} each"]
    session = found(r"client.*", "; ".join(parts[3]), "a session of the page")[0]
    numbers = [width for _, width in pieces("df_trailer", "Spelling", "session_pieces")]
    return differs("a trailer", [it[1] for it in parts], listed) | differs("a session", re.findall(r"\((\d+)\)", session), numbers)


def row():
    # the value and the zeros after it have no width of their own
    page = " ".join(text_of("docs", "OBJECTTABLE.md").split())
    told = found(r"the key \((\d+) bytes\), how many bytes the value has \((\d+) byte\)", page, "a row of the page").groups()
    return differs("a row", list(told), [width for _, width in pieces("df_rows", "Rows", "row_pieces")][:2])


if __name__ == "__main__":
    sys.exit(int(any([copy(), header(), trailer(), row()])))
