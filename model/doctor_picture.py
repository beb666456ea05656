"""The file as a picture, in SVG: the zones to scale, and each slot and block by what stands there."""

import os
import stat
from html import escape

from doctor_case import begun_blocks, cases_by_copy, copies_of, free_blocks, members_of, slot_case
from doctor_table import table_title
from reader import class_of_copy, rings_of
from reader_trailer import class_at, number
from reader_units import SECTOR, zones_of

WIDTH, EDGE = 1120, 20
RED, INK = "#d1242f", "#24292f"
# Between a zone's title and its cells; and the width below which cells aren't drawn one by one.
GAP, SMALL = 20, 12
COLOURS = {  # what a place may hold: its colour and its words in the legend
    "empty": ("#ffffff", "empty: zeros, or a reserved header"), "taken": ("#3b6fb6", "taken: in the state, or needed for it"),
    "waiting": ("#16365c", "taken, and waits for its reply"), "old": ("#c4c8cc", "old: a unit that nothing needs any more"),
    "beyond": ("#a6c6ee", "a prepare that the tail doesn't reach"), "torn": ("#f0a030", "torn: no unit is shown"),
    "elsewhere": ("#9a6bc4", "elsewhere: the unit of another place"),
    "referenced": ("#58a868", "a block that the checkpoint references"),
    "chain": ("#1d6b38", "a block of the checkpoint's trailer"), "begun": ("#a8dcb4", "of a trailer that was begun"),
    "free": ("#eef0f2", "free: nothing stands there"),
}
# The zones of the strip, in colours that the legend doesn't have.
ZONES = {
    "Superblock": "#4d4a45", "WalHeaders": "#8a7f6d", "WalPrepares": "#d8cbb0", "ClientReplies": "#a8977a", "Grid": "#ece4d2",
}
# So long may the name of a file be in the picture.
LONGEST = 60
DARK = ("taken", "waiting", "chain", "elsewhere")


class NoPicture(Exception):
    """Why no picture is written to a path."""


class Cells:
    """The places of one zone: what each holds, a short text, and whether it is a finding."""

    def __init__(self, zone, title, row):
        self.zone, self.title, self.row = zone, title, row
        self.kinds, self.texts = [], []

    def add(self, kind, text=""):
        self.kinds.append(kind)
        self.texts.append(str(text))


def kind_of(name, blank="empty"):
    """The kind of a place of this class."""
    return {"Blank": blank, "Garbled": "torn", "Stale": "old"}.get(name, "elsewhere")


def row_of(count):
    """How many places stand in a row."""
    return next(row for row, most in ((32, 128), (64, 512), (128, 2048), (256, 2**62)) if count <= most)


def superblock_cells(file):
    cells = Cells("Superblock", "Superblock: four copies", 4)
    sectors = copies_of(file)
    members = members_of(sectors)
    for place, sector in enumerate(sectors):
        cells.add("taken" if place in members else kind_of(class_of_copy(sector, place)), f"copy {place}")
    return cells


def ring_cells(state):
    """The cells of both rings."""
    f, row = state["fields"], row_of(state["fields"]["Slots"])
    tail = {one["op"] for one in state["tail"]} if "tail" in state else named_ops(state)
    base, head = f["Op"], state.get("head", f["Pin"])
    known = "tail: ops" if "tail" in state else "named by the superblock: ops"
    title = f"{known} {base + 1} to {head}" if head > base else "the tail is empty"
    headers = Cells("WalHeaders", "WalHeaders: the ring of headers, sixteen to a sector", row)
    prepares = Cells("WalPrepares", f"WalPrepares: the ring of prepares; checkpoint {base}, {title}", row)
    for slot in range(f["Slots"]):
        _, seen, _ = slot_case(state, slot)
        header, one = state["headers"][slot], state["prepares"][slot]
        if isinstance(header, str):
            headers.add(kind_of(header))
        else:
            kind = "taken" if base < header["op"] <= head else "beyond" if header["op"] > head else "old" if header["op"] else "empty"
            headers.add(kind, header["op"] or "")
        if isinstance(one, str):
            prepares.add(kind_of(one))
        else:
            waits = one["op"] > state.get("stored", one["op"])
            kind = ("waiting" if waits else "taken") if one["op"] in tail else "beyond" if one["op"] > head else "old"
            prepares.add(kind, one["op"])
    return headers, prepares


def named_ops(state):
    """The ops above the checkpoint whose prepares the superblock names, and the rings show, where no tail was found."""
    f = state["fields"]
    op, wanted, found = f["Pin"], f["PinChecksum"], set()
    while op > f["Op"]:
        one = state["prepares"][op % f["Slots"]]
        shown = not isinstance(one, str) and one["op"] == op and wanted in (None, number(one["checksum"], 0, 16))
        found |= {op} if shown else set()
        # Below one that isn't shown nothing tells which one is meant: that of the op which belongs there is taken for it.
        op, wanted = op - 1, one["parent"] if shown else None
    return found


def reply_cells(state):
    title = "ClientReplies: one place for each client, with the op of the reply"
    cells = Cells("ClientReplies", title, row_of(state["fields"]["Clients"]))
    last = [one["op"] for one in state["sessions"].values()] if "sessions" in state else None
    for place, one in enumerate(state["places"]):
        if isinstance(one, str):
            cells.add(kind_of(one))
        else:
            cells.add("taken" if is_needed(state["fields"], last, place, one) else "old", one["op"])
    return cells


def is_needed(f, last, place, one):
    """Whether a session has this reply; where no sessions were found, whether the superblock names it."""
    if last is not None:
        return last[place : place + 1] == [one["op"]]
    return number(one["checksum"], 0, 16) in [*f["ReplyChecksums"]][place : place + 1]


def grid_cells(file, state, failing):
    f = state["fields"]
    title = f"Grid: {f['Blocks']} blocks of {f['BlockSize']} bytes, with the address where something stands"
    cells = Cells("Grid", title, row_of(f["Blocks"]))
    chain, references = dict(state.get("chain", [])), state.get("references", {})
    there = dict(free_blocks(file, {"references": {}, "chain": [], **state}))
    begun = {address for _, address, _ in begun_blocks(file, {"references": {}, "chain": [], **state})}
    for address in range(1, f["Blocks"] + 1):
        if address in failing:
            cells.add(kind_of(failing[address]), address)
        elif address in chain or address in references:
            cells.add("chain" if address in chain else "referenced", address)
        elif address in begun:
            cells.add("begun", address)
        else:
            cells.add(kind_of(class_at(there[address])) if address in there else "free", address if address in there else "")
    return cells


def findings_of(case):
    """The places that are drawn in red, each with its text."""
    listed = [(zone, index, f"mend {zone} {index} {name}") for zone, index, name in case.mends]
    listed += [("Grid", address, f"failing {address} {name}") for address, name in case.failing]
    listed += [(zone, index, f"lost {zone} {index}?") for zone, index, _ in case.lost]
    words = case.refusal.split()
    if words[:1] == ["Damaged"]:
        listed.append((words[1], int(words[2]), f"refused {case.refusal}"))
    elif words:
        listed += [("Superblock", place, f"refused {case.refusal}") for place in range(4)]
    return listed


def grouped(found):
    """The texts of the findings, those of neighbours in one."""
    runs = []
    for zone, index, words in found:
        front, named, name = words.partition(f"{zone} {index}")
        last = runs[-1] if runs else None
        if last and named and last[0] == (zone, front, name) and last[2] == index - 1:
            last[2] = index
        elif not last or words != last[3]:
            runs.append([(zone, front, name), index, index, words])
    return [words if least == most else f"{front}{zone} {least} to {most}{name}"
            for (zone, front, name), least, most, words in runs]


def rect(x, y, width, height, fill, stroke="#8c959f", thick=0.5):
    return (f'<rect x="{x:.2f}" y="{y:.2f}" width="{width:.2f}" height="{height:.2f}" fill="{fill}" stroke="{stroke}" '
            f'stroke-width="{thick}"/>')


def text(x, y, words, size=11, fill=INK, anchor="start"):
    return f'<text x="{x:.2f}" y="{y:.2f}" font-size="{size}" fill="{fill}" text-anchor="{anchor}">{escape(words)}</text>'


def strip(file, f, top):
    """The zones to scale, with the sector at which each begins."""
    zones, out, row = zones_of(f), [], 0
    end = zones["Grid"].at(f["Blocks"] + 1)
    scale = (WIDTH - 2 * EDGE) / end
    out.append(rect(EDGE, top, WIDTH - 2 * EDGE, 26, "#ffffff"))
    for name, one in zones.items():
        x, width = EDGE + one.start * scale, max(1.0, one.length * one.count * scale)
        out.append(rect(x, top, width, 26, ZONES[name], "none"))
        wide = width > 150
        out.append(text(x + 3, top + (17 if wide else 40 + 13 * row), f"{name}, from sector {one.start // SECTOR}", 10))
        row += not wide
    written = EDGE + min(file.size, end) * scale
    out.append(f'<path d="M {written:.2f} {top - 5} V {top + 32}" stroke="{INK}" stroke-width="1.5"/>')
    anchor, aside = ("start", 4) if written < WIDTH / 2 else ("end", -4)
    out.append(text(written + aside, top - 3, f"the file ends here, at {file.size} bytes", 10, INK, anchor))
    return out, top + 44 + 13 * row


def box(cells, index, top):
    """Where a cell is drawn: its left, its top, its width and its height."""
    width = min((WIDTH - 2 * EDGE) / cells.row, 64 if cells.row > 4 else 80)
    height = 22 if width > 20 else max(4.0, width)
    return EDGE + width * (index % cells.row), top + height * (index // cells.row), width, height


def drawn(cells, top, marked):
    """The cells of a zone, and where what follows begins. Small cells of one kind are drawn as one. Findings come last, so that
    nothing hides them."""
    out, red = [text(EDGE, top + 10, cells.title, 12)], []
    least, begin = (1 if cells.zone == "Grid" else 0), 0
    for index, (kind, words) in enumerate(zip(cells.kinds, cells.texts)):
        x, y, width, height = box(cells, index, top + GAP)
        if (cells.zone, index + least) in marked:
            red.append(rect(x + 1, y + 1, width - 2, height - 2, "none", RED, min(2.5, width / 3)))
        ends = index + 1 == len(cells.kinds) or cells.kinds[index + 1] != kind or (index + 1) % cells.row == 0
        if width < SMALL and not ends:
            continue
        left = box(cells, begin, top + GAP)[0]
        out.append(rect(left, y, x + width - left, height, COLOURS[kind][0]))
        if words and width > max(SMALL, 7 * len(words)):
            out.append(text(x + width / 2, y + height / 2 + 4, words, 10, "#ffffff" if kind in DARK else INK, "middle"))
        begin = index + 1
    _, y, _, height = box(cells, len(cells.kinds) - 1, top + GAP)
    return out + red, y + height + 14


def chain_path(state, grid, grid_top, copy_top):
    """An arrow from the superblock along the right edge to the last block of the trailer, and from each block to the one before."""
    cells = [box(grid, address - 1, grid_top + GAP) for address, _ in reversed(state.get("chain", []))]
    if not cells:
        return []
    tips = [(x + width / 2, y + height / 4) for x, y, width, height in cells]
    first, edge, above = tips[0], WIDTH - EDGE / 2, grid_top + 15
    paths = [f"M {EDGE + 322} {copy_top + GAP + 11} H {edge} V {above} H {first[0]:.2f} V {first[1]:.2f}"]
    paths += [f"M {x0:.2f} {y0:.2f} Q {(x0 + x1) / 2:.2f} {min(y0, y1) - 14:.2f} {x1:.2f} {y1:.2f}"
              for (x0, y0), (x1, y1) in zip(tips, tips[1:])]
    return [f'<path d="{path}" fill="none" stroke="#1d6b38" stroke-width="1.5" marker-end="url(#tip)"/>' for path in paths]


def legend(top, used):
    """The colours, and the marks."""
    entries = [(COLOURS[kind][0], "#8c959f", words) for kind, (_, words) in COLOURS.items() if kind in used or kind != "beyond"]
    out = []
    for number, (fill, stroke, words) in enumerate([*entries, ("#ffffff", RED, "a finding")]):
        x, y = EDGE + 360 * (number % 3), top + 20 * (number // 3)
        out += [rect(x, y, 18, 13, fill, stroke, 2.5 if stroke == RED else 0.5), text(x + 24, y + 11, words, 11)]
    y = top + 20 * (len(entries) // 3 + 1) + 4
    arrow = f'<path d="M {EDGE} {y + 6} h 18" stroke="#1d6b38" stroke-width="1.5" marker-end="url(#tip)"/>'
    words = "from the superblock along the chain of the checkpoint's trailer, from the last block to the first"
    return [*out, arrow, text(EDGE + 24, y + 10, words)], y + 24


def picture(case, name):
    """The text of the picture, by a copy of the superblock where no two agree; None where no layout is known."""
    by = case if case.fields else next((one for _, one in cases_by_copy(case.file) if one.fields), None)
    if by is None:
        return None
    file, f = case.file, by.fields
    state = {**rings_of(file, f, bodies=False), **by.state}
    found = findings_of(case) + [one for one in findings_of(by) if by is not case and one[0] != "Superblock"]
    marked, failing = {(zone, index) for zone, index, _ in found}, dict(by.failing)
    out, top = strip(file, f, 82)
    shown = [superblock_cells(file), *ring_cells(state), reply_cells(state), grid_cells(file, state, failing)]
    tops = []
    for cells in shown:
        tops.append(top)
        more, top = drawn(cells, top, marked)
        out += more
    out += chain_path(state, shown[4], tops[4], tops[0])
    more, top = legend(top, {kind for cells in shown for kind in cells.kinds})
    out += more
    listed = grouped(found)
    listed = listed[:8] + ([f"and {len(listed) - 8} findings more"] if len(listed) > 8 else [])
    out += [text(EDGE, top + 14 * number + 10, words, 11, RED) for number, words in enumerate(listed)]
    title = f"cluster {f['Cluster']}, sequence {f['Sequence']}, checkpoint {f['Op']}, " + (
        f"head {state['head']}, replies {state['stored']}" if not by.refusal else "not opened")
    title += f"; {table_title(by.table)}" if by.table else ""
    title += "" if by is case else ", were a single copy enough"
    out += [text(EDGE, 26, f"{cut(name)}: {case.verdict()}", 16, RED if case.status() else INK), text(EDGE, 46, title, 12)]
    return framed(out, top + 14 * len(listed) + 20)


def cut(name):
    """A name, of which the middle is left out where it is long, so that what stands after it is seen, and with `?` for what isn't printed."""
    name = "".join(sign if sign.isprintable() else "?" for sign in name)
    return name if len(name) <= LONGEST else f"{name[: LONGEST // 2]}..{name[-LONGEST // 2 :]}"


def framed(out, height):
    head = (f'<svg xmlns="http://www.w3.org/2000/svg" width="{WIDTH}" height="{height:.0f}" viewBox="0 0 {WIDTH} {height:.0f}" '
            'font-family="sans-serif">\n<defs><marker id="tip" viewBox="0 0 8 8" refX="7" refY="4" markerWidth="6" '
            'markerHeight="6" orient="auto"><path d="M 0 0 L 8 4 L 0 8 z" fill="#1d6b38"/></marker></defs>')
    return "\n".join([head, rect(0, 0, WIDTH, height, "#ffffff", "none"), *out, "</svg>", ""])


def may_draw(path, into):
    """Refuses a path that is the data file, by whatever name, or any other file that is there and no picture."""
    try:
        what = os.stat(into)
    except OSError:
        return
    if os.path.samefile(path, into):
        raise NoPicture(f"{into} is the data file itself: name another path for the picture")
    if stat.S_ISREG(what.st_mode) and what.st_size:
        with open(into, "rb") as old:
            if not old.read(4) == b"<svg":
                raise NoPicture(f"{into} is there, and no picture: name another path for it, or remove that file")


def draw(case, path, into):
    """Writes the picture; the words that say what came of it."""
    drawing = picture(case, os.path.basename(path))
    if drawing is None:
        return "no picture: no superblock says the layout"
    with open(into, "w", encoding="utf-8") as out:
        out.write(drawing)
    return f"picture: {into}"
