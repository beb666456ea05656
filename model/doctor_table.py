"""The doctor's words about a table of `objecttable`: how many rows it has, what stands in the ring alone, and what to do (docs/OBJECTTABLE.md)."""

from dataclasses import replace

from doctor_case import cases_by_copy
from doctor_words import next_lines

PRINTS = "`python3 model/rows.py FILE > lines` prints its rows as the lines that make it again"


def counted(number, name):
    """A number of things."""
    return f"{number} {name}{'' if number == 1 else 's'}"


def changes(table):
    """How many puts and drops stand in the ring alone."""
    return f"{counted(table.puts, 'put')} and {counted(table.drops, 'drop')}"


def table_lines(case):
    """What the file is as a table's, if it is one."""
    table = case.table
    if table is None:
        return []
    if case.refusal or table.missing:
        return [f"table: {counted(len(table.rows), 'row')} of it can be read, as of op {table.op}; {changes(table)} stand in the ring alone",
                *(f"table: missing {place}: {text}" for place, text in table.missing)]
    lines = [f"table: {counted(len(table.rows), 'row')}, as of op {table.op}; the blocks have {table.stored}, as of op {table.fields['Op']}, and "
             f"{changes(table)} stand in the ring alone"]
    if table.puts or table.drops:
        lines.append(f"table: no checkpoint by `datafile` here (`checkpoint`, `paced`, `workload`), not for a `filecopy` either: it would lose "
                     f"{changes(table)} that were acknowledged, since no block has them")
    if table.closed:
        lines.append(f"table: `objecttable` answers `refused {table.closed}`")
    return lines + [f"table: {place}: {text}" for place, text in table.foreign]


def advice(case):
    """What to do, a table's rows first. Of a table no block is let go, since the checkpoint that this asks for would drop what stands in the
    ring alone."""
    lines = table_next(case)
    others = next_lines(replace(case, failing=[]) if case.table else case)
    if "restores it" in others[0]:
        # Where a copy restores what an open misses, nothing is lost: that is tried first.
        return others[:1] + lines + others[1:]
    return lines + ([] if lines and others == ["nothing"] else others)


def table_next(case):
    """What to do about a table that `objecttable` doesn't open."""
    table = case.table
    if case.refusal.startswith("NoQuorum") and any(one.table for _, one in cases_by_copy(case.file)):
        return [f"{PRINTS}, by the latest single copy of the superblock: compare what was acknowledged last (docs/OBJECTTABLE.md)"]
    if table is None or not (case.refusal or table.closed):
        return []
    lacking = ", and names what it can't read" if table.missing else ""
    lines = [f"{PRINTS}{lacking}; `objecttable NEW table < lines` over a new file NEW is then the way out (docs/OBJECTTABLE.md)"]
    if case.failing and not case.later:
        lines.insert(0, "copy this file, then `filemirror FILE COPY` restores the blocks that fail from any copy that shows them, and the table with "
                        "them (docs/OPERATING.md, \"Mending from a copy\"); check the device")
    return lines


def table_title(table):
    """What the picture says of it."""
    return f"a table of {counted(len(table.rows), 'row')}, {changes(table)} in the ring alone"
