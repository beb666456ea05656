"""The doctor's advice: what to do with a file that an open refuses, by what stands in it."""

from doctor_case import UNKNOWN, cases_by_copy, looks
from reader import is_own, later_of
from reader_units import HEADER, SECTOR, bytes_at, header_of, zones_of

CHECK = "check the device, and that one process at a time uses the file"
FROM_COPY = f"take the file from a copy, and {CHECK}"
PROGRAM = "use the program that made the file"
OLD = "an earlier program made it: end that program, copy the file, and then `datafile FILE upgrade`, once (docs/OPERATING.md, \"Old files\")"
STRANGE = ("the superblock is another file's, or something else stood in this file before it was made: keep it as it is, run no `filemirror` and no word "
           "but `inspect` over it, and take it whole from its newest copy; if a `filecopy` or a `format` made it, remove it, and make it again "
           "(docs/OPERATING.md, \"An older superblock\")")
# What a sector of headers is called where the sectors are looked at.
HEADERS = "sectors of headers"


def refused_next(case):
    """What to do with a file that is refused for these words, a line for each step."""
    words = case.refusal.split()
    listed = {
        "NotFormatted": lambda: blank_next(case.file), "NoQuorum": lambda: split_next(case), "Damaged": lambda: damaged_next(case, words),
        "Version": lambda: [OLD if words[2] == "1" else PROGRAM], "BadField": lambda: [f"{PROGRAM}; if it is this one, {FROM_COPY}"], "BootSpent": lambda: [FROM_COPY],
    }
    return listed[words[0]]()


def blank_next(file):
    """What to do with a file whose first four sectors are zeros: a new file is one in which nothing else stands either."""
    names = [name for _, _, name, _ in looks(file, file.sectors())]
    if not names:
        return ["name the right file; or, if this is the one that is meant, `format` it: it holds only zeros"]
    if all(name.startswith(HEADERS) for name in names) and not has_prepares(file):
        return ["a `format`, or a `filecopy`, was stopped before its first copy of the superblock, and nothing but empty headers stands "
                "here: remove it, and make it again"]
    if set(names) == {UNKNOWN}:
        return ["no `format` here, and no `filecopy` to it: it isn't a data file, and both would write over what is in it. Name another path"]
    return ["no `format` here, and no `filecopy` to it: zeros in the first four sectors don't make it a new file, and what stands after "
            "them may be found again. If it is what a stopped or refused `filecopy` left, or is to be a new file: remove it first",
            f"if it was in use, its superblock is gone, and with it what the rest means: keep it, and {FROM_COPY}"]


def has_prepares(file):
    """Whether a header of a prepare stands in some sector of headers."""
    return any(file[at : at + 1] == b"\2" for sector in file.sectors() for at in range(SECTOR * sector + 120, SECTOR * (sector + 1), 256))


def split_next(case):
    """What to do where no two copies agree."""
    alone = [(place, one) for place, one in cases_by_copy(case.file) if not one.refusal]
    lines = ["if the file was never used, a `format` or a `filecopy` was stopped at its first copy: remove it, and make it again. Otherwise "
             + FROM_COPY]
    if alone:
        lines.append(f"if the line on the copy in sector {alone[0][0]} says what was acknowledged last, that copy may be written over another one of "
                     "the four, in a copy of this file, and nothing is lost (docs/OPERATING.md, \"Three copies hurt\")")
    return lines


def strange_next(case):
    """What to do where the superblock is another file's: a copy of this file's own may still stand beside it."""
    cluster = case.strange[0]
    own = [(place, one) for place, one in cases_by_copy(case.file) if not one.refusal and one.fields["Cluster"] == cluster]
    if not own:
        return [STRANGE]
    place, one = own[0]
    return [STRANGE, f"if no copy of the file is as new: the copy in sector {place} is this file's own, of cluster {cluster}, and an open by it finds head "
                     f"{one.state['head']} and {one.state['stored']} replies. In a copy of this file write it over each copy of the other one "
                     "(docs/OPERATING.md, \"Three copies hurt\"), and run the doctor over that"]


def damaged_next(case, words):
    """What to do where a place is damaged."""
    zone, index = words[1], int(words[2])
    if case.strange:
        return strange_next(case)
    if zone == "Superblock" or case.later or newer_reply(case, zone, index):
        return ["no `filemirror` here: by the older superblock it writes older replies over newer ones. Keep the file as it is, and take it "
                "whole from its newest copy, never parts of one",
                "if it was made by a `filecopy` or a `format`, something else stood in it before: remove it, and make it again",
                CHECK + ": a later superblock that was lost, and two processes at once, leave the same"]
    if cut_lines(case.file, case.fields, zone, index):
        return [f"the file was cut: take it whole from a copy that is as new, and {CHECK}",
                "if there is none, copy this file, and `filemirror FILE COPY` restores from any copy what the superblock names here; what was appended or "
                "answered after the last open and the last checkpoint, and stood after the end, is then gone without a trace"]
    if is_named(case, zone, index):
        return ["what belongs here is known by its checksum: copy this file, then `filemirror FILE COPY` restores it from any copy that "
                "shows it, and keeps everything that is newer here (docs/OPERATING.md, \"Mending from a copy\")",
                f"if no copy shows it, this file lacks what was acknowledged: take the whole file from a copy, and {CHECK}"]
    return [f"what was acknowledged isn't all there, and `filemirror` doesn't know what belongs here, which came after the last open and the last "
            f"checkpoint: {FROM_COPY}"]


def is_named(case, zone, index):
    """Whether the superblock, or a unit that it names, has the checksum of what is wanted at a place that an open names as damaged, so
    that `filemirror` mends it."""
    state, f = case.state, case.fields
    if zone == "Grid":
        return True
    if zone == "WalPrepares":
        # Above the superblock's head nothing names a prepare; up to it a prepare that is shown as named, and doesn't fit, was made so.
        return "head" not in state and isinstance(state["prepares"][index], str)
    client, last = list(state["sessions"].items())[index]
    went_on = [one["op"] > f["Replies"] for one in state["places"][index : index + 1] if is_own(one, f)]
    went_on += [one["op"] > f["Pin"] and one["client"] == client for one in state["prepares"] if is_own(one, f)]
    return last["op"] <= f["Replies"] and not any(went_on)


def newer_reply(case, zone, index):
    """The reply of a later op that stands where an earlier one is wanted; None where none does. The superblock is older then, or of another life of the
    file, though its boot was raised since."""
    if zone != "ClientReplies":
        return None
    one, (client, last) = case.state["places"][index], list(case.state["sessions"].items())[index]
    return one if not isinstance(one, str) and one["client"] == client and one["op"] > last["op"] else None


def cut_lines(file, f, zone, index):
    """Where a place that is wanted lies after the end of the file, that the file was cut."""
    at = zones_of(f)[zone].at(index)
    return [] if at < file.size else [f"the file ends at byte {file.size}, before this place: it was cut, or its copy ended early"]


def rolled_lines(case):
    """By how much the superblock is older than what stands in the file; nothing where nothing says that it is."""
    state, f = case.state, case.fields
    units = [one for ring in ("headers", "prepares", "places") for one in state.get(ring, []) if not isinstance(one, str)]
    grid = zones_of(f)["Grid"]
    units += [header_of(bytes_at(case.file, grid.at(address), HEADER))[0] for address in case.later]
    later = [*(later_of(state) if "places" in state else []), *(("Grid", address) for address in case.later)]
    if not later:
        return []
    boot, checkpoint = max(one["boot"] for one in units), max(one["checkpoint"] for one in units)
    return [f"the superblock is older than the file: it is of boot {f['Boot']} and sequence {f['Sequence']}, and units up to boot {boot} and "
            f"sequence {checkpoint} stand here. It was restored from an older copy, or later ones were lost; or what stands here is of another life of "
            "the file",
            f"{len(later)} places were written under a later superblock, or are above the ring after its checkpoint's op {f['Op']}"]
