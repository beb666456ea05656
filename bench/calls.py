"""What each line of a script asks of the device, counted by strace: writes, syncs, reads, bytes, and takes of memory.

The calls are compared with the model's: each write at its place and of its length, each sync and each answer in the model's order.
"""

import os
import tempfile
from collections import defaultdict

from common import CLUSTER, Ground, appends, begin, blocks, digits, done, join, most_blocks, sectors_of, show, trailer_of, working
from tries import form, script
from tries.binary import Binary, expect, has_strace
from tries.form import SECTOR
from tries.knows import knows
from tries.words import layout_of

MEMORY = ("brk", "mmap")
EVENT_OF_CALL = {"pwrite64": "write", "fdatasync": "sync", "write": "answer"}
SIZES = {"small": (0, 128, 3840, 7936), "large": (65280, 1048320)}
BLOCKS = {"small": (0, 128, 3840, 16128), "large": (65280, 524032)}
# How many prepares a group has, and the bodies of groups.
GROUPS = {"small": (4, (128, 7936)), "large": (8, (128, 65280))}
HEAD = ["line", "body", "writes", "syncs", "reads of the file", "bytes written", "sectors that no unit covers, in all", "takes of memory, in all"]
# The lines in the table's order, and those that have no body.
ORDER = ("`append`", "`stage`", "`flush`", "`reply`", "`block`", "`step`, answered `working`", "`step`, the last", "`checkpoint`", "`release`",
         "`prepare`", "`read`", "`scrub`", "`lookup`")
BARE = ORDER[5:]


def parts_of(bench, word: str) -> list:
    """Scripts that together have each line, each for a file of its own."""
    layout, random = layout_of(word), bench.random
    count = min(32, layout.slots)
    parts = [appends(random, range(1, count + 1), size, replies=min(size, 128)).lines for size in SIZES[word]]
    for size in BLOCKS[word]:
        number = min(16, most_blocks(layout, 0))
        trailer = trailer_of(layout, 0, number)
        reads = b"".join(b"read %d\n" % address for address in range(1, number + 1)) + b"scrub\n" * number
        parts.append(join(blocks(random, number, size), begin(trailer), working(trailer), done()).lines + reads + b"release 1\n")
    body = digits(random.randbytes(128))
    parts.append(b"append 1 1 %s\nreply 1 %s\nprepare 1\nlookup 1\n" % (body, body))
    return parts + ([groups(random, *GROUPS[word])] if knows("groups") else [])


def groups(random, count: int, sizes: tuple) -> bytes:
    """Two groups of each size, one after the other, with their replies."""
    lines = [b"prepare 0\n"]
    for group, size in enumerate(size for size in sizes for _ in range(2)):
        ops = range(group * count + 1, group * count + count + 1)
        lines += [b"stage %d %d %s\n" % (op - group * count, group + 1, digits(random.randbytes(size))) for op in ops]
        lines += [b"flush\n", *(b"reply %d -\n" % op for op in ops)]
    return b"".join(lines)


def uncovered(layout: form.Layout, event) -> int:
    """The sectors of a write that neither a unit, sixteen headers nor a copy of the superblock covers."""
    if event.at < layout.first():
        return len(event.data) // SECTOR - 1
    size = int.from_bytes(event.data[112:116], "little")
    return (len(event.data) - sectors_of(size - form.HEADER)) // SECTOR


def body_of(line: bytes) -> int:
    """The bytes of a line's body."""
    word, *rest = line.split()
    return len(rest[-1]) // 2 if word in (b"append", b"stage", b"reply", b"block", b"checkpoint") else 0


def kind_of(layout: form.Layout, line: bytes, before: bytes, answer: bytes, calls: list) -> tuple:
    """The words of a row: what the line is, and the bytes of its body; of a flush those of the line before, which staged the last one."""
    word = line.split()[0].decode()
    if word == "step":
        return ("`step`, answered `working`" if answer.startswith(b"working") else "`step`, the last"), 0
    if word == "flush":
        sectors = sum(int(call.args[-1]) < layout.first() for call in named(calls, "pwrite64"))
        return f"`flush` of {int(answer.split()[1])}" + (", over two sectors of headers" if sectors == 2 else ""), body_of(before)
    return f"`{word}`", body_of(line)


def lines_of(calls: list, answers: list) -> list:
    """The calls of each line: those up to the end of its answer, which may be written in parts. What comes after goes with the last."""
    found, now, written = [], [], 0
    for call in calls:
        now.append(call)
        written += call.result if call.name == "write" else 0
        if len(found) < len(answers) and written == len(answers[len(found)]):
            found.append(now)
            now, written = [], 0
    found[-1] += now
    return found


def in_order(calls: list) -> list:
    """Whether each is a write, a sync or a part of an answer; the parts of one answer count as one."""
    return [EVENT_OF_CALL[call.name] for call in calls if call.name in EVENT_OF_CALL]


def traced(bench, ground: Ground, word: str, text: bytes) -> list:
    """The events and the calls of each line of a script."""
    layout, binary = layout_of(word), Binary(bench.program, ground.folder)
    binary.put(script.make(None, form.Home(layout, CLUSTER)).data)
    wanted, (result, calls) = script.run(binary.get(), text), binary.trace(text)
    expect("the answers", wanted.text, result.text)
    calls = calls[next(at for at, call in enumerate(calls) if call.name == "read" and call.fd == 0) :]
    lines = lines_of(calls, wanted.text.splitlines(keepends=True))
    # The model's first events are those of the open: the barrier, and the four copies of its boot update, each with a sync.
    events = wanted.events[1 + 2 * form.COPIES :]
    wants = [event.kind for event in events if event.kind != "answer"]
    expect("writes and syncs in their order", wants, [kind for kind in in_order(calls) if kind != "answer"])
    before = [[kind for kind in in_order(line) if kind != "answer"] + ["answer"] for line in lines]
    expect("each answer after its own", [event.kind for event in events], [kind for line in before for kind in line])
    writes = [event for event in events if event.kind == "write"]
    made = [call for call in calls if call.name == "pwrite64"]
    expect("the writes", [(len(event.data), event.at) for event in writes], [tuple(map(int, call.args[-2:])) for call in made])
    lost = {id(call): uncovered(layout, event) for event, call in zip(writes, made)}
    asked = text.splitlines()
    rows = zip(asked, [b"", *asked], result.text.splitlines(), lines)
    return [(kind_of(layout, line, before, answer, mine), mine, sum(lost.get(id(call), 0) for call in mine))
            for line, before, answer, mine in rows]


def named(calls: list, *names: str) -> list:
    return [call for call in calls if call.name in names]


def cells_of(lines: list) -> tuple:
    """What a row says of lines of one kind. `lines` has for each its calls and the sectors that no unit covers."""
    calls, count = [call for mine, _ in lines for call in mine], len(lines)
    writes = named(calls, "pwrite64")

    def each(number: int) -> str:
        return f"{number / count:,.10g}"

    known = {"pwrite64", "fdatasync", "fsync", "pread64", "write", "read", *MEMORY}
    others = sorted({call.name for call in calls} - known - {"close"})
    expect("no other calls", [], others)
    return (each(len(writes)), each(len(named(calls, "fdatasync", "fsync"))), each(len(named(calls, "pread64"))),
            each(sum(int(call.args[-2]) for call in writes)), sum(lost for _, lost in lines), len(named(calls, *MEMORY)))


def place(word: str) -> tuple:
    """Where a line stands in the table."""
    return ORDER.index(word if word in ORDER else "`flush`"), word


def rows_of(seen: dict) -> list:
    """The table: bodies of which a line costs the same stand in one row, and so do lines without a body that cost the same. `seen` has the
    lines by layout, word and body."""
    alike: dict = defaultdict(lambda: defaultdict(set))
    for (layout, word, body), lines in seen.items():
        cells = cells_of(lines)
        alike[cells if word in BARE else word, cells][word].add((body, layout))
    rows = []
    for (_, cells), words in alike.items():
        listed, found = sorted(words, key=place), set.union(*words.values())
        large = " (`large`)" if all(layout == "large" for _, layout in found) else ""
        bodies = sorted({body for body, _ in found})
        first = [", ".join(listed) + large, "" if listed[0] in BARE else ", ".join(f"{body:,}" for body in bodies)]
        rows.append((place(listed[0]), large, bodies, [*first, *cells]))
    return [row for *_, row in sorted(rows)]


def show_calls(bench, folder: str) -> None:
    """The table, of both layouts."""
    if not has_strace():
        print("\nstrace isn't installed: the calls aren't counted")
        return
    seen = defaultdict(list)
    for layout in SIZES:
        with tempfile.TemporaryDirectory(dir=folder) as inner:
            ground = Ground("", os.path.realpath(inner), False)
            for text in parts_of(bench, layout):
                # The first line of each script isn't counted: it may take memory, of which later lines take none.
                for (word, body), mine, lost in traced(bench, ground, layout, text)[1:]:
                    seen[layout, word, body].append((mine, lost))
    show("Calls a line", HEAD, rows_of(seen), "counted by `strace`")
