"""One run over one file whose calls are looked at: what the model has, and the calls where nothing fails."""

from typing import Optional

from . import copies, form, generate, script, superblock
from .binary import Call, expect
from .common import Try, named, on_file, reopen, same_bytes, same_run
from .form import COPIES, SECTOR
from .knows import knows
from .words import command


def other_words(t: Try) -> list:
    """Words that open a file and execute no script."""
    more = ("scrub", "scrub", "workload", "workload") if knows("all") else ()
    word = t.random.choice(("recover", "inspect", *more))
    seed = t.random.choice((0, 1, 42, 2**31, 2**64 - 1, t.random.getrandbits(64)))
    count = t.random.choice((1, 2, 3, 8, 17, 33, t.random.randint(1, 60)))
    return [word, str(seed), str(count)] if word == "workload" else [word]


def paced_words(t: Try) -> list:
    """The word `paced` with a pace: most often with a begin now and then, and few pieces after each line."""
    numbers = [t.random.choice((0, 1, 1, 2, 3, 8, 64)) for _ in range(3)]
    return ["paced", *map(str, numbers)]


def words_for(t: Try) -> list:
    """The words `run` or `paced`, less often others that open a file, or `format`."""
    what = t.random.random()
    if what < 0.8:
        if what >= 0.6 and knows("all"):
            return paced_words(t)
        return other_words(t) if what < 0.2 and knows("reports") else ["run"]
    home = generate.home(t.random)
    cluster = 0 if t.random.random() < 0.05 else home.cluster
    return ["format", home.layout.word(), str(cluster)]


def file_for(t: Try, words: list, most: int) -> Optional[bytes]:
    """A file for these words: most often one with which they are carried out."""
    random = t.random
    usual = random.random() < 0.9
    if (words[0] != "format") == usual:
        data = generate.image(random, most, hurt=0.4)
        if random.random() < 0.9:
            return data
        content = copies.odd(random, superblock.first(generate.home_of(data)))
        return copies.forged(random, data, [content])
    blank = (None, None, b"", bytes(SECTOR * COPIES), bytes(100000))
    other = script.fresh(generate.home(random))[: random.randrange(SECTOR * COPIES)]
    return random.choice(blank) if random.random() < 0.9 else other


class Plan:
    """A run, and the calls that it makes."""

    def __init__(self, t: Try, most: int = 20, data: Optional[bytes] = None):
        self.words = words_for(t)
        self.data = file_for(t, self.words, most) if data is None else data
        make = generate.any_script if t.random.random() < 0.3 else generate.good_script
        self.text = make(t.random, self.data)
        self.wanted = command(self.data, self.words, self.text)
        t.binary.put(self.data)
        got, calls = t.binary.trace(self.text, words=self.words)
        same_run("the run under strace", self.wanted, got)
        same_bytes("the run under strace", self.wanted.data, t.binary.get())
        self.all = calls
        self.calls, self.fd = on_file(t, calls)

    def again(self, t: Try, rules, before=None):
        """The same run with these injections."""
        return self.traced(t, rules, before)[0]

    def traced(self, t: Try, rules, before=None) -> tuple:
        """The same, and its calls."""
        t.binary.put(self.data)
        return t.binary.trace(self.text, rules, before, self.words)

    def ends(self, t: Try, what: str, got, upto: int, status: int, printed: Optional[bytes] = None) -> bytes:
        """The run ended with this status after the first `upto` events, and the file opens with what was answered."""
        expect(f"{what}: status", status, got.status)
        expect(f"{what}: text", script.answers(self.wanted.events[:upto]) if printed is None else printed, got.text)
        data = script.state(self.data or b"", self.wanted.events[:upto])
        same_bytes(what, data, t.binary.get() or b"")
        t.counts[f"{self.words[0]}: {what}"] += 1
        self.keeps(what, data)
        return reopen(t, what, self.wanted.kept(upto), t.binary.get())

    def torn(self, t: Try, what: str, image: bytes, upto: int) -> bytes:
        """A stop left this image, in which writes that weren't synced are torn: it opens with what was answered."""
        t.binary.put(image)
        self.keeps(what, image)
        return reopen(t, f"{what}, then a stop", self.wanted.kept(upto), image)

    def keeps(self, what: str, image: bytes) -> None:
        """What finishes no checkpoint doesn't change the checkpoint that the copies choose, and raises the boot by one at most."""
        finishes = knows("blocks") and self.wanted.spans and self.words[0] in ("run", "paced", "workload")
        if self.words[0] != "format" and not finishes:
            before, after = (superblock.opened(data or b"").content for data in (self.data, image))
            raised = after._replace(boot=after.boot - 1) if before and after and after.boot > before.boot else after
            bare = [one and one.recording(superblock.Recorded(one.boot)) for one in (before, raised)]
            expect(f"{what}: the superblock's checkpoint, and its boot", *bare)


def before(plan: Plan, place: Call) -> tuple:
    """How many events are done before a call, and what is printed then. An answer may be printed in pieces."""
    calls = plan.calls[: plan.calls.index(place)]
    changes = sum(len(named(calls, name, plan.fd)) for name in ("pwrite64", "fdatasync"))
    length = sum(call.result for call in named(calls, "write", 1))
    upto = printed = 0
    for event in plan.wanted.events:
        if event.kind == "answer":
            printed += len(event.data)
            if printed > length:
                break
        else:
            changes -= 1
            if changes < 0:
                break
        upto += 1
    return upto, plan.wanted.text[:length]


def events_of(calls: list, fd: Optional[int]) -> list:
    """The writes, syncs and answers that a run did, in order, with their offsets and lengths."""
    seen = []
    for call in calls:
        if call.result < 0:
            continue
        if call.name == "pwrite64" and call.fd == fd:
            seen.append(("write", int(call.args[-1]), int(call.args[-2])))
        elif call.name in ("fdatasync", "fsync") and call.fd == fd:
            seen.append(("sync", 0, 0))
        elif call.name == "write" and call.fd == 1:
            seen.append(("answer", 0, call.result))
    return together(seen)


def together(seen: list) -> list:
    """Events with answers that follow one another put together, since a long one may be printed in pieces."""
    listed: list = []
    for kind, at, length in seen:
        if kind == "answer" and listed and listed[-1][0] == "answer":
            length += listed.pop()[2]
        listed.append((kind, at, length))
    return listed


def reads_of(calls: list, fd: Optional[int], layout: form.Layout) -> tuple:
    """The sectors of copies that a list of calls reads, and the offsets of the header sectors and slots that it reads."""
    sectors, others, end = [], [], None
    for call in named(calls, "pread64", fd):
        at, length = int(call.args[-1]), int(call.args[-2])
        goes_on, end = at == end, at + call.result if call.result < length else None
        if goes_on:
            # The rest of a read that met the end of the file.
            continue
        in_grid = layout.grid() <= at and at + length <= SECTOR * layout.sectors()
        inside = at % SECTOR == 0 == length % SECTOR and (in_grid or at + length <= layout.replies_end())
        if at < SECTOR * COPIES:
            sectors += range(at // SECTOR, (at + length) // SECTOR)
            inside = inside and at + length <= SECTOR * COPIES
        else:
            others.append(at)
            start = layout.header_sector(0)
            inside = inside and (at + length <= layout.first() or at >= layout.first())
            start_of, size = (layout.grid(), layout.block_size) if in_grid else (layout.first(), layout.message_size)
            whole = at < layout.first() or (at - start_of) % size == 0 and length <= size
            inside = inside and at >= start and whole
        expect(f"a read of {length} bytes at {at} is whole sectors of copies, headers, one slot or block", True, inside)
    return sectors, others


def every_slot(layout: form.Layout) -> list:
    """The offsets of all that an open reads after the copies: header sectors, prepares, replies."""
    headers = range(layout.header_sector(0), layout.first(), SECTOR)
    return [*headers, *range(layout.first(), layout.replies_end(), layout.message_size)]
