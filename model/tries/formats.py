"""Tries of words and of `format`: which lists of words have a meaning, and what it makes of which file."""

import os
import time
from typing import Optional

from . import copies, form, generate, script, superblock
from .binary import expect, require
from .common import Try, asked, reopen, same_bytes, same_run, session
from .form import COPIES, LIMITS, SECTOR
from .knows import knows
from .stops import Kept, stop
from .words import command

# A file that is made in a longer time, or that takes more bytes on its disk, isn't made by a few writes.
QUICK_SECONDS, SPARSE_BYTES = 10, 2**20


def layout_word(t: Try) -> str:
    """A word for a layout: right, over an edge, or misspelled."""
    random = t.random
    if random.random() < 0.3:
        return random.choice(("small", "large", generate.layout(random).word()))
    if random.random() < 0.3:
        return random.choice(("small", "large", "Small", "small ", "", "-", "smal", "small,", "run", "format", "7"))
    numbers = list(map(str, generate.layout(random)))
    for _ in range(random.choice((0, 1, 1, 2))):
        place = random.randrange(5)
        low, high, step = list(LIMITS.values())[place]
        numbers[place] = random.choice((
            *map(str, (low - step, low - 1, low, low + 1, low + step, high - step, high - 1, high, high + 1, high + step)),
            "0", str(2**32), str(2**32 + low), str(2**64), str(2**64 + low), str(2**128 + low), "9" * 60, f"0{low}",
            f"+{low}", f"-{low}", f" {low}", f"{low} ", "", "x", f"{low}.0", "\u0661\u0666", hex(low), f"{low}_0",
        ))
    if random.random() < 0.15:
        numbers = random.choice((numbers[:4], numbers + ["8"], numbers[:1], numbers + [""], [""] + numbers))
    return random.choice((",", ",", ",", ",", ",", ",", ",", ";", ", ", ",,")).join(numbers)


def cluster_word(t: Try) -> str:
    """A word for a cluster: right, over an edge, or misspelled."""
    if t.random.random() < 0.6:
        return str(generate.cluster(t.random) if t.random.random() < 0.85 else 0)
    return t.random.choice((
        "0", "1", "7", str(2**64), str(2**127), str(2**128 - 1), str(2**128), str(2**128 + 7), str(10**39), "9" * 60, "00",
        "07", "007", "+7", "-7", "-0", " 7", "7 ", "7\n", "", "-", "x", "0x7", "7.0", "7e1", "7_0", "\u0667", "\u00b2", "\uff17",
    ))


def list_of_words(t: Try) -> list:
    """A list of words, with or without a meaning; some aren't UTF-8."""
    random = t.random
    if random.random() < 0.7:
        words = ["format", layout_word(t), cluster_word(t)]
        change = random.random()
        if change < 0.05:
            words.insert(random.randint(0, 3), random.choice(("", "run", "7", "-", "--", "format")))
        elif change < 0.1:
            del words[random.randrange(3)]
        elif change < 0.13:
            words[0] = random.choice(("Format", "format ", "formatt", "--format", ""))
        elif change < 0.16:
            words[random.randrange(3)] = random.choice((b"\xff", b"run\xc3", b"small\xff", b"7\x80"))
        return words
    if random.random() < 0.4:
        # A word that stands alone, or a workload of few commands; most often with a meaning.
        count = random.choice(("1", "2", "20", "0", "01", "1000001", "9" * 40, "-", "", "x", "\u0661"))
        listed = random.choice((["recover"], ["inspect"], ["scrub"], ["upgrade"], ["workload", cluster_word(t), count]))
        return listed + ["-"] if random.random() < 0.1 else listed
    choices = ("", "run", "RUN", "Run", "run ", " run", "runn", "ru", "-", "--", "--run", "-h", "--help", "format", "0",
               "small", "recover", "inspect", "scrub", "upgrade", "workload", b"\xff", b"run\xc3")
    return [random.choice(choices) for _ in range(random.randint(0, 4))]


def file_for(t: Try, blank: float = 0.6) -> Optional[bytes]:
    """What `format` finds: no file, a blank one, or one with something in it."""
    random = t.random
    if random.random() < blank:
        return random.choice((None, None, b"", bytes(random.choice((1, SECTOR, COPIES * SECTOR, 100000))), wiped(t)))
    return random.choice((generate.image(random, 3), dirty(t), cut(t), stopped(t)))


def wiped(t: Try) -> bytes:
    """A file whose copies are blank, with whatever stands after them: a ring is there again once it is formatted."""
    return bytes(COPIES * SECTOR) + generate.image(t.random, 8)[COPIES * SECTOR :]


def dirty(t: Try) -> bytes:
    """Zeros with one byte among them, which is often just within the copies or just after them."""
    end = COPIES * SECTOR
    data = bytearray(t.random.choice((end, end + SECTOR, 100000)))
    at = t.random.choice((0, SECTOR - 1, SECTOR, end - 1, end, t.random.randrange(end), t.random.randrange(len(data))))
    data[min(at, len(data) - 1)] = t.random.randint(1, 255)
    return bytes(data)


def cut(t: Try) -> bytes:
    """A file that ends within its copies, or just after them."""
    data = generate.image(t.random, 3)
    return data[: t.random.choice((t.random.randrange(COPIES * SECTOR + 1), t.random.randrange(300) + SECTOR))]


def stopped(t: Try) -> bytes:
    """What a stop within `format` leaves."""
    made = script.make(None, generate.home(t.random))
    return stop(t, b"", made.events, t.random.randint(1, len(made.events) - 1))


def words(t: Try) -> None:
    """Lists of words: with a meaning, it is done; without one the usage line, status 2, and nothing is touched."""
    given = list_of_words(t)
    data = file_for(t) if t.random.random() < 0.5 else None
    t.binary.put(data)
    source = os.path.join(t.binary.folder, "input")
    with open(source, "wb") as file:
        file.write(b"append 1 1 -\n")
    wanted = command(data, given, b"append 1 1 -\n")
    with open(source, "rb", buffering=0) as stdin:
        path = None
        if t.random.random() < 0.05:
            wanted = command(data, [])
            got = t.binary.call([t.binary.program], None, None, {"stdin": stdin})
        elif t.random.random() < 0.05:
            path = os.path.join(t.binary.folder.encode(), b"\xfe")
            wanted = command(data, [path])
            got = t.binary.run(None, words=given, path=path, stdin=stdin)
            require("words: no file at a path that isn't UTF-8", not os.path.exists(path))
        else:
            got = t.binary.run(None, words=given, stdin=stdin)
        read = stdin.seek(0, os.SEEK_CUR)
    same_run(f"words {given}", wanted, got)
    same_bytes(f"words {given}", wanted.data, t.binary.get())
    opened = wanted.status in (script.DONE, script.SCRIPT) and given == ["run"]
    require(f"words {given}: standard input is read where a script is executed alone", opened or read == 0)
    first = given[0] if given else ""
    t.counts["lists of words without a meaning" if wanted.status == script.WORDS else f"words of a meaning: {first}"] += 1


def formats(t: Try) -> None:
    """`format` over files of all sorts; then sessions over what it made, and `format` once more."""
    home = generate.home(t.random)
    given = ["format", home.layout.word(), str(home.cluster)]
    if home.layout == form.SMALL and t.random.random() < 0.5:
        given[1] = "small"
    data = file_for(t, 0.7)
    t.binary.put(data)
    made = asked(t, "format", data, given)
    t.counts[f"files of format: {made.text.split()[0].decode()}"] += 1
    data = session(t, "after format", made.data, generate.any_script(t.random, made.data)).data
    if t.random.random() < 0.5:
        asked(t, "format again", data, given)
    session(t, "the open at last", data, generate.good_script(t.random, data, 3))


def format_stopped(t: Try) -> None:
    """A stop after each event of `format`: `run` opens or refuses as the copies say, and so does `format`."""
    home = generate.home(t.random)
    given = ["format", home.layout.word(), str(home.cluster)]
    made = script.make(None, home)
    for upto in range(1, len(made.events) + 1):
        data = stop(t, b"", made.events, upto)
        t.binary.put(data)
        first = t.random.choice((given, ["run"]))
        data = asked(t, f"after {upto} events of format", data, first, b"append 1 1 -\n").data
        # The header sectors and their sync come first.
        headers = home.layout.slots // form.HEADERS + 1
        chosen = superblock.opened(data).content
        # What was opened in between has a boot.
        bare = chosen and chosen._replace(boot=0)
        expect("two synced copies are the file", superblock.first(home) if upto > headers + 3 else bare, bare)
        asked(t, f"after {upto} events of format, then {first[0]}", data, t.random.choice((given, ["run"])), b"append 2 2 -")
    t.counts["formats stopped after each event"] += 1


def large(t: Try) -> None:
    """The layout `large`: its file is made quickly and takes little of the disk, and appends go to their places."""
    t.binary.put(None)
    start = time.monotonic()
    cluster = generate.cluster(t.random)
    data = asked(t, "format large", None, ["format", "large", str(cluster)]).data
    require("format large takes a moment", time.monotonic() - start < QUICK_SECONDS)
    require("a file of large is sparse", os.stat(t.binary.path).st_blocks * 512 < SPARSE_BYTES)
    sizes = (0, 1, 3840, 3841, 65536, form.LARGE.body_max() - 1, form.LARGE.body_max(), form.LARGE.body_max() + 1)
    client = 0
    for number in range(t.random.randint(1, 3)):
        listed = []
        for _ in range(t.random.randint(0, 2)):
            client += 1
            body = t.random.randbytes(t.random.choice(sizes)).hex().encode() or b"-"
            listed += [b"append %d 1 %s" % (client, body), b"lookup %d" % client, b"prepare %d" % (client - 1)]
        if t.random.random() < 0.4:
            data = copies.hurt(t.random, data)
            t.binary.put(data)
        data = session(t, f"session {number + 1} over large", data, generate.text_of(t.random, listed)).data
    kept = Kept(data)
    # A stop within one more append; each of its sectors as the stop chooses.
    more = script.run(data, b"append 77 1 " + b"5a" * t.random.choice((3840, 20000, form.LARGE.body_max())))
    upto = t.random.randint(0, len(more.events))
    kept.takes(more, upto)
    data = stop(t, data, more.events, upto)
    kept.after(t, data)
    t.binary.put(data)
    data = reopen(t, "large after a stop", kept.views, data)
    large_replies(t, data)
    t.counts["files of large"] += 1


def large_replies(t: Try, data: bytes) -> None:
    """Replies in the layout `large`, which stand a gigabyte after the file's begin: their bytes, and what is read of them."""
    m = generate.machine_of(data)
    listed = [b"reply %d %s" % (op, t.random.randbytes(t.random.choice((1, 3841, 70000))).hex().encode())
              for op in range(m.replies + 1, m.head() + 1)]
    asked_for = b"".join(b"lookup %d\n" % one.client for one in m.sessions)
    wanted = script.run(data, b"".join(line + b"\n" for line in listed) + asked_for)
    same_run("replies in large", wanted, t.binary.run(b"".join(line + b"\n" for line in listed) + asked_for))
    with open(t.binary.path, "rb", buffering=0) as file:
        for event in wanted.events:
            if event.kind == "write":
                expect("a write in large", event.data, os.pread(file.fileno(), len(event.data), event.at))
    again = t.binary.run(asked_for)
    printed = script.answers([event for event in wanted.events if event.kind == "answer"][len(listed) :])
    expect("replies in large, read by another run", (0, printed), (again.status, again.text))
    require("a file of large stays sparse", os.stat(t.binary.path).st_blocks * 512 < 64 * SPARSE_BYTES)
    t.counts["replies in large"] += len(listed)
    if knows("blocks"):
        large_blocks(t)


def large_blocks(t: Try) -> None:
    """Blocks and a checkpoint in the layout `large`, read again by another run."""
    blocks = [t.random.randbytes(t.random.choice((0, 1, 3841, form.LARGE.block_max()))) for _ in range(3)]
    lines = b"".join(b"block %d %s\n" % (at, one.hex().encode() or b"-") for at, one in enumerate(blocks, 1))
    got = t.binary.run(lines + b"release 2\ncheckpoint 07\nstep\nstep\n")
    told = b"wrote 1\nwrote 2\nwrote 3\nreleased 2\nbegun 1\nworking 1\ndone 2\n"
    expect("blocks in large", (0, told), (got.status, got.text))
    printed = [b"block %d kind %d body %s\n" % (at, at, blocks[at - 1].hex().encode() or b"-") for at in (1, 3)]
    again = t.binary.run(b"read 1\nread 2\nread 3\nblock 9 -\n")
    # The trailer took the address that was released.
    wanted = printed[0] + b"refused NotLive\n" + printed[1] + b"wrote 4\n"
    expect("blocks in large, read by another run", (0, wanted), (again.status, again.text))
    require("a file of large with blocks stays sparse", os.stat(t.binary.path).st_blocks * 512 < 64 * SPARSE_BYTES)
    t.counts["blocks in large"] += 3


KINDS = {"words": (words, 8), "formats": (formats, 8), "format_stopped": (format_stopped, 3), "large": (large, 1)}
