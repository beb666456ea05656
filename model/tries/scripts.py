"""Tries of scripts: several sessions over one file, and input that comes in pieces through a pipe."""

import select
import time

from . import damage, form, generate, script
from .binary import expect, require
from .common import Try, asked, same_bytes, session
from .knows import knows
from .plan import paced_words


READS = ("prepare", "lookup", "read", "scrub")


def sessions(t: Try) -> None:
    """Sessions of good and bad lines over one file: text, status and every sector are the model's."""
    home = generate.home(t.random)
    data = generate.image(t.random, of=home) if t.random.random() < 0.4 else script.fresh(home)
    t.binary.put(data)
    for number in range(t.random.randint(1, 5)):
        made = generate.any_script if t.random.random() < 0.6 else generate.good_script
        data = session(t, f"session {number + 1}", data, made(t.random, data)).data


def paced(t: Try) -> None:
    """The same with work after each line: nothing is printed of it, and what it writes is in the file."""
    home = generate.home(t.random)
    data = generate.image(t.random, of=home) if t.random.random() < 0.4 else script.fresh(home)
    t.binary.put(data)
    for number in range(t.random.randint(1, 4)):
        made = generate.any_script if t.random.random() < 0.3 else generate.good_script
        words = paced_words(t)
        data = asked(t, f"session {number + 1}, {words}", data, words, made(t.random, data)).data
        t.counts["sessions with work beside them"] += 1


def one_line(t: Try) -> None:
    """A good line, then a bad or odd one, then a good one."""
    home = generate.home(t.random)
    m = generate.machine_of(script.fresh(home))
    listed = generate.script_of(t.random, m, t.random.randint(0, 3), 0)
    bad = generate.odd(t.random, home.layout) if t.random.random() < 0.7 else generate.mutated(t.random, m)
    listed += [bad, b"append 9 1 -"]
    t.binary.put(script.fresh(home))
    session(t, "one odd line", script.fresh(home), generate.text_of(t.random, listed))


def pieces(t: Try) -> None:
    """Input in small pieces through a pipe, with delays."""
    home = generate.home(t.random)
    data = generate.image(t.random, 20, home)
    t.binary.put(data)
    text = generate.any_script(t.random, data)
    wanted = script.run(data, text)
    process = t.binary.start()
    try:
        feed(t, process, text)
        process.stdin.close()
        process.stdin = None
        printed, errors = process.communicate(timeout=120)
    finally:
        process.kill()
    expect("pieces: standard error", b"", errors)
    expect("pieces: text", wanted.text, printed)
    expect("pieces: status", wanted.status, process.returncode)
    same_bytes("pieces", wanted.data, t.binary.get())
    t.counts["inputs in pieces"] += 1


def feed(t: Try, process, text: bytes) -> None:
    """Writes a text in up to 40 pieces. The program may end before it has read them all."""
    cuts = sorted(t.random.randint(0, len(text)) for _ in range(t.random.randint(0, 40)))
    for start, stop in zip([0] + cuts, cuts + [len(text)]):
        try:
            process.stdin.write(text[start:stop])
        except BrokenPipeError:
            return
        if t.random.random() < 0.3:
            time.sleep(t.random.random() * 0.005)


def answers_in_time(t: Try) -> None:
    """Each answer comes when its line is there, while the input stays open; and what it wrote is in the file then."""
    home = generate.home(t.random)
    data = script.fresh(home)
    t.binary.put(data)
    m, data = generate.opened_file(data)
    process = t.binary.start()
    try:
        for number in range(t.random.randint(1, min(34, 2 + 2**21 // home.layout.message_size))):
            line = generate.line_of(t.random, m, 0.15)
            events = m.line(script.parse(line, m.layout) or ("prepare", 0))
            text = script.answers(events)
            process.stdin.write(line + b"\n")
            expect(f"answer {number + 1}", text, awaited(process, text))
            data = script.state(data, events)
            same_bytes("at the answer", data, t.binary.get())
        process.stdin.close()
        process.stdin = None
        expect("the end of the input: status", 0, process.wait(60))
    finally:
        process.kill()
        process.communicate()
    t.counts["sessions with each answer awaited"] += 1


def awaited(process, wanted: bytes) -> bytes:
    """A process's output, awaited while its input is open; as long as it is what is wanted."""
    text = b""
    while len(text) < len(wanted) and wanted.startswith(text):
        require("an answer comes while the input is open", bool(select.select([process.stdout], [], [], 60)[0]))
        piece = process.stdout.read(65536)
        if not piece:
            break
        text += piece
    return text


def struck_within(t: Try) -> None:
    """Slots are struck between two lines of one session: what is read is the unit that was written, or it is damaged."""
    home = generate.home(t.random)
    data = generate.image(t.random, 20, home, 0)
    t.binary.put(data)
    process = t.binary.start()
    m, data = generate.opened_file(data)
    past = [data]
    try:
        # The first answer shows that the file has been read.
        process.stdin.write(b"prepare 0\n")
        first = script.answers(m.line(("prepare", 0)))
        expect("the first answer", first, awaited(process, first))
        for number in range(t.random.randint(2, 12)):
            line = generate.line_of(t.random, m, 0.05) if number % 2 else generate.reading(t.random, m)
            parsed = script.parse(line, home.layout)
            if parsed[0] in READS:
                data = bytearray(data)
                start = home.layout.end()
                if t.random.random() < 0.4 and len(data) > start:
                    # The replies of an earlier moment.
                    data[start:] = form.part(t.random.choice(past), start, len(data) - start)
                else:
                    damage.strike(t, data, home.layout, True)
                t.binary.overwrite(bytes(data))
                m.image = form.Image(bytes(data))
            events = m.line(parsed)
            process.stdin.write(line + b"\n")
            text = script.answers(events)
            expect(f"answer {number + 1} to {line[:60]!r}", text, awaited(process, text))
            data = script.state(bytes(data), events)
            past.append(data)
            same_bytes("at the answer", data, t.binary.get())
            t.counts["slots struck within a session" if text.startswith(b"refused Damaged") else "reads within a session"] += 1
        process.stdin.close()
        process.stdin = None
        expect("the end of the input: status", 0, process.wait(60))
    finally:
        process.kill()
        process.communicate()


def long_line(t: Try) -> None:
    """A line at its layout's bound, while the input stays open: one byte more ends the run."""
    home = generate.home(t.random)
    t.binary.put(script.fresh(home))
    more = t.random.randint(0, 2)
    first = b"append 3 1 05\n" * t.random.randint(0, 2)
    start = t.random.choice((b"append 1 1 ", b"", b"append "))
    line = start + bytes([t.random.choice((0x30, 0x20, 0x61, 0, 0xFF, 0x0D))]) * (home.layout.line_max() - len(start))
    process = t.binary.start()
    try:
        process.stdin.write(first + line)
        if more:
            process.stdin.write(b"0" * more)
        else:
            time.sleep(0.1)
            require("the run ends before a line at the bound does", process.poll() is None)
            process.stdin.write(t.random.choice((b"\n", b"0")))
        wanted = script.run(script.fresh(home), first + line + b"0")
        expect("a long line: status", 3, process.wait(60))
        expect("a long line: text", wanted.text, process.stdout.read())
        same_bytes("a long line", wanted.data, t.binary.get())
    finally:
        process.kill()
        process.communicate()
    t.counts["lines at the bound"] += 1


KINDS = {"sessions": (sessions, 10), **({"paced": (paced, 8)} if knows("all") else {}), "one_line": (one_line, 8), "pieces": (pieces, 4),
         "answers_in_time": (answers_in_time, 2), "struck_within": (struck_within, 3), "long_line": (long_line, 2)}
