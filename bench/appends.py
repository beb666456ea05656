"""What an append and its reply cost beyond their calls, by the size of the body, and of that the hashes and the digits.

Everything but the last column of parts is measured: the program, the same calls alone, the same hashes alone, the same digits alone.
"""

from typing import NamedTuple

from common import Bench, Ground, Script, appends, put, quartiles, sectors_of, show, with_quartiles
from tools import KERNEL, PARTS, copied, has_perf, has_valgrind, instructions, parts_of, samples
from tries.binary import Binary, expect, has_strace
from tries.form import Layout
from yardstick import SYNC, answered, decoded, plan, taken, unit, write

SIZES = (0, 128, 3840, 7936, 65280, 1048320)
# Of the bodies of one run at most this many bytes in all, and on a disk this many appends, since each takes three syncs.
BYTES, ON_DISK = 2**25, 32
# Of the bodies up to this one instructions are counted, each over this many appends.
COUNTED, COUNTS = 7936, 128
PROFILED = (128, 7936, 1048320)


class Case(NamedTuple):
    """Bodies of one size, on a file whose messages are just as large: how many, their lines, and the plans of the yardstick."""

    size: int
    layout: Layout
    count: int
    script: Script


def case_of(bench: Bench, ground: Ground, size: int) -> Case:
    message = sectors_of(size)
    slots = max(32, min(1024, BYTES // message) // 16 * 16)
    count = ON_DISK if ground.is_disk else slots
    return Case(size, Layout(slots, message, 4, 16384, 64), count, appends(bench.random, range(1, count + 1), size))


def traced(bench: Bench, ground: Ground, case: Case) -> list:
    """The calls of the appends and their replies, as strace saw them, from the first read of the script on."""
    binary = Binary(bench.program, ground.folder)
    binary.path = bench.make(ground, case.layout)
    result, calls = binary.trace(case.script.lines)
    expect("the answers", case.script.answers, result.text)
    return calls[next(at for at, call in enumerate(calls) if call.name == "read" and call.fd == 0) :]


def steps_of(calls: list) -> list:
    """The same calls for the yardstick: the writes and syncs of the file, the reads of the script, and the answers."""
    steps = []
    for call in calls:
        if call.name == "fdatasync":
            steps.append(SYNC)
        elif call.name == "pwrite64":
            length, at = map(int, call.args[-2:])
            steps.append(write(at, length))
        elif call.name == "read":
            steps.append(taken(int(call.args[-1])))
        elif call.name == "write":
            steps.append(answered(int(call.args[-1])))
    return steps


def hashes(case: Case) -> list:
    """Both hashes of each prepare and of each reply."""
    return case.count * [*unit(case.size), *unit(0)]


def plans(bench: Bench, ground: Ground, case: Case) -> None:
    """The yardstick's plans, and the files that have the script and the digits. These are read body by body, as the program reads them."""
    digits = case.count * [taken(2 * case.size)] if case.size else []
    steps = {
        "calls": steps_of(traced(bench, ground, case)), "hashes": hashes(case), "nothing": [], "reads": digits,
        "digits": [step for one in digits for step in (one, decoded(0, 2 * case.size))],
    }
    put(ground, "lines", case.script.lines)
    put(ground, "digits", (bench.random.randbytes(case.size).hex().encode() for _ in range(case.count)))
    for name, listed in steps.items():
        plan(ground, "plan-" + name, listed)


def runs_of(bench: Bench, ground: Ground, case: Case) -> dict:
    """What is run in each round."""
    def alone(name: str, script: str = "lines"):
        return lambda: bench.yardstick.run(ground, bench.make(ground, case.layout), "plan-" + name, ground.path(script))

    return {
        "program": lambda: bench.fill(ground, bench.make(ground, case.layout), [case.script]),
        "open": lambda: bench.fill(ground, bench.make(ground, case.layout), []),
        "calls": alone("calls"), "nothing": alone("nothing"), "hashes": alone("hashes"),
        "digits": alone("digits", "digits"), "reads": alone("reads", "digits"),
    }


def beyond(seen: dict, what: str, start: str, count: int, by: str = "processor") -> list:
    """Microseconds of each append in each round that one run took longer than another."""
    return [(getattr(one, by) - getattr(two, by)) / count * 1e6 for one, two in zip(seen[what], seen[start])]


def rows_of(bench: Bench, ground: Ground, size: int) -> tuple:
    """One row of the table of the processor's time, and one of that by the clock, which has what is beyond the calls, too."""
    case = case_of(bench, ground, size)
    plans(bench, ground, case)
    seen = bench.rounds_of(runs_of(bench, ground, case))
    whole, calls = beyond(seen, "program", "open", case.count), beyond(seen, "calls", "nothing", case.count)
    sums, hexadecimal = beyond(seen, "hashes", "nothing", case.count), beyond(seen, "digits", "reads", case.count)
    more = [one - two for one, two in zip(whole, calls)]
    rest = [one - two - three for one, two, three in zip(more, sums, hexadecimal)]
    cells = [f"{quartiles(values)[0]:,.1f}" for values in (whole, calls, sums, hexadecimal)]
    share = 100 * quartiles(rest)[0] / quartiles(whole)[0]
    spent = [size, *cells[:2], with_quartiles(more), *cells[2:], with_quartiles(rest), f"{share:.0f} %"]
    clock = [beyond(seen, one, two, case.count, "clock") for one, two in (("program", "open"), ("calls", "nothing"))]
    ratio = with_quartiles([one / two for one, two in zip(*clock)], 3)
    return spent, [size, *(f"{quartiles(values)[0]:,.0f}" for values in clock), ratio, with_quartiles(more), with_quartiles(rest)]


def show_instructions(bench: Bench, ground: Ground) -> None:
    """The instructions of short and long bodies outside the kernel, and what they are made of."""
    if not has_valgrind():
        print("\nvalgrind isn't installed: instructions aren't counted")
        return
    rows = []
    for size in (size for size in SIZES if size <= COUNTED):
        case = case_of(bench, ground, size)
        script = appends(bench.random, range(1, COUNTS + 1), size)
        command = [bench.program, bench.make(ground, case.layout), "run"]
        least = instructions(command)
        command[1] = bench.make(ground, case.layout)
        cells = parts_of(instructions(command, put(ground, "script", script.lines)), least, COUNTS)
        rows.append([size, *cells, f"{100 * cells[-2] / cells[0]:.0f} %"])
    show(f"Instructions of an append and its reply outside the kernel, on average of {COUNTS}",
         ["body", "program", *PARTS, "everything else", "most of that", "part of the program"], rows, "exact")


def moved(bench: Bench, ground: Ground, case: Case) -> int:
    """The bytes that are moved to the front of the buffer for lines: each read asks for what is free after those that it holds."""
    calls = traced(bench, ground, case)
    return sum(case.layout.line_max() + 1 - int(call.args[-1]) for call in calls if call.name == "read" and call.result)


def show_copies(bench: Bench, ground: Ground) -> None:
    """What is copied in memory for each byte of a body, besides what the system calls and the decoding of digits copy."""
    if not (has_valgrind() and has_strace()):
        print("\nvalgrind or strace isn't installed: the copies aren't counted")
        return
    rows = []
    for size in SIZES[1:]:
        case = case_of(bench, ground, size)
        path = bench.make(ground, case.layout)
        least = copied([bench.program, path, "run"])
        number = copied([bench.program, path, "run"], put(ground, "script", case.script.lines)) - least
        digits = moved(bench, ground, case) / case.count
        rows.append([size, round(number / case.count), round(digits), f"{100 * digits / size / 2:.1f} %"])
    show("Bytes that an append and its reply copy in memory",
         ["body", "copied in memory", "moved within the buffer for lines", "of the body's digits"], rows, "exact")


def show_profiles(bench: Bench, ground: Ground) -> None:
    """Where the time of a short, a long and the longest body goes, by samples."""
    if not has_perf():
        print("\nperf isn't installed: no samples are taken")
        return
    found = []
    for size in PROFILED:
        case = case_of(bench, ground, size)
        command = [bench.program, bench.make(ground, case.layout), "run"]
        found.append(samples(command, put(ground, "script", case.script.lines)))
    names = [name for name in dict.fromkeys(name for one in found for name in one) if any(one.get(name, 0) >= 1 for one in found)]
    show("Where the processor's time of an append and its reply goes", ["percent of the samples, of a body of", *(f"{size:,}" for size in PROFILED)],
         [[f"`{name}`" if name != KERNEL else name, *(f"{one.get(name, 0):.1f}" for one in found)] for name in names], "one run of each")


def show_appends(bench: Bench, grounds: list) -> None:
    """The tables of times in memory and on a disk, of instructions, of copies, and of samples."""
    memory, disk = ([rows_of(bench, ground, size) for size in SIZES] for ground in grounds)
    show("Processor time of an append and its reply, microseconds, in memory",
         ["body", "program", "the calls alone", "beyond the calls", "of that SHA-256", "digits", "everything else", "part of the program"],
         [spent for spent, _ in memory], f"{bench.rounds} rounds")
    show("The same on a disk, microseconds", ["body", "clock: program", "the calls alone", "ratio of the rounds", "processor: beyond the calls",
         "everything else"], [clock for _, clock in disk], f"{bench.rounds} rounds of {ON_DISK} appends")
    show_instructions(bench, grounds[0])
    show_copies(bench, grounds[0])
    show_profiles(bench, grounds[0])
