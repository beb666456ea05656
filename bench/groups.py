"""What a group costs by the clock: a `flush` of eight, and an append, each beside a yardstick that makes its device calls and its hashes and
nothing else; and up to eight requests in one group beside as many appends. All in turn, each in a session of its own over a file that was
written round. The yardstick has the bodies as the program has them: each in a room of its own, where a line before has put it."""

import statistics
from contextlib import ExitStack
from typing import Callable, NamedTuple

from asked import Asked, Planned
from calls import lines_of
from clients import CLIENTS, Requests
from common import Bench, Ground, copy, digits, sectors_of, show, with_quartiles
from tries.binary import Binary, expect
from tries.form import Layout
from yardstick import ROOM, SYNC, answered, decoded, hashed, plan, unit, waited, write

# How many turns there are for each round that is asked for.
TURNS, SLOTS = 10, 1024
SIZES = (0, 128, 3840, 7936)
# The body whose groups of each size are told; and so long is a slot in which a short unit leaves the next sector free.
TOLD, APART = 128, 8192
# Of what is traced, this many groups go once round the ring; and an answer of the yardstick is as long as this one.
ROUND, ANSWER = SLOTS // CLIENTS, b"appended 1025\n"
# What stands before the digits of a line for the yardstick.
APPEND, STAGE = b"append 1 1025 ", b"stage 1 1025 "


def layout_of(size: int) -> Layout:
    """Messages as large as the bodies need."""
    return Layout(SLOTS, sectors_of(size), CLIENTS, 4096, 8)


class Case(NamedTuple):
    """Bodies of one size in a layout, and a file whose ring was written round once, with where its requests stand."""

    size: int
    layout: Layout
    path: str
    requests: Requests

    def bodies(self, count: int) -> list:
        return [self.requests.random.randbytes(self.size) for _ in range(count)]


def case_of(bench: Bench, ground: Ground, size: int, layout: Layout) -> Case:
    path = bench.make(ground, layout, "round")
    with Asked([bench.program, path, "run"]) as session:
        requests = Requests(session, bench.random, layout.slots)
        requests.go_round(size)
        session.end()
    return Case(size, layout, path, requests)


class Listed:
    """In place of a session: what would be asked, and what is to be answered."""

    def __init__(self):
        self.text, self.answers = b"", []

    def want(self, lines: bytes, answers: bytes) -> float:
        self.text += lines
        self.answers += answers.splitlines(keepends=True)
        return 0.0


def traced(bench: Bench, ground: Ground, case: Case, group: bool) -> list:
    """The device calls of each append, or of each flush of eight, once round the ring, as strace saw them."""
    listed, at = Listed(), []
    requests = case.requests.over(listed)
    for _ in range(ROUND if group else SLOTS):
        if group:
            requests.staged(case.bodies(CLIENTS))
            at.append(len(listed.answers))
            requests.flushed(CLIENTS)
            requests.replied(CLIENTS)
        else:
            at.append(len(listed.answers))
            requests.appended(case.bodies(1))
            requests.replied(1)
    binary = Binary(bench.program, ground.folder)
    binary.path = copy(ground, case.path, "traced")
    result, calls = binary.trace(listed.text)
    expect("the answers", b"".join(listed.answers), result.text)
    calls = calls[next(at for at, call in enumerate(calls) if call.name == "read" and call.fd == 0) :]
    lines = lines_of(calls, listed.answers)
    return [[call for call in lines[one] if call.name in ("pwrite64", "fdatasync")] for one in at]


def steps_of(case: Case, calls: list) -> list:
    """The same calls for the yardstick: prepares are written from their rooms, in turn, and a sector of headers from the one after these."""
    rooms, steps = iter(rooms_of(case)), []
    for call in calls:
        if call.name == "fdatasync":
            steps.append(SYNC)
        else:
            length, at = map(int, call.args[-2:])
            place = next(rooms) if at >= case.layout.first() else ROOM + CLIENTS * case.layout.message_size
            steps.append(write(at, length, place))
    return steps


def rooms_of(case: Case) -> list:
    """Where the units of a group stand in the yardstick."""
    return [ROOM + place * case.layout.message_size for place in range(CLIENTS)]


def put_in(front: bytes, size: int, room: int) -> tuple:
    """The digits of a line, decoded as the body of the unit in this room."""
    return decoded(len(front), 2 * size, room + 256)


def staged(case: Case, count: int) -> list:
    """This many lines that each put a body into a room, whose hash is taken; each with its answer."""
    length = len(STAGE) + len(digits(bytes(case.size))) + 1
    of_rooms = [(put_in(STAGE, case.size, room), hashed(room + 256, case.size)) for room in rooms_of(case)[:count]]
    return [step for both in of_rooms for step in (waited(length), *both, answered(len(ANSWER)))]


def line_of(bench: Bench, case: Case, front: bytes) -> bytes:
    """A line for the yardstick, with digits of its own: those of equal bytes would be decoded faster."""
    return b"%s%s\n" % (front, digits(bench.random.randbytes(case.size)))


class Alone(NamedTuple):
    """A turn of the yardstick: how many bodies are put into rooms before it, what it waits for, and what it then does, call by call of the ring."""

    bodies: int
    line: Callable
    turns: list


def turns_alone(bench: Bench, ground: Ground, case: Case) -> dict:
    """The turns of the yardstick by name: the calls of an append and of a flush with their hashes and without, and those of an append after
    the line that feeds it, whose digits are decoded."""
    append, flush = traced(bench, ground, case, False), traced(bench, ground, case, True)
    expect("the calls of a flush", {CLIENTS + 3}, {len(calls) for calls in flush})
    append, flush = ([steps_of(case, calls) for calls in of] for of in (append, flush))
    first, headers = unit(case.size, ROOM), [unit(0, room)[0] for room in rooms_of(case)]
    fed = put_in(APPEND, case.size, ROOM)
    return {
        "append": Alone(1, lambda: b"\n", [[*first, *steps] for steps in append]),
        "fed": Alone(0, lambda: line_of(bench, case, APPEND), [[fed, *first, *steps] for steps in append]),
        "bare append": Alone(1, lambda: b"\n", append),
        # The bodies were hashed as they were staged.
        "flush": Alone(CLIENTS, lambda: b"flush\n", [[*headers, *steps] for steps in flush]),
        "bare flush": Alone(CLIENTS, lambda: b"flush\n", flush),
    }


def plans(bench: Bench, ground: Ground, case: Case) -> dict:
    """The turns of the yardstick, with a plan of each."""
    made = turns_alone(bench, ground, case)
    for name, alone in made.items():
        before, wait, answer = staged(case, alone.bodies), waited(len(alone.line())), answered(len(ANSWER))
        plan(ground, "plan-" + name,
             [step for turn in range(TURNS * bench.rounds) for step in (*before, wait, *alone.turns[turn % len(alone.turns)], answer)])
    return made


def turns_of(bench: Bench, ground: Ground, case: Case, stack: ExitStack) -> tuple:
    """What is done in each turn, by name, each giving microseconds; and the sessions that are to end after them. A flush gives those of
    its stages, too."""
    def program(name: str) -> Requests:
        return case.requests.over(stack.enter_context(Asked([bench.program, copy(ground, case.path, name), "run"])))

    one, group = program("appends"), program("groups")

    def appended(count: int) -> tuple:
        spent = one.appended(case.bodies(count))
        one.replied(count)
        return (spent * 1e6,)

    def flushed() -> tuple:
        stages, flush = group.staged(case.bodies(CLIENTS)), group.flushed(CLIENTS)
        group.replied(CLIENTS)
        return flush * 1e6, (stages + flush) * 1e6

    def by_itself(name: str, alone: Alone):
        session = stack.enter_context(Planned(bench.yardstick, ground, copy(ground, case.path, "alone-" + name), "plan-" + name))

        def passed() -> tuple:
            before = b"".join(line_of(bench, case, STAGE) for _ in range(alone.bodies))
            if before:
                session.passed(before, alone.bodies * len(ANSWER))
            return (session.passed(alone.line(), len(ANSWER)) * 1e6,)
        return session, passed

    planned = {name: by_itself(name, alone) for name, alone in plans(bench, ground, case).items()}
    turns = {"one": lambda: appended(1), "eight": lambda: appended(CLIENTS), "group": flushed, **{name: turn for name, (_, turn) in planned.items()}}
    return turns, [one.session, group.session, *(session for session, _ in planned.values())]


class Measured(NamedTuple):
    """The microseconds of each turn, by what it was; `staged` is a flush with its stages."""

    seen: dict

    def middle(self, name: str) -> float:
        return statistics.median(self.seen[name])

    def tenth(self, name: str) -> float:
        """What one in ten stays below: on a busy machine the rest waits for a processor now and then."""
        return statistics.quantiles(self.seen[name], n=10, method="inclusive")[0]

    def time(self, name: str) -> str:
        return f"{self.middle(name):,.0f} ({self.tenth(name):,.0f})"

    def ratios(self, above, below) -> list:
        """The ratio of the medians, and that of the tenths. Either is a name, or a sum of what a name gives."""
        return [f"{above(by) / below(by):.3f}" for by in (self.middle, self.tenth)]


def measured(bench: Bench, ground: Ground, size: int, layout: Layout) -> Measured:
    case = case_of(bench, ground, size, layout)
    with ExitStack() as stack:
        turns, sessions = turns_of(bench, ground, case, stack)
        seen: dict = {name: [] for name in (*turns, "staged")}
        for _ in range(TURNS * bench.rounds):
            for name in bench.random.sample(sorted(turns), len(turns)):
                spent, *more = turns[name]()
                seen[name].append(spent)
                seen["staged"] += more
        for session in sessions:
            session.end()
    return Measured(seen)


def row_of_flush(size: int, of: Measured) -> list:
    times = [of.time(name) for name in ("group", "flush")]
    return [size, *times, *of.ratios(lambda by: by("group"), lambda by: by("flush")), of.time("staged"), of.time("eight"),
            *of.ratios(lambda by: by("eight"), lambda by: by("staged"))]


def row_of_append(size: int, of: Measured) -> list:
    """An append beside what it can't avoid as it is fed, and so much more beside what it can't avoid where its body isn't given as digits."""
    return [size, of.time("one"), of.time("fed"), *of.ratios(lambda by: by("one"), lambda by: by("fed")), of.time("append"),
            *of.ratios(lambda by: by("append") + by("one") - by("fed"), lambda by: by("append"))]


def row_of_calls(what: str, size: int, of: Measured) -> list:
    return [what, size, of.time("bare append"), of.time("bare flush"), *of.ratios(lambda by: by("bare flush"), lambda by: by("bare append")),
            of.time("one"), of.time("group"), *of.ratios(lambda by: by("group"), lambda by: by("one"))]


def show_beside(bench: Bench, ground: Ground) -> None:
    """The tables of eight requests, of one, and of their calls alone."""
    found = {size: measured(bench, ground, size, layout_of(size)) for size in SIZES}
    apart = measured(bench, ground, TOLD, Layout(SLOTS, APART, CLIENTS, 4096, 8))
    turns = f"{ground.name}, us by the clock, medians, and in brackets what the fastest tenth stays below"
    how = f"{TURNS * bench.rounds} of each in turn"
    show(f"A flush of eight beside its own calls and hashes, {turns}",
         ["body", "`flush` of eight", "its calls and hashes", "ratio", "of the tenths", "with its eight `stage`", "eight appends",
          "eight appends to this", "of the tenths"], [row_of_flush(size, of) for size, of in found.items()], how)
    show(f"An append beside its own calls and hashes, {turns}",
         ["body", "one append", "its calls, hashes and digits", "ratio", "of the tenths", "its calls and hashes", "ratio without digits",
          "of the tenths"],
         [row_of_append(size, of) for size, of in found.items()], how)
    show(f"The calls alone of a flush of eight and of an append, {turns}",
         ["slots", "body", "an append's calls", "a flush's calls", "ratio", "of the tenths", "one append", "`flush` of eight", "ratio",
          "of the tenths"],
         [*(row_of_calls("neighbours", size, of) for size, of in found.items()), row_of_calls("two sectors apart", TOLD, apart)], how)


def counted(bench: Bench, ground: Ground) -> dict:
    """Microseconds of this many appends, of this many stages, and of a flush of this many, all of one session."""
    seen: dict = {(what, count): [] for what in ("append", "stage", "flush") for count in range(1, CLIENTS + 1)}
    turns = [(what, count) for what, count in seen if what != "stage"]
    case = case_of(bench, ground, TOLD, layout_of(TOLD))
    with Asked([bench.program, case.path, "run"]) as session:
        requests = case.requests.over(session)
        for _ in range(TURNS * bench.rounds):
            for what, count in bench.random.sample(turns, len(turns)):
                bodies = case.bodies(count)
                if what == "append":
                    seen[what, count].append(requests.appended(bodies) * 1e6)
                else:
                    seen["stage", count].append(requests.staged(bodies) * 1e6)
                    seen["flush", count].append(requests.flushed(count) * 1e6)
                requests.replied(count)
        session.end()
    return seen


def row_of_count(count: int, seen: dict) -> list:
    """This many of the size that is told."""
    both = [one + two for one, two in zip(seen["stage", count], seen["flush", count])]
    return [count, *(with_quartiles(values, 0) for values in (seen["append", count], seen["flush", count], both))]


def show_groups(bench: Bench, grounds: list) -> None:
    """Four tables for each ground: of eight, of one, of their calls, and by how many."""
    for ground in grounds:
        show_beside(bench, ground)
        seen = counted(bench, ground)
        show(f"Groups by how many, bodies of {TOLD} bytes, {ground.name}, us by the clock", ["how many", "appends", "`flush`", "with its `stage`"],
             [row_of_count(count, seen) for count in range(1, CLIENTS + 1)], f"{TURNS * bench.rounds} of each in turn")
