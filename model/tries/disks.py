"""A disk in memory that keeps each event: calls that fail, writes that are lost, stops, and sectors that show something else."""

from .form import SECTOR, check
from .played import Wrong

ZEROS, A5 = bytes(SECTOR), b"\xa5" * SECTOR


class Failed(Exception):
    """A device call failed."""


class Disk:
    """The disk. `failing` are numbers of calls from 1, counted anew where they are given; `lost` are those of writes in the next run."""

    def __init__(self):
        # What each event left: a write its first sector and its bytes, a stop its sectors; a sync is None.
        self.log: list = []
        # What the log left in each sector that isn't zeros, what was struck, and what the loose ones held at the last sync or stop.
        self.left, self.struck, self.before = {}, {}, {}
        self.calls, self.failing, self.lost, self.writes, self.mark = 0, frozenset(), frozenset(), 0, 0

    def shows(self, sector: int) -> bytes:
        return self.struck.get(sector) or self.left.get(sector, ZEROS)

    def leaves(self, sector: int, events: int) -> bytes:
        """What the first events of the log left in a sector."""
        for event in reversed(self.log[:events]):
            if event is not None and sector in event:
                return event[sector]
        return ZEROS

    def happens(self, event: dict) -> None:
        """The sectors of an event hold this from now on."""
        self.log.append(event)
        for sector, data in event.items():
            self.left[sector] = data
            self.struck.pop(sector, None)

    def writes_sectors(self, first: int, data: bytes) -> None:
        """A write, of which nothing is counted."""
        event = {first + at // SECTOR: data[at : at + SECTOR] for at in range(0, len(data), SECTOR)}
        for sector in event:
            self.before.setdefault(sector, self.left.get(sector, ZEROS))
        self.happens(event)

    def settles(self) -> None:
        """A sync, of which nothing is counted."""
        self.log.append(None)
        self.before = {}

    def count(self) -> bool:
        """Counts a call; whether it fails."""
        self.calls += 1
        return self.calls in self.failing

    # ---- what a program calls, with offsets in bytes

    def read(self, at: int, length: int) -> bytes:
        if self.count():
            raise Failed
        return b"".join(self.shows(sector) for sector in range(at // SECTOR, (at + length) // SECTOR))

    def write(self, at: int, data: bytes) -> None:
        self.writes += 1
        if self.writes in self.lost:
            return
        fails = self.count()
        self.writes_sectors(at // SECTOR, data)
        if fails:
            raise Failed

    def sync(self) -> None:
        if self.count():
            raise Failed
        self.settles()

    # ---- what becomes of it between two runs

    def begin_run(self) -> None:
        self.writes, self.began = 0, (self.calls, len(self.log))

    def end_run(self) -> None:
        self.lost = frozenset()

    def fail(self, calls) -> None:
        self.calls, self.failing = 0, frozenset(calls)

    def stop(self, fates: list) -> None:
        """A stop, by the fate of each of these sectors."""
        event = {}
        for sector, fate in fates:
            if sector not in self.before:
                raise Wrong(f"sector {sector} isn't loose")
            now, old = self.shows(sector), self.before[sector]
            choices = {"written": now, "before": old, "filled": A5, "torn": now[:512] + old[512:],
                       "halved": now[: SECTOR // 2] + old[SECTOR // 2 :]}
            if fate not in choices:
                raise Wrong(f"no fate: {fate}")
            event[sector] = choices[fate]
        self.happens(event)
        self.before = {}

    def strike(self, sector: int, data) -> None:
        """The sector shows this until it is written again; None heals it."""
        self.struck[sector] = data
        if data is None:
            del self.struck[sector]

    def put(self, sector: int, at: int, data: bytes) -> None:
        """A write of a sector with these bytes changed."""
        if at + len(data) > SECTOR:
            raise Wrong("the bytes don't fit into the sector")
        old = self.shows(sector)
        self.writes_sectors(sector, old[:at] + data + old[at + len(data) :])

    def part(self, sector: int, at: int, length: int) -> bytes:
        return self.shows(sector)[at : at + length]

    def seal(self, sector: int, kind: str, at: int) -> None:
        """A write of a sector with a right checksum: of a copy, of a unit with its body, or of a header."""
        whole = self.shows(sector)
        if kind == "copy":
            self.put(sector, 0, check(whole[32:]))
            return
        header = whole[at + 16 : at + 256]
        if kind == "unit":
            size = int.from_bytes(whole[at + 112 : at + 116], "little")
            if not 256 <= size <= SECTOR - at:
                raise Wrong(f"a unit of {size} bytes doesn't stand in the sector")
            header = check(whole[at + 256 : at + size]) + header[16:]
        elif kind != "header":
            raise Wrong(f"no checksum: {kind}")
        self.put(sector, at, check(header) + header)

    def copy(self, count: int) -> "Disk":
        """A new disk that holds what the first sectors show: one write and one sync."""
        new = Disk()
        new.writes_sectors(0, b"".join(self.shows(sector) for sector in range(count)))
        new.settles()
        return new
