"""The model's scrubber, reports and workload for `imitation.py`, with the one bug that is named."""

from typing import Iterator, Optional, Union

import wrong_grid
from tries import reports, units, workload
from tries.bugs import has
from tries.form import GRID, Place
from tries.grid import FINDINGS, answer
from tries.units import BLANK, BLOCK, Unit


class Machine(wrong_grid.Machine):
    """An opened file, in its lines of the scrubber."""

    again = None

    def known(self) -> dict:
        listed, run = super().known(), self.running
        if has("trailer blocks aren't scrubbed"):
            listed = {at: one for at, one in listed.items() if at not in dict(self.durable.chain)}
        if run and has("captured blocks aren't scrubbed"):
            listed = {at: one for at, one in listed.items() if at in self.live or at not in run.references}
        if run and has("trailer blocks that aren't written are scrubbed"):
            listed |= {at: bytes(16) for at in run.addresses if at not in listed}
        if has("released blocks aren't scrubbed"):
            chain = dict(self.durable.chain)
            listed = {at: one for at, one in listed.items() if at in self.live or at in chain}
        return listed

    def verdict(self, address: int, checksum: bytes) -> Optional[str]:
        if has("the scrubber takes any unit") or has("the scrubber wants a block"):
            what: Union[Unit, str] = self.look(Place(GRID, address))
            if not isinstance(what, Unit):
                return what
            sound = has("the scrubber takes any unit") or what.kind == BLOCK and what.checksum == checksum
            return None if sound else units.STALE
        return super().verdict(address, checksum)

    def scrub(self) -> list:
        before, last = list(self.findings), self.last
        if has("free blocks are scrubbed") and self.free():
            found = self.free_one()
            if found:
                return found
        told = super().scrub()
        word, *rest = told[0].data.decode().split()
        if word == "tour":
            return self.at_end(told, last)
        address, name = int(rest[0]), " ".join(rest[1:])
        if has("sound blocks join the findings") and name == "Sound":
            self.findings = (before + [(address, name)])[-FINDINGS:]
        if has("the findings keep the first ones") and len(before) == FINDINGS:
            self.findings = before
        if has("the findings keep 63"):
            self.findings = self.findings[-63:]
        if has("a tour checks a block twice") and self.again is None and address > 1:
            self.again, self.last = address, address - 1
        return told

    def free_one(self) -> Optional[list]:
        """A free block that shows something, checked as if it were referenced."""
        for address in sorted(self.free()):
            if self.last < address < min([at for at in self.known() if at > self.last], default=self.layout.blocks + 1):
                what = self.look(Place(GRID, address))
                if isinstance(what, str) and what != BLANK:
                    self.last, self.checked, self.failing = address, self.checked + 1, self.failing + 1
                    return [answer(f"checked {address} {what}")]
        return None

    def at_end(self, told: list, last: int) -> list:
        """A tour's end."""
        self.again = None
        if has("a tour isn't begun anew"):
            self.last = last
        if has("findings are forgotten with a tour"):
            self.findings = []
        return told

    def recent(self) -> list:
        if has("recent begins with the newest"):
            self.findings = self.findings[::-1]
            told = super().recent()
            self.findings = self.findings[::-1]
            return told
        return super().recent()


def tour(machine: Machine) -> Iterator[str]:
    """The lines of a whole tour, each as it is found."""
    for line in reports.tour(machine):
        yield line
        if has("scrub stops at the first failing block") and line.startswith("failing"):
            yield f"tour {line.split()[1]} 1"
            return


def inspection(found) -> list:
    """The lines of a report."""
    if has("copies are mended last in a report"):
        copies = [one for one in found.to_mend if one[0].zone == "Superblock"]
        found = found._replace(to_mend=tuple([one for one in found.to_mend if one not in copies] + copies))
    if has("what is mended is always garbled"):
        found = found._replace(to_mend=tuple((place, units.GARBLED) for place, _ in found.to_mend))
    lines = reports.inspection(found)
    if has("sessions are always stored"):
        lines = [line.replace(" pending", " stored") for line in lines]
    if has("a report leaves the root out"):
        lines = [line for line in lines if not line.startswith("root")]
    return lines


def counted(machine: Machine, seed: int, count: int, events: list, spans: list) -> list:
    """A workload's counts."""
    if has("a workload has four clients"):
        made = workload.commands
        workload.commands = lambda seed, count, clients: made(seed, count, 4)
    if has("numbers of a workload have 4 bytes"):
        workload.number_of = lambda value: value.to_bytes(4, "little")
    if has("a workload keeps nine blocks"):
        workload.LIVE = 9
    lines = workload.counted(machine, seed, count, events, spans)
    if has("refused commands aren't counted"):
        lines = ["refused 0" if line.startswith("refused") else line for line in lines]
    return lines
