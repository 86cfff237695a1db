"""Whether a report is a journal that the rules of attempts allow, line by line; and whether it came in time."""

from __future__ import annotations

from typing import NamedTuple

from rules_attempts import Computer, Cut, Event, Watcher
from rules_core import Checked
from rules_report import Line, NoReport, read_report
from rules_world import World


# the status of `ease audit` by the first word of its line
STATUSES = {"legal": 0, "illegal": 13, "report": 12}


class Illegal(Exception):
    """No journal that the rules allow begins with the lines up to this one, in whose place the rules may give an event."""

    def __init__(self, line: int, wanted: Event | None = None) -> None:
        super().__init__(line)
        self.line, self.wanted = line, wanted


class Taken(NamedTuple):
    """A boot that was followed: its events with their steps within the boot and the steps allowed, and those of one more."""

    begun: int
    events: list[tuple[int, Event, int]]
    further: int | None


class Audit(Watcher):
    """Follows the rules along the lines of a report."""

    def __init__(self, checked: Checked, world: World, lines: list[Line], scheme: str) -> None:
        self.world, self.lines = world, lines
        self.computer = Computer(checked, world.readings, scheme)
        self.at = 0  # the line ahead, from 0
        self.boots: list[Taken] = []
        self.committed: list[tuple[int, dict[str, list[int]]]] = []
        self.retained: list[int] = []
        self.attempt: list[int] = []  # the readings of the attempt that runs
        # the steps done when the boot began, of the last event and when the boot must end, and the ticks without power so far
        self.begun, self.step, self.last, self.off = 0, 0, 0, 0
        self.trap: int | None = None

    @property
    def ahead(self) -> Line:
        return self.lines[self.at]

    def refuse(self, wanted: Event | None = None) -> Illegal:
        return Illegal(self.at + 1, wanted)

    def run(self) -> None:
        while self.ahead.event[0] != "end":
            self.boot()
        self.end()

    def boot(self) -> None:
        number = len(self.boots)
        self.begun = self.step = self.last
        may_boot = number < len(self.world.power) and self.trap is None
        if not may_boot or self.ahead != Line(self.begun, ("boot", number + 1)):
            raise self.refuse()
        self.last += self.world.power[number].on
        self.off += self.world.power[number - 1].off if number else 0
        self.at += 1
        self.boots.append(Taken(self.begun, [], None))
        ended = self.computer.boot(self)
        if ended and self.ahead.event[0] not in ("boot", "end"):
            raise self.refuse()

    def event(self, event: Event, allowed: int) -> None:
        line = self.come(allowed)
        if line.event != event:
            raise self.refuse(event)
        self.take(line, allowed)

    def look(self, site: int, allowed: int) -> int:
        line = self.come(allowed)
        time = line.step - 1 + self.off
        if line.event != ("look", site, time):
            raise self.refuse(("look", site, time))
        self.take(line, allowed)
        return time

    def come(self, allowed: int) -> Line:
        """The line of the next event; the boot is cut where there is none."""
        if self.ahead.event[0] in ("boot", "end"):
            self.boots[-1] = self.boots[-1]._replace(further=allowed)
            raise Cut
        if not self.step < self.ahead.step <= self.last:
            raise self.refuse()
        return self.ahead

    def take(self, line: Line, allowed: int) -> None:
        self.boots[-1].events.append((line.step - self.begun, line.event, allowed))
        self.step = line.step
        self.at += 1
        kind = line.event[0]
        if kind == "begin":
            self.attempt = []
        elif kind == "issue" or (kind == "kept" and self.is_call(line.event[1])):
            self.attempt.append(line.event[-1])
        elif kind == "commit":
            self.retained += self.attempt
            self.committed.append((line.event[1], self.computer.nonvolatile()))
        elif kind == "trap":
            self.trap = line.event[1]

    def is_call(self, site: int) -> bool:
        return self.computer.checked.tasks[self.computer.next - 1].sites[site - 1].kind == "io"

    def end(self) -> None:
        rows, (step, (_, *how)) = len(self.world.power), self.ahead
        if how == ["power"]:
            right = len(self.boots) == rows and step == self.last and self.trap is None
        elif how == ["halted"]:
            right = bool(self.boots) and self.computer.next == 0 and self.step < step <= self.last
        else:
            right = bool(self.boots) and self.trap == how[1] and step == self.step
        if not right:
            raise self.refuse()


def audit(checked: Checked, world: World, report: bytes) -> str:
    """The line of `ease audit`."""
    try:
        Audit(checked, world, read_report(report), "undo").run()
    except NoReport as found:
        return f"report line {found}"
    except Illegal as found:
        return f"illegal {found}"
    return "legal"
