"""Journals that the rules of attempts give: for given cuts and looks, or for a world on a make-believe machine of random steps."""

from __future__ import annotations

import random
from collections.abc import Iterable
from typing import NamedTuple

from rules_attempts import Computer, Cut, Event, Watcher
from rules_core import Checked
from rules_report import Line, report_text
from rules_world import World


class Given(Watcher):
    """Takes so many events of a boot, and gives looks their times from a list, and 0 behind it."""

    def __init__(self, looks: Iterable[int]) -> None:
        self.looks = list(looks)
        self.left = 0
        self.events: list[Event] = []

    def event(self, event: Event, allowed: int) -> None:
        if self.left == 0:
            raise Cut
        self.left -= 1
        self.events.append(event)

    def look(self, site: int, allowed: int) -> int:
        time = self.looks[0] if self.looks else 0
        self.event(("look", site, time), allowed)
        del self.looks[:1]
        return time


def expect(checked: Checked, readings: dict[str, list[int]], cuts: Iterable[int], looks: Iterable[int]) -> list[list[Event]]:
    """The events of each boot of a journal with these cuts and looks; a boot has fewer only where no more come."""
    computer, given, boots = Computer(checked, readings), Given(looks), []
    for cut in cuts:
        given.left, given.events = cut, []
        computer.boot(given)
        boots.append(given.events)
    return boots


class Pace(NamedTuple):
    """How many hundredths of the steps that its parts are allowed an event takes, and how many steps another event of them."""

    least: int = 20
    most: int = 50
    gap: int = 3


class Machine(Watcher):
    """Spends random steps on each event, never more than are allowed at the usual pace, and fails when the world's row ends."""

    def __init__(self, checked: Checked, world: World, scheme: str, rng: random.Random, pace: Pace) -> None:
        self.pace = pace
        self.computer = Computer(checked, world.readings, scheme)
        self.world, self.rng = world, rng
        self.lines: list[Line] = []
        self.begun, self.step, self.last, self.off, self.spent = 0, 0, 0, 0, 0

    def run(self) -> list[Line]:
        for number, row in enumerate(self.world.power):
            self.begun = self.step = self.last
            self.off += self.world.power[number - 1].off if number else 0
            self.last, self.spent = self.begun + row.on, 0
            self.lines.append(Line(self.begun, ("boot", number + 1)))
            if self.computer.boot(self):
                if self.lines[-1].event[0] == "trap":
                    return [*self.lines, Line(self.step, ("end", "trapped", self.lines[-1].event[1]))]
                halts = self.step + self.rng.randint(1, 40)
                if halts <= self.last:
                    return [*self.lines, Line(halts, ("end", "halted"))]
        return [*self.lines, Line(self.last, ("end", "power"))]

    def come(self, allowed: int) -> int:
        """The step of the next event: a share of what its parts are allowed, and a few steps behind another event of the part."""
        share = (allowed - self.spent) * self.rng.randint(self.pace.least, self.pace.most) // 100
        step = self.step + max(share, self.rng.randint(self.pace.gap - 2, self.pace.gap))
        if step > self.last:
            raise Cut
        self.step, self.spent = step, allowed
        return step

    def event(self, event: Event, allowed: int) -> None:
        self.lines.append(Line(self.come(allowed), event))

    def look(self, site: int, allowed: int) -> int:
        time = self.come(allowed) - 1 + self.off
        self.lines.append(Line(self.step, ("look", site, time)))
        return time


def journal(checked: Checked, world: World, scheme: str, rng: random.Random, pace: Pace = Pace()) -> bytes:
    """The report of a journal that the rules allow."""
    return report_text(Machine(checked, world, scheme, rng, pace).run())
