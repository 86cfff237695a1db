"""Worlds in which a record is just young enough or just too old: an outage of a report's world is made longer or shorter."""

from __future__ import annotations

import random

from rules_audit import Audit
from rules_core import Checked
from rules_report import read_report
from rules_world import World

LONGEST = 2**30


class Ages(Audit):
    """Gathers of each look at a timely record of an earlier boot: the boot, the record's age, and what its annotation allows."""

    def __init__(self, checked: Checked, world: World, report: bytes, scheme: str) -> None:
        super().__init__(checked, world, read_report(report), scheme)
        self.ages: list[tuple[int, int, int]] = []

    def look(self, site: int, allowed: int) -> int:
        time = super().look(site, allowed)
        record, ann = self.computer.records.get(site), self.computer.attempt.task.sites[site - 1].ann
        if record and ann.kind == "TIMELY" and record.stamp < self.begun + self.off:
            self.ages.append((len(self.boots), time - record.stamp, ann.ticks))
        return time


def edge_world(rng: random.Random, checked: Checked, world: World, report: bytes, scheme: str) -> World | None:
    """The world with one outage such that a record's age is what its annotation allows, or one tick more."""
    ages = Ages(checked, world, report, scheme)
    ages.run()
    fits = []
    for boot, age, ticks in ages.ages:
        row = world.power[boot - 2]
        for wanted in (ticks, ticks + 1):
            if 0 <= row.off + wanted - age <= LONGEST:
                fits.append((boot - 2, row._replace(off=row.off + wanted - age)))
    if not fits:
        return None
    at, row = rng.choice(fits)
    return world._replace(power=[*world.power[:at], row, *world.power[at + 1 :]])
