"""A model of the debugger: it plays a script on the model of the machine and gives the session's lines.

It is written from docs/COMMANDS.md, "The debugger", and shares no text with the program; scripts are taken to be accepted.
"""

from __future__ import annotations

from typing import NamedTuple

from machine_model import Halt, Image, Machine, Trap

MOST_STEPS, MOST_TICKS = 4_194_304, 4_294_967_295
AT_A_SITE = ("look", "kept", "drop", "issue", "seal", "copy")
DECIDING = ("look", "kept", "issue", "copy")


class TooLong(Exception):
    """The session takes more steps than it was allowed."""


class Happening(NamedTuple):
    """A boot, or an event with its site and the task that its mark names."""

    kind: str
    site: int = 0
    task: int = 0

    def is_at(self, site: int, task: int | None = None) -> bool:
        return self.kind in AT_A_SITE and self.site == site and task in (None, self.task)


class Session:
    """A session from the first boot on; `allowed` are the steps that it may take at most."""

    def __init__(self, image: Image, readings: dict[str, list[int]], allowed: int = MOST_STEPS) -> None:
        self.machine, self.allowed = Machine(image, readings), allowed
        self.boots, self.end, self.is_spent = 1, "", False
        self.past: list[Happening] = []
        self.lines = ["boot 1"]

    def play(self, script: list[str]) -> list[str]:
        """All lines of the session."""
        for line in script:
            self.do(line)
        return [*self.lines, f"end {self.end or ('power' if self.is_spent else 'script')}"]

    def do(self, line: str) -> None:
        word, *rest = line.split()
        if word == "show":
            self.show(rest[0])
        elif word == "regs":
            self.lines.append(" ".join(map(str, ["regs", self.machine.pc, *self.machine.registers])))
        elif word == "why":
            self.lines.append(f"why {rest[0]} {self.why(int(rest[0]))}")
        elif not self.end and not self.is_spent:
            self.move(word, [int(number) for number in rest])

    def move(self, word: str, numbers: list[int]) -> None:
        if word == "fail":
            self.fail(*numbers)
        elif word == "step":
            self.go(numbers[0], None, None)
        elif word == "to":
            self.go(None, numbers[0], None)
        else:
            self.go(None, numbers[1], numbers[0])

    def ticks(self) -> int:
        return self.machine.steps + self.machine.off

    def fail(self, off: int, fill: int) -> None:
        if self.ticks() + off > MOST_TICKS:
            self.is_spent = True
            return
        self.machine.off += off
        self.machine.fail(fill)
        self.boots += 1
        self.lines.append(f"boot {self.boots}")
        self.past.append(Happening("boot"))

    def go(self, count: int | None, site: int | None, task: int | None) -> None:
        """So many steps, or steps up to the next event at the site."""
        done = 0
        while done != count:
            if self.machine.steps == MOST_STEPS or self.ticks() == MOST_TICKS:
                self.is_spent = True
                return
            shown = self.step()
            done += 1
            if self.end or (shown and site is not None and shown.is_at(site, task)):
                return

    def step(self) -> Happening | None:
        machine = self.machine
        if machine.steps == self.allowed:
            raise TooLong
        mark = machine.transfer[3] if machine.transfer else machine.image.marks.get(machine.pc)
        machine.steps += 1
        try:
            text = machine.move() if machine.transfer else machine.step()
        except Halt:
            self.end = "halted"
            return None
        except Trap as trap:
            self.lines.append(f"trap {trap}")
            self.end = f"trapped {trap}"
            return None
        if not text:
            return None
        kind, site = text.split()[:2]
        self.lines.append(f"look {site}" if kind == "look" else text)
        self.past.append(Happening(kind, int(site), mark[2] if mark else 0))
        return self.past[-1]

    def show(self, name: str) -> None:
        image, machine = self.machine.image, self.machine
        kind, base, length = next(rest for wanted, *rest in image.symbols if wanted == name)
        if kind == 0:
            base += (machine.fram[image.state] & 1) * image.stride
        self.lines.append(" ".join([name, "=", *(str(machine.load(base + at)) for at in range(length))]))

    def why(self, site: int) -> str:
        commits = [at for at, what in enumerate(self.past) if what.kind == "commit"]
        past = self.past[commits[-1] + 1 :] if commits else self.past
        boots = [at for at, what in enumerate(past) if what.kind == "boot"]
        begins = [at for at, what in enumerate(past) if what.kind == "begin" and at > (boots[-1] if boots else -1)]
        start = begins[-1] if begins else len(past)
        decided = [at for at, what in enumerate(past) if at > start and what.kind in DECIDING and what.site == site]
        if not decided:
            return "not-reached"
        last = decided[-1]
        if past[last].kind in ("kept", "look"):
            return {"kept": "kept", "look": "looked"}[past[last].kind]
        seals = [at for at in range(start) if past[at].kind == "seal" and past[at].site == site]
        if not seals:
            return "first"
        looks = [at for at in decided if past[at].kind == "look"]
        bound = looks[-1] if looks and past[last].kind == "issue" else last
        drops = [at for at in range(seals[-1], bound) if past[at].kind == "drop" and past[at].site == site]
        return "dropped" if drops else "repeated"
