#!/usr/bin/env python3
"""A model of the machine: it runs an image on a world, writes the report, and reads the nonvolatile words at each commit.

It is written from docs/MACHINE.md and docs/FORMATS.md and shares no text with the program; images are taken to be accepted.
`tools/machine_model.py IMAGE WORLD` writes the report, and `tools/machine_model.py --self-test` tries it on runs worked out by hand.
"""

from __future__ import annotations

import operator
import sys
from collections.abc import Iterator
from pathlib import Path
from typing import NamedTuple

from image_model import layout
from model_text import GREATEST_WORD
from rules_world import Row, World, read_world

FRAM_WORDS, RAM_BASE, RAM_WORDS = 65_536, 1_048_576, 4_096
HALT, LDI, LUI, MOV, DIV, REM, ADI, LD, ST, JMP, JZ, IO, TIME, DMA, TRAP = 1, 2, 3, 4, 8, 9, 17, 18, 19, 20, 21, 22, 23, 24, 25
BEGIN, KEPT, DROP, SEAL, COMMIT = 1, 3, 4, 6, 8

# Two registers to one word, by the instruction's code.
TWO = {
    5: operator.add, 6: operator.sub, 7: operator.mul, 10: operator.and_, 11: operator.or_, 12: operator.xor,
    13: lambda a, b: a << b if b < 32 else 0, 14: lambda a, b: a >> b if b < 32 else 0,
    15: lambda a, b: int(a == b), 16: lambda a, b: int(a < b),
}  # fmt: skip


class Trap(Exception):
    """The machine traps with this code."""


class Halt(Exception):
    """The machine halts."""


class Image(NamedTuple):
    state: int
    stride: int
    keep: int
    keep_words: int
    code: list[tuple[int, int, int, int, int]]  # code, a, b, M, T
    fram: list[int]
    symbols: list[tuple[str, int, int, int]]  # name, kind, base, length
    peripherals: dict[int, str]
    marks: dict[int, tuple[int, int, int]]  # kind, site, task


def read_image(data: bytes) -> Image:
    _, _, head, code, fram, symbols, peripherals, marks, _ = layout(data)
    words = [(word >> 24, word >> 20 & 15, word >> 16 & 15, word & 0xFFFF, word & 0xFFFFFF) for word in code]
    named = [(name.decode(), kind, base, length) for name, kind, base, length in symbols]
    places = {at: (kind, site, task) for at, kind, site, task in marks}
    return Image(*head, words, fram, named, {number: name.decode() for name, number in peripherals}, places)


class State(NamedTuple):
    """What stands behind a commit: the next task, the task that the commit's mark names, the nonvolatile words, the bank."""

    next: int
    task: int
    words: dict[str, list[int]]
    bank: int


class Machine:
    """A machine with its readings, through the power rows of a world."""

    def __init__(self, image: Image, readings: dict[str, list[int]]) -> None:
        self.image = image
        self.readings = {number: readings.get(name, []) for number, name in image.peripherals.items()}
        self.issues: dict[int, int] = {}
        self.fram = image.fram + [0] * (FRAM_WORDS - len(image.fram))
        self.steps, self.off = 0, 0
        self.states: list[State] = []
        self.strangers: list[str] = []  # marks whose task isn't the one that runs
        self.task = 0
        self.fail(0)

    def fail(self, fill: int) -> None:
        self.ram, self.registers = [fill] * RAM_WORDS, [fill] * 16
        self.pc, self.moved, self.transfer = 0, 0, None

    def load(self, at: int) -> int:
        if at < FRAM_WORDS:
            return self.fram[at]
        if RAM_BASE <= at < RAM_BASE + RAM_WORDS:
            return self.ram[at - RAM_BASE]
        raise Trap(16)

    def store(self, at: int, word: int) -> None:
        if at < FRAM_WORDS:
            self.fram[at] = word
        elif RAM_BASE <= at < RAM_BASE + RAM_WORDS:
            self.ram[at - RAM_BASE] = word
        else:
            raise Trap(16)

    def lines(self, power: list[Row]) -> Iterator[str]:
        """The report."""
        for number, row in enumerate(power):
            if number:
                self.off += power[number - 1].off
                self.fail(power[number - 1].fill)
            yield f"{self.steps} boot {number + 1}"
            try:
                yield from self.boot(row.on)
            except Halt:
                yield f"{self.steps} end halted"
                return
            except Trap as trap:
                yield f"{self.steps} trap {trap}"
                yield f"{self.steps} end trapped {trap}"
                return
        yield f"{self.steps} end power"

    def boot(self, on: int) -> Iterator[str]:
        for _ in range(on):
            self.steps += 1
            event = self.move() if self.transfer else self.step()
            if event:
                yield f"{self.steps} {event}"

    def move(self) -> str | None:
        """The engine's next word."""
        to, source, words, mark = self.transfer
        try:
            self.store(to + self.moved, self.load(source + self.moved))
        except Trap:
            self.transfer = None
            raise
        self.moved += 1
        if self.moved < words:
            return None
        self.transfer = None
        return self.copied(to, source, words, mark)

    def copied(self, to: int, source: int, words: int, mark: tuple[int, int, int] | None) -> str:
        return f"copy {mark[1] if mark else 0} {self.spot(source)} {self.spot(to)} {words}"

    def step(self) -> str | None:
        image, registers = self.image, self.registers
        if self.pc >= len(image.code):
            raise Trap(17)
        mark = image.marks.get(self.pc)
        code, a, b, m, t = image.code[self.pc]
        self.pc += 1
        left, right = registers[a], registers[b]
        if code == LD:
            registers[a] = self.load((right + m) & GREATEST_WORD)
        elif code == ST:
            self.store((right + m) & GREATEST_WORD, left)
        elif code == LDI:
            registers[a] = m
        elif code in TWO:
            registers[a] = TWO[code](left, right) & GREATEST_WORD
        elif code == MOV:
            registers[a] = right
        elif code == JZ:
            self.pc += m if left == 0 else 0
        elif code == JMP:
            self.pc = t
        elif code == LUI:
            registers[a] = m << 16 | left & 0xFFFF
        elif code == ADI:
            registers[a] = (left + m) & GREATEST_WORD
        else:
            return self.rarer(code, a, b, m, mark)
        return self.marked(mark, registers[a]) if mark else None

    def rarer(self, code: int, a: int, b: int, m: int, mark: tuple[int, int, int] | None) -> str | None:
        registers, site = self.registers, mark[1] if mark else 0
        if mark:
            self.belongs(mark)
        if code in (DIV, REM):
            if registers[b] == 0:
                raise Trap(2)
            registers[a] = (operator.floordiv if code == DIV else operator.mod)(registers[a], registers[b])
        elif code == TIME:
            registers[a] = self.steps - 1 + self.off
            return f"look {site} {registers[a]}"
        elif code == IO:
            return self.issue(a, registers[b : b + (m >> 8)], m & 255, site)
        elif code == DMA:
            to, source, words = registers[a], registers[b], registers[m]
            if words == 0:
                return self.copied(to, source, 0, mark)
            self.transfer, self.moved = (to, source, words, mark), 0
        elif code == HALT:
            raise Halt
        else:
            raise Trap(m)
        return None

    def issue(self, a: int, args: list[int], number: int, site: int) -> str:
        values, count = self.readings.get(number, []), self.issues.get(number, 0)
        self.issues[number] = count + 1
        self.registers[a] = values[min(count, len(values) - 1)] if values else 0
        name = self.image.peripherals.get(number, f"#{number}")
        return " ".join(["issue", str(site), name, *map(str, args), "=", str(self.registers[a])])

    def marked(self, mark: tuple[int, int, int], word: int) -> str | None:
        """The event of a mark at an instruction that shows none of itself."""
        kind, site, task = mark
        if kind == BEGIN:
            self.task = site
        self.belongs(mark)
        if kind == COMMIT:
            self.states.append(State(site, task, self.nonvolatile(), self.fram[self.image.state] & 1))
        words = {BEGIN: f"begin {site}", KEPT: f"kept {site} {word}", DROP: f"drop {site}", SEAL: f"seal {site}", COMMIT: f"commit {site}"}
        return words[kind]

    def belongs(self, mark: tuple[int, int, int]) -> None:
        if mark[2] != self.task:
            self.strangers.append(f"step {self.steps} comes from a mark of task {mark[2]} while task {self.task} runs")

    def nonvolatile(self) -> dict[str, list[int]]:
        moved = (self.fram[self.image.state] & 1) * self.image.stride
        return {name: self.fram[base + moved : base + moved + length] for name, kind, base, length in self.image.symbols if kind == 0}

    def spot(self, at: int) -> str:
        for name, kind, base, length in self.image.symbols:
            for first in (base, base + self.image.stride) if kind == 0 else (base,):
                if first <= at < first + length:
                    return f"{name}[{at - first}]"
        return "keep" if self.image.keep <= at < self.image.keep + self.image.keep_words else f"@{at}"


def report(machine: Machine, world: World) -> bytes:
    return "".join(f"{line}\n" for line in machine.lines(world.power)).encode()


def self_test() -> int:
    """Images of some words, with FRAM that is 0 but for the words given, and their reports."""
    look_twice = "0 boot 1/2 look 0 1/3 issue 0 temp 7 = 9/3 boot 2/5 look 0 14/6 issue 0 temp 7 = 9/8 end halted"
    cases = [
        ("01000000", [], [Row(10)], "0 boot 1/1 end halted"),
        ("01000000", [], [Row(0)], "0 boot 1/0 end power"),
        ("01000000", [], [], "0 end power"),
        ("02100007 17200000 16310100 13300005 01000000", [], [Row(3, 10), Row(10)], look_twice),
        ("0210000A 02200008 02300003 18120003 01000000", [0] * 8 + [1, 2, 3], [Row(20)], "0 boot 1/7 copy 0 @8 @10 3/8 end halted"),
        ("", [], [Row(5)], "0 boot 1/1 trap 17/1 end trapped 17"),
        ("14000000", [], [Row(5)], "0 boot 1/5 end power"),
        ("03100001 12210000", [], [Row(5)], "0 boot 1/2 trap 16/2 end trapped 16"),
        ("03100001 02200001 18010002", [], [Row(9)], "0 boot 1/4 trap 16/4 end trapped 16"),
    ]
    failed = 0
    for code, fram, power, wanted in cases:
        words = [(w >> 24, w >> 20 & 15, w >> 16 & 15, w & 0xFFFF, w & 0xFFFFFF) for w in (int(word, 16) for word in code.split())]
        image = Image(0, 0, 0, 0, words, fram, [], {0: "temp"}, {})
        got = report(Machine(image, {"temp": [9]}), World(power, {}, [])).decode().strip().replace("\n", "/")
        if got != wanted:
            print(f"machine: {code}: {got} for {wanted}", file=sys.stderr)
            failed = 1
    if not failed:
        print(f"machine: {len(cases)} runs as worked out by hand")
    return failed


def main(words: list[str]) -> int:
    if words == ["--self-test"]:
        return self_test()
    if len(words) != 2:
        print(__doc__, file=sys.stderr)
        return 1
    world = read_world(Path(words[1]).read_text())
    sys.stdout.buffer.write(report(Machine(read_image(Path(words[0]).read_bytes()), world.readings), world))
    return 0


if __name__ == "__main__":
    sys.exit(main(sys.argv[1:]))
