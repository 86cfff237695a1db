"""Random programs of the whole language with many sites, and random worlds for them, for tools/check_compiled."""

from __future__ import annotations

import random

from model import has_sites
from model_programs import EDGES, Tokens, Words, Writer, text
from model_text import NoTree, Refused
from rules_core import Checked
from rules_flow import checked
from rules_world import Row, World

SHOWN = "shown_"  # the peripheral to which a task shows the nonvolatile words with which it begins
TICKS = [0, 30, 100, 300, 300, 1000, 1000, 5000, 2**32 - 1]
OFFS = [0, 0, 1, 30, 100, 300, 1000, 5000, 2**20]
FILLS = [0, 1, 2**32 - 1]
UNBROKEN, SHORT = 2000, 700
MOST_STATEMENTS = 400


class SiteWriter(Writer):
    """Writes a program whose tasks have many sites, few of which trap."""

    def __init__(self, rng: random.Random) -> None:
        super().__init__(rng)
        self.wild = rng.choice([0, 0, 0.003, 0.02])
        self.peripherals = ["temp", "radio", "log"][: rng.randint(1, 3)]
        if not self.pointers and rng.random() < 0.6:
            self.pointers = ["ptr"]
        if not any(words.length for words in self.words):
            self.words += [Words("kept_", "nv", rng.randint(1, 6)), Words("lost_", "word", rng.randint(1, 6))]
        self.sites = rng.choice([2, 5, 10, 20])
        self.left = rng.randint(6, 40)
        self.shows = rng.random() < 0.8
        self.tasks = self.tasks[:3]

    def any_expr(self) -> Tokens:
        return self.expr(self.rng.choice([0, 1, 1, 2, 3]))

    def other_decls(self):
        yield from super().other_decls()
        if self.shows:
            yield ["peripheral", SHOWN, "9", ";"]

    def annotation(self) -> Tokens:
        timely = ["TIMELY", "(", str(self.rng.choice(TICKS)), ")"]
        return self.rng.choice([["SINGLE"], ["SINGLE"], ["ALWAYS"], timely, timely])

    def statement(self, nesting: int, loops: tuple[str, ...], turns: int) -> Tokens:
        if self.sites > 0 and self.chance(0.45):
            self.sites -= 1
            return self.site(nesting, loops, turns)
        return super().statement(nesting, loops, turns)

    def site(self, nesting: int, loops: tuple[str, ...], turns: int) -> Tokens:
        kind = self.rng.random()
        if kind < 0.5:
            return self.call(loops)
        if kind < 0.7 and nesting < 16:
            return ["IO_BLOCK", "(", *self.annotation(), ")", "{", *self.body(nesting + 1, loops, turns), "}"]
        return [] if self.ifs else self.copy()

    def call(self, loops: tuple[str, ...]) -> Tokens:
        args = [token for _ in range(self.rng.choice([0, 1, 1, 2, 4])) for token in [",", *self.expr(1)]]
        return [*self.reading(loops), "IO", "(", self.rng.choice(self.peripherals), ",", *self.annotation(), *args, ")", ";"]

    def reading(self, loops: tuple[str, ...]) -> Tokens:
        """The target of a call with its `=`, or none."""
        kind = self.rng.random()
        if kind < 0.15 and self.pointers:
            return [self.rng.choice(self.pointers), "[", *self.below(1, 1), "]", "="]
        words = self.pick("nv word", kind < 0.45, loops) if kind < 0.85 else None
        if words is None:
            return []
        index = ["[", *self.below(words.length, 1), "]"] if words.length is not None else []
        return [words.name, *index, "="]

    def copy(self) -> Tokens:
        """A copy that mostly stays inside its arrays."""
        arrays = [words for words in self.words if words.length and words.kind != "const"]
        sources = [words for words in self.words if words.length]
        if not arrays or self.chance(0.12):
            return super().copy()
        to = self.rng.choice(arrays)
        source = to if self.chance(0.3) else self.rng.choice(sources)
        count = self.rng.randint(0, min(to.length, source.length))
        if to == source and to.length > 2 and self.chance(0.7):
            return self.overlap(to)
        ends = [self.end_in(words, words.length - count) for words in (to, source)]
        return ["DMA", "(", *ends[0], ",", *ends[1], ",", *self.length(count), ")", ";"]

    def overlap(self, words: Words) -> Tokens:
        """A copy within an array by one place up or down."""
        ends = [[words.name], ["&", words.name, "[", "1", "]"]]
        self.rng.shuffle(ends)
        return ["DMA", "(", *ends[0], ",", *ends[1], ",", *self.length(words.length - 1), ")", ";"]

    def end_in(self, words: Words, last: int) -> Tokens:
        if self.chance(0.4):
            return [words.name]
        return ["&", words.name, "[", str(self.rng.randint(0, min(last, words.length - 1))), "]"]

    def length(self, count: int) -> Tokens:
        return [str(count)] if self.chance(0.7) else [*self.paren(1), "%", str(count + 1)]

    def shown(self) -> Tokens:
        """Calls that show all nonvolatile words, four at a time."""
        if not self.shows:
            return []
        cells = [
            [words.name] if words.length is None else [words.name, "[", str(at), "]"]
            for words in self.words if words.kind == "nv" for at in range(words.length or 1)
        ]  # fmt: skip
        tokens: Tokens = []
        for first in range(0, len(cells), 4):
            args = [token for cell in cells[first : first + 4] for token in [",", *cell]]
            tokens += ["IO", "(", SHOWN, ",", "ALWAYS", *args, ")", ";"]
        return tokens

    def pointing(self) -> Tokens:
        """Most pointers point somewhere from the beginning."""
        arrays = [words for words in self.words if words.length and words.kind != "const"]
        tokens: Tokens = []
        for name in self.pointers:
            if arrays and self.chance(0.97):
                words = self.rng.choice(arrays)
                tokens += [name, "=", "&", words.name, "[", str(self.rng.randrange(words.length)), "]", ";"]
        return tokens

    def program(self) -> Tokens:
        decls = [*(self.decl(words) for words in self.words), *self.other_decls()]
        self.rng.shuffle(decls)
        tokens = [token for decl in decls for token in decl]
        share, self.left = self.left, 0
        for name in self.tasks:
            self.left = share
            body = [*self.shown(), *self.pointing(), *self.body(1, (), 12), *self.body(1, (), 12), *self.body(1, (), 12)]
            tokens += ["task", name, "{", *body, *self.exit(self.rng.choice([0, 1, 1, 2])), "}"]
        return tokens


def size(program: Checked) -> int:
    """A measure of how long one round of all tasks may take."""
    return sum(statements(task.body) for task in program.program.tasks)


def statements(body: list) -> int:
    total = 0
    for statement in body:
        parts = list(getattr(statement, "body", ())) + list(getattr(statement, "yes", ())) + list(getattr(statement, "no", ()))
        turns = statement.turns.value if hasattr(statement, "turns") else 1
        total += 1 + turns * statements(parts)
    return total


def random_program(rng: random.Random) -> tuple[bytes, Checked]:
    """A program that is accepted, has a site and isn't too long."""
    while True:
        source = text(rng, SiteWriter(rng).program())
        try:
            program = checked(source)
        except (NoTree, Refused):
            continue
        if any(has_sites(task.body) for task in program.program.tasks) and size(program) <= MOST_STATEMENTS:
            return source, program


def random_readings(rng: random.Random, program: Checked) -> dict[str, list[int]]:
    """Few readings more than once the same."""
    names = [name for name in program.peripherals if name != SHOWN and rng.random() < 0.9]
    word = lambda: rng.choice([rng.randint(0, 5), rng.randint(0, 5), rng.choice(EDGES), rng.getrandbits(32)])  # noqa: E731
    return {name: [word() for _ in range(rng.randint(0, 12))] for name in names}


def row(rng: random.Random, on: int) -> Row:
    return Row(on, rng.choice(OFFS), rng.choice([*FILLS, rng.getrandbits(32)]))


def unbroken_world(readings: dict[str, list[int]]) -> World:
    return World([Row(UNBROKEN)], readings, [])


def failing_world(rng: random.Random, readings: dict[str, list[int]], steps: int) -> World:
    """Up to twenty failures, most of them soon behind each other, and power enough at the end."""
    longest = max(1, min(rng.choice([30, 300, 600, 1000, UNBROKEN]), steps))
    rows = [row(rng, rng.randint(longest // 3 if rng.random() < 0.8 else 0, longest)) for _ in range(rng.randint(1, 20))]
    return World([*rows, Row(UNBROKEN)], readings, [])


def failed_behind(rng: random.Random, readings: dict[str, list[int]], report: bytes) -> World:
    """A failure right behind an event of the report's first boot, mostly a seal, perhaps more soon behind it, and power enough."""
    steps: dict[bytes, list[int]] = {}
    for line in report.partition(b" boot 2")[0].splitlines():
        step, word = line.split()[:2]
        steps.setdefault(word, []).append(int(step))
    kinds = [word for word in (b"seal", b"seal", b"issue", b"drop", b"copy", b"look", b"commit") if word in steps]
    first = rng.choice(steps[rng.choice(kinds)]) if kinds else 0
    rows = [row(rng, rng.randint(0, 600)) for _ in range(rng.choice([0, 0, 1, 2]))]
    return World([row(rng, first), *rows, Row(UNBROKEN)], readings, [])


def failed_at(rng: random.Random, readings: dict[str, list[int]], step: int, again: int | None) -> World:
    """A failure behind this step, perhaps one more soon behind it, and power for a while."""
    rows = [row(rng, step)] + ([row(rng, again)] if again is not None else [])
    return World([*rows, Row(SHORT)], readings, [])
