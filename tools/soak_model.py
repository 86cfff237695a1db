"""The program and the world of a soak, drawn from a number as docs/COMMANDS.md says."""

from __future__ import annotations

from rules_world import Row, World

ANNOTATIONS = ("SINGLE", "TIMELY(500)", "ALWAYS")
TASKS, ROWS = 64, 400
DECLARED = """peripheral temp 0; peripheral radio 1;
nv word a[32]; nv word n; nv word r;
word b[32]; word v; word i;
"""


class Draws:
    def __init__(self, number: int) -> None:
        self.state = number

    def below(self, most: int) -> int:
        self.state = (self.state * 1664525 + 1013904223) % 2**32
        return self.state // 65536 % most

    def annotation(self) -> str:
        return ANNOTATIONS[self.below(3)]


def task(number: int, draws: Draws) -> str:
    reading, block = draws.annotation(), draws.annotation()
    element = draws.below(32)
    inner, sent = draws.annotation(), draws.annotation()
    ends = "b, a" if draws.below(2) else "a, b"
    words, factor = draws.below(33), draws.below(1000)
    last = "if (n < 384) NEXT(t1); else STOP;" if number == TASKS else f"NEXT(t{number + 1});"
    return (
        f"task t{number} {{ v = IO(temp, {reading}); IO_BLOCK({block}) {{ b[{element}] = IO(temp, {inner}); IO(radio, {sent}, v); }}"
        f" DMA({ends}, {words}); for (i = 0; i < 16; i++) {{ r = r + b[i] * {factor}; }} IO(radio, SINGLE, r); n = n + 1; {last} }}\n"
    )


def soak(number: int) -> tuple[str, World]:
    draws = Draws(number)
    source = DECLARED + "".join(task(at, draws) for at in range(1, TASKS + 1))
    rows = [Row(8000 + draws.below(2000), draws.below(2000), draws.below(65536)) for _ in range(ROWS)]
    temp = [draws.below(1000) for _ in range(64)]
    return source, World(rows, {"temp": temp, "radio": [draws.below(1000) for _ in range(16)]}, [])
