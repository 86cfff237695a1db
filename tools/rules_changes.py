"""Changes of legal reports, each with the line at which the report stops being legal."""

from __future__ import annotations

import random

from model_text import GREATEST_WORD
from rules_report import Line

WORDS = ("begin", "look", "kept", "drop", "issue", "seal", "copy", "commit", "trap")


def is_event(line: Line) -> bool:
    return line.event[0] in WORDS


def changed(rng: random.Random, lines: list[Line]) -> tuple[list[Line], int] | None:
    """The lines with one event changed, left out, doubled or put elsewhere, and the first line, from 1, that is then illegal."""
    places = [at for at, line in enumerate(lines) if is_event(line)]
    if not places:
        return None
    at = rng.choice(places)
    kind = rng.randrange(4)
    if kind == 0 and is_event(lines[at + 1]):
        return lines[:at] + lines[at + 1 :], at + 1
    if kind == 1:
        doubled = lines[at]._replace(step=lines[at].step + 1)
        return [*lines[: at + 1], doubled, *lines[at + 1 :]], at + 2
    if kind == 2 and is_event(lines[at + 1]):
        first, second = lines[at], lines[at + 1]
        swapped = [Line(first.step, second.event), Line(second.step, first.event)]
        return lines[:at] + swapped + lines[at + 2 :], at + 1
    return [*lines[:at], lines[at]._replace(event=other_event(rng, lines[at].event)), *lines[at + 1 :]], at + 1


def spoilt(rng: random.Random, report: bytes) -> bytes:
    """The report with a byte or a line otherwise; it may or may not be one still."""
    lines = report.splitlines(keepends=True)
    at, kind = rng.randrange(len(lines)), rng.randrange(6)
    if kind == 0:
        return b"".join(lines[:at] + lines[at + 1 :])
    if kind == 1:
        return b"".join(lines[:at] + [lines[at], lines[at]] + lines[at + 1 :])
    if kind == 2:
        return b"".join(lines[:at])
    byte = rng.choice([b"", b" ", b"0", b"1", b"9", b"=", b"\n", b"[", b"]", b"@", b"#", b"x", b"4294967296", b"\r", b"\xff"])
    place = rng.randrange(len(report))
    return report[:place] + byte + report[place + rng.randint(0, 1) :]


def other_event(rng: random.Random, event: tuple) -> tuple:
    """The event with another word, number or name."""
    at = rng.randrange(len(event))
    if at == 0:
        numbers = [part for part in event[1:] if isinstance(part, int)]
        return ("seal" if event[0] == "drop" else "drop", numbers[0])
    if isinstance(event[at], int):
        return (*event[:at], (event[at] + rng.choice([-1, 1, 2])) & GREATEST_WORD, *event[at + 1 :])
    if isinstance(event[at], tuple):
        args = event[at][1:] if len(event[at]) == 4 else (*event[at], 0)
        return (*event[:at], args, *event[at + 1 :])
    name = "other_" if event[0] == "issue" else "other_[0]" if event[at] == "keep" else "keep"
    return (*event[:at], name, *event[at + 1 :])
