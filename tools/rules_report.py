"""The lines of full reports: read, and written, by docs/COMMANDS.md, "Reports"."""

from __future__ import annotations

import re
from collections.abc import Iterable
from typing import NamedTuple

from model_text import GREATEST_WORD
from rules_attempts import Event

NUMBER = r"(?:0|[1-9][0-9]*)"
NAME = r"[A-Za-z_][A-Za-z0-9_]*"
SPOT = rf"(?:{NAME}\[{NUMBER}\]|keep|@{NUMBER})"
FORMS = {
    "boot": rf"({NUMBER})",
    "begin": rf"({NUMBER})",
    "look": rf"({NUMBER}) ({NUMBER})",
    "kept": rf"({NUMBER}) ({NUMBER})",
    "drop": rf"({NUMBER})",
    "issue": rf"({NUMBER}) ({NAME}|#{NUMBER})((?: {NUMBER}){{0,4}}) = ({NUMBER})",
    "seal": rf"({NUMBER})",
    "copy": rf"({NUMBER}) ({SPOT}) ({SPOT}) ({NUMBER})",
    "commit": rf"({NUMBER})",
    "trap": rf"({NUMBER})",
    "end": rf"(halted|power)|trapped ({NUMBER})",
}
COMPILED = {word: re.compile(form) for word, form in FORMS.items()}
LINE = re.compile(rf"({NUMBER}) ([a-z]+) (.*)")
DIGITS = re.compile(r"[0-9]+")


class NoReport(Exception):
    """This line, from 1, is no line of a report."""


class Line(NamedTuple):
    """A line: the steps done, and the event, `("boot", n)` or `("end", how[, code])`."""

    step: int
    event: Event


def read_report(data: bytes) -> list[Line]:
    """The lines of a report; NoReport tells the first that is none, or follows an end, or is missing."""
    pieces = data.decode("latin-1").split("\n")
    lines = []
    for number, piece in enumerate(pieces, 1):
        is_last = number == len(pieces)
        ended = bool(lines) and lines[-1].event[0] == "end"
        if is_last and piece == "" and ended:
            return lines
        line = None if is_last or ended else read_line(piece)
        if line is None:
            raise NoReport(number)
        lines.append(line)
    raise NoReport(len(pieces))


def read_line(text: str) -> Line | None:
    # A name may have digits in it that are no number; only numbers are tested for their size.
    found = LINE.fullmatch(text)
    form = COMPILED.get(found[2]) if found else None
    parts = form.fullmatch(found[3]) if form else None
    if parts is None or any(int(n) > GREATEST_WORD for n in re.findall(rf"(?<![A-Za-z0-9_]){NUMBER}(?![A-Za-z0-9_])", text)):
        return None
    return Line(int(found[1]), (found[2], *fields(found[2], parts)))


def fields(word: str, parts: re.Match[str]) -> Iterable[str | int | tuple[int, ...]]:
    if word == "end":
        return (parts[1],) if parts[1] else ("trapped", int(parts[2]))
    if word == "issue":
        return int(parts[1]), parts[2], tuple(map(int, parts[3].split())), int(parts[4])
    return [int(part) if DIGITS.fullmatch(part) else part for part in parts.groups()]


def event_text(event: Event) -> str:
    """The text of an event in full."""
    if event[0] == "issue":
        _, site, name, args, reading = event
        return " ".join(["issue", str(site), str(name), *map(str, args), "=", str(reading)])
    return " ".join(map(str, event))


def brief_text(event: Event) -> str:
    return event_text(event[:2] if event[0] == "look" else event)


def report_text(lines: Iterable[Line]) -> bytes:
    return "".join(f"{line.step} {event_text(line.event)}\n" for line in lines).encode()
