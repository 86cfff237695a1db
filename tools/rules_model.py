#!/usr/bin/env python3
"""A model of the rules of attempts: journals that they give, and which reports they allow.

It is written from docs/LANGUAGE.md, docs/ATTEMPTS.md and docs/COMMANDS.md and shares no text with the program.

    tools/rules_model.py report PROGRAM WORLD [SEED]    writes a report that the rules allow, with steps at random
    tools/rules_model.py audit PROGRAM WORLD REPORT     `legal`, `illegal N`, or `report line N`
    tools/rules_model.py judge PROGRAM WORLD REPORT undo|bank    besides whether it came in time, and with the walk's words
    tools/rules_model.py --self-test                    the cases of rules_cases.py
"""

from __future__ import annotations

import random
import sys
from pathlib import Path

from rules_attempts import Computer
from rules_audit import Audit, audit
from rules_cases import ALLOWED, AUDITED, CASES, FIRSTS, FORCES, NAMES, STATION, SUMS, Case
from rules_core import Checked
from rules_flow import checked
from rules_journal import Given, journal
from rules_judge import judge
from rules_report import brief_text, read_report
from rules_world import Row, World, read_world


def played(case: Case) -> tuple[list[str], str]:
    """The boots of a case as the model gives them, and the nonvolatile words behind them."""
    computer, given, boots = Computer(checked(case.source.encode()), case.readings), Given(case.looks), []
    for boot in case.boots:
        given.left, given.events = len(boot.split(" / ")), []
        computer.boot(given)
        boots.append(" / ".join(map(brief_text, given.events)))
    words = [" ".join([name, "=", *map(str, values)]) for name, values in computer.committed.items()]
    return boots, " / ".join(words)


def fails(case: Case) -> str | None:
    boots, words = played(case)
    for wanted, got in zip(case.boots, boots):
        if wanted != got:
            return f"{case.name}:\n  wanted {wanted}\n  got    {got}"
    return f"{case.name}: {words} for {case.words}" if case.words not in ("", words) else None


def failing_cases() -> list[str]:
    found = [fault for case in CASES if (fault := fails(case))]
    for case in AUDITED:
        answer = audit(checked(case.source.encode()), read_world(case.world), case.text())
        if answer != case.answer:
            found.append(f"{case.new!r} for {case.old!r}: {answer} for {case.answer}")
    return found


def failing_accounts() -> list[str]:
    found = []
    for body, wanted in FORCES:
        program = checked((NAMES % body).encode())
        forces = {site: later for site, later in program.accounts[0].forces.items() if later}
        if forces != wanted:
            found.append(f"{body}: forces {forces} for {wanted}")
    for body, wanted in FIRSTS:
        program = checked((NAMES % body).encode())
        firsts = [" ".join(sorted(names)) for names in program.accounts[0].firsts]
        if firsts != wanted:
            found.append(f"{body}: first {firsts} for {wanted}")
    return found


def failing_sums() -> list[str]:
    found, program, world = [], checked(SUMS.encode()), World([Row(2000)], {}, [])
    for scheme, wanted in ALLOWED.items():
        followed = Audit(program, world, read_report(journal(program, world, scheme, random.Random(1))), scheme)
        followed.run()
        sums = sorted({allowed for _, _, allowed in followed.boots[0].events})
        if sums != wanted:
            found.append(f"steps allowed under {scheme}: {sums} for {wanted}")
    return found


def station_runs() -> list[str]:
    """The station under failures: what it ends with, and that the model allows its own journals."""
    found = []
    station, readings = checked(STATION.encode()), {"temp": [10, 12, 14, 16, 18, 20, 22, 24, 25]}
    for seed in range(20):
        for scheme in ("undo", "bank"):
            world = World([Row(4000, 300, 9)] * 200, readings, [])
            report = journal(station, world, scheme, random.Random(seed))
            ends = report.endswith(b"end halted\n") and b" radio 51 = 0\n" in report and report.count(b" radio 75 = 0\n") >= 2
            wrong = judge(station, world, report, scheme)
            if not ends or wrong:
                found.append(f"the station with seed {seed} under {scheme}: {wrong or 'ends otherwise'}")
    return found


def self_test() -> int:
    found = failing_cases() + failing_accounts() + failing_sums() + station_runs()
    for fault in found:
        print(f"rules: {fault}", file=sys.stderr)
    if not found:
        counts = f"{len(CASES)} journals, {len(AUDITED)} reports and {len(FORCES) + len(FIRSTS)} tasks"
        print(f"rules: {counts} as worked out by hand, 40 runs of the station")
    return bool(found)


def read(words: list[str]) -> tuple[Checked, World]:
    return checked(Path(words[0]).read_bytes()), read_world(Path(words[1]).read_text())


def main(words: list[str]) -> int:
    if words == ["--self-test"]:
        return self_test()
    if words[:1] == ["report"] and len(words) in (3, 4):
        report = journal(*read(words[1:]), "undo", random.Random(words[3] if len(words) > 3 else "1"))
        sys.stdout.buffer.write(report)
        return 0
    if words[:1] == ["audit"] and len(words) == 4:
        print(audit(*read(words[1:]), Path(words[3]).read_bytes()))
        return 0
    if words[:1] == ["judge"] and len(words) == 5 and words[4] in ("undo", "bank"):
        wrong = judge(*read(words[1:]), Path(words[3]).read_bytes(), words[4])
        print(wrong or "right")
        return bool(wrong)
    print(__doc__, file=sys.stderr)
    return 1


if __name__ == "__main__":
    sys.exit(main(sys.argv[1:]))
