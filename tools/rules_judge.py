"""What docs/ATTEMPTS.md asks of a right journal, of a report that the rules allow: its states, its steps, its seals and its halt."""

from __future__ import annotations

from collections.abc import Iterator

from model import NoReading, Run, Trap
from rules_audit import Audit, Illegal, Taken
from rules_core import Checked
from rules_report import NoReport, read_report
from rules_world import World

HALT, SEAL = 64, 12


def judge(checked: Checked, world: World, report: bytes, scheme: str) -> str | None:
    """What is wrong with a report, or nothing."""
    try:
        lines = read_report(report)
        audit = Audit(checked, world, lines, scheme)
        audit.run()
    except NoReport as found:
        return f"report line {found}"
    except Illegal as found:
        return f"illegal {found}"
    for fault in faults(audit, lines[-1].step, lines[-1].event[1:]):
        return fault
    return None


def faults(audit: Audit, steps: int, end: tuple[str | int, ...]) -> Iterator[str]:
    yield from audit.computer.disagreements
    yield from walked(audit)
    ends = [boot.begun for boot in audit.boots[1:]] + [steps]
    for number, (boot, end_step) in enumerate(zip(audit.boots, ends), 1):
        for fault in (*late(boot, end_step - boot.begun), *unsealed(audit.computer.checked, boot, end_step - boot.begun)):
            yield f"boot {number}: {fault}"
    yield from halts(audit, steps, end)


def walked(audit: Audit) -> Iterator[str]:
    """The commits, and a trap, are those of the unbroken run that is fed the retained readings."""
    run = Run(audit.computer.checked.program, audit.retained + audit.attempt)
    number = 1
    try:
        for place, (following, words) in enumerate(audit.committed, 1):
            task = run.tasks[number - 1]
            run.declare("vol")
            run.body(task.body)
            number = run.exit(task.exit)
            if number != following:
                yield f"commit {place} goes on with {following}, the walk with {number}"
                return
            if any(run.store[name] != kept for name, kept in words.items()):
                yield f"commit {place} has other words than the walk"
                return
        if run.readings != audit.attempt:
            yield "the retained readings are more than the walk takes"
        if audit.trap is not None:
            run.declare("vol")
            run.body(run.tasks[number - 1].body)
            run.exit(run.tasks[number - 1].exit)
            yield "the walk doesn't trap"
    except NoReading:
        yield "the walk finds too few retained readings"
    except Trap as trap:
        if audit.trap != int(str(trap)):
            yield f"the walk traps with {trap}, the report with {audit.trap}"


def late(boot: Taken, steps: int) -> Iterator[str]:
    """Each event by the step that the costs allow, and one more where more may come."""
    for step, event, allowed in boot.events:
        if step > allowed:
            yield f"{event} comes at step {step}, and {allowed} are allowed"
    if boot.further is not None and steps >= boot.further:
        yield f"{steps} steps without an event that must come by step {boot.further}"


def unsealed(checked: Checked, boot: Taken, steps: int) -> Iterator[str]:
    for at, (step, event, _) in enumerate(boot.events):
        within = sealed_within(checked, event)
        if within is None:
            continue
        behind = boot.events[at + 1] if at + 1 < len(boot.events) else None
        sealed = behind is not None and behind[1] == ("seal", event[1])
        if behind and not sealed:
            yield f"{event} isn't followed by its seal"
        elif (behind[0] if behind else steps + 1) > step + within and steps >= step + within:
            yield f"{event} isn't sealed within {within} steps"


def sealed_within(checked: Checked, event: tuple) -> int | None:
    """Within how many steps behind an event a seal must come, if one must."""
    if event[0] == "issue":
        return SEAL
    if event[0] != "copy" or event[2] == "keep":
        return None
    source, to = (str(end).partition("[")[0] for end in event[2:4])
    is_kept = event[3] == "keep"
    return 32 + 16 * int(event[4]) if is_kept or checked.kinds[to] != "vol" else None


def halts(audit: Audit, steps: int, end: tuple[str | int, ...]) -> Iterator[str]:
    """A machine with no task next halts within 64 steps, if the power lasts so long."""
    stopped = False
    for boot, row in zip(audit.boots, audit.world.power):
        committed = bool(boot.events) and boot.events[-1][1] == ("commit", 0)
        latest = HALT + (boot.events[-1][0] if committed else 0)
        halted = end == ("halted",) and boot is audit.boots[-1]
        if (stopped or committed) and (steps - boot.begun > latest if halted else row.on >= latest):
            yield f"no halt by step {latest} of the boot that begins at {boot.begun}, with no task next"
        stopped = stopped or committed
