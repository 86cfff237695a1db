"""Follows a report along the rules of attempts and notes why each event came.

What the report itself tells, the times of looks and the readings, is taken as told; all else must be what the rules give for
the program, so that the report of another program is refused.
"""

from __future__ import annotations

from typing import NamedTuple

from rules_attempts import FORCE, KEEP, OWN, BlockRecord, Computer, CopyRecord, Event, entered
from rules_audit import Audit, Illegal
from rules_core import Checked, Site
from rules_report import Line, NoReport, event_text, read_report
from rules_world import Row, World
from timeline_words import TRAPS, Note


class Stranger(Exception):
    """The report isn't one of this program; the text says why."""


class Mark(NamedTuple):
    """An event with the task that ran, the boot, the attempt of the task's stay, and why it came."""

    line: int
    task: int
    boot: int
    attempt: int
    note: Note


class Lost(NamedTuple):
    """Why a site that was done in this stay has no record: dropped for a site, or not sealed where that is 0."""

    site: int
    boot: int


class Told(Computer):
    """A computer whose peripherals read what the report says."""

    follower: Follower

    def reading(self, name: str) -> int:
        event = self.follower.ahead.event
        return event[4] if event[0] == "issue" else 0


def told_world(lines: list[Line]) -> World:
    """Power rows that are as long as the report's boots."""
    begun = [line.step for line in lines if line.event[0] == "boot"]
    ends = [*begun[1:], lines[-1].step]
    return World([Row(end - start) for start, end in zip(begun, ends)], {}, [])


class Follower(Audit):
    """Notes each line of a report."""

    def __init__(self, checked: Checked, lines: list[Line]) -> None:
        super().__init__(checked, told_world(lines), lines, "undo")
        self.computer = Told(checked, {})
        self.computer.follower = self
        self.marks: list[Mark] = []
        self.offs: list[int | None] = []  # ticks without power before each boot, as far as looks tell
        self.stay()

    # What is remembered of a stay in a task

    def stay(self) -> None:
        self.attempts = 0
        self.made: dict[int, int] = {}  # the boots in which records were made
        self.lost: dict[int, Lost] = {}
        self.begin_attempt()

    def begin_attempt(self) -> None:
        self.did: dict[int, str] = {}  # what each site did in this attempt
        self.inside: dict[int, tuple[str, str]] = {}  # the mode that each block entered, and why
        self.begun_at: dict[int, int] = {}  # the times at which blocks began
        self.looked: tuple[int, int] = (0, 0)
        self.issuing = 0

    @property
    def boot_number(self) -> int:
        return len(self.boots)

    def note(self, key: str, *values: int | str) -> None:
        self.marks.append(Mark(self.at, self.computer.next, self.boot_number, self.attempts, (key, values)))

    def site(self, number: int) -> Site:
        return self.computer.checked.tasks[self.computer.next - 1].sites[number - 1]

    def boot(self) -> None:
        self.offs.append(None if self.boots else 0)
        place = len(self.marks)
        self.note("boot first" if not self.boots else "boot", self.boot_number + 1)
        super().boot()
        self.marks[place] = self.marks[place]._replace(boot=self.boot_number)
        if self.boot_number > 1 and None not in self.offs[-2:]:
            self.marks[place] = self.marks[place]._replace(note=("boot told", (self.boot_number, self.offs[-1])))

    def end(self) -> None:
        super().end()
        how = self.ahead.event[1:]
        self.note(f"end {how[0]}", *how[1:])

    def look(self, site: int, allowed: int) -> int:
        line = self.come(allowed)
        if line.event[:2] != ("look", site):
            raise self.refuse(("look", site, line.step - 1 + self.off))
        time = line.event[2]
        self.tell_off(time - (line.step - 1))
        self.note_look(site, time)
        self.take(line, allowed)
        return time

    def tell_off(self, off: int) -> None:
        """A look tells the ticks without power so far; they are the same within a boot, and never fewer than before."""
        more, told = off - self.off, self.offs[-1] is not None
        if more < 0 or (told and more):
            raise self.refuse()
        if not told:
            self.offs[-1] = more
        self.off = off

    def event(self, event: Event, allowed: int) -> None:
        line = self.come(allowed)
        if line.event != event:
            raise self.refuse(event)
        getattr(self, f"note_{event[0]}")(*event[1:])
        self.take(line, allowed)

    # Notes, before anything of the event is done

    def note_begin(self, task: int) -> None:
        self.begin_attempt()
        self.attempts += 1
        name = self.computer.checked.tasks[task - 1].name
        self.note("begin", name) if self.attempts == 1 else self.note("begin again", name, self.attempts)

    def note_look(self, number: int, time: int) -> None:
        site, record = self.site(number), self.computer.records.get(number)
        self.looked = (number, time)
        if site.kind == "block":
            self.note_block(site, record, time)
        elif record:
            self.note("look", number, time, time - record.stamp)
        else:
            self.note("look none", number, time)

    def note_block(self, site: Site, record: BlockRecord | None, time: int) -> None:
        outside = self.computer.attempt.mode
        mode = entered(outside, site.ann, record.stamp if record else None, time)
        age = time - record.stamp if record else 0
        if outside != OWN:
            why, values = "inside", ()
        elif mode == OWN:
            why, values = "own", ()
        elif mode == KEEP:
            why, values = "keep", (age,)
        else:
            why, values = ("always", ()) if site.ann.kind == "ALWAYS" else ("old", (age, site.ann.ticks))
        self.inside[site.number] = (mode, why)
        self.begun_at[site.number] = time
        self.note(f"block {why}", site.number, time, *values)

    def around(self, number: int) -> list[int]:
        """The blocks around a site, the outermost first."""
        members = self.computer.checked.accounts[self.computer.next - 1].members
        return [block for block in sorted(members) if number in members[block]]

    def decider(self, number: int, mode: str) -> tuple[int, str]:
        """The block that brought its inside into this mode, and why."""
        return next((block, self.inside[block][1]) for block in self.around(number) if self.inside[block][0] == mode)

    def note_kept(self, number: int, value: int) -> None:
        site, made = self.site(number), self.made.get(number, self.boot_number)
        self.did[number] = "kept"
        if site.kind == "copy":
            self.note("kept copy", number, value, made)
        elif self.computer.attempt.mode == KEEP:
            self.note("kept block", number, value, made, self.decider(number, KEEP)[0])
        elif site.ann.kind == "SINGLE":
            self.note("kept single", number, value, made)
        else:
            age = self.looked[1] - self.computer.records[number].stamp
            self.note("kept timely", number, value, made, age, site.ann.ticks)

    def note_drop(self, number: int) -> None:
        there = number in self.computer.records
        if self.site(number).kind == "io" and number == self.looked[0] and not self.issuing:
            self.issuing, self.why = number, self.why_issued(number)
            self.note("drop own", number, self.made[number]) if there else self.note("drop own none", number)
        elif self.issuing:
            self.note("drop dependent" if there else "drop dependent none", number, self.issuing)
        else:
            self.note("drop block" if there else "drop block none", number)
        if there:
            self.lost[number] = Lost(self.issuing, self.boot_number)

    def why_lost(self, number: int) -> tuple[str, tuple[int, ...]] | None:
        """Why a site that was done before in this stay has no record."""
        lost = self.lost.get(number)
        if lost is None:
            return None
        if lost.site in (0, number):
            return ("cut" if lost.site else "unsealed"), (lost.boot,)
        done = self.did.get(lost.site)
        if done == "issue":
            return "dropped", (lost.site,)
        return ("dropped kept" if done == "kept" else "dropped before"), (lost.site, lost.boot)

    def why_issued(self, number: int) -> tuple[str, tuple[int, ...]]:
        site, record = self.site(number), self.computer.records.get(number)
        if record is None:
            return self.why_lost(number) or ("first", ())
        if self.computer.attempt.mode == FORCE:
            block, why = self.decider(number, FORCE)
            return f"block {why}", (block,) if why == "always" else (block, self.site(block).ann.ticks)
        if site.ann.kind == "ALWAYS":
            return "always", ()
        return "old", (self.looked[1] - record.stamp, site.ann.ticks)

    def note_issue(self, number: int, name: str, args: tuple[int, ...], reading: int) -> None:
        self.did[number] = "issue"
        why, values = self.why
        self.note(f"issue {why}", number, reading, *values)
        self.lost[number] = Lost(0, self.boot_number)
        self.read = reading

    def note_seal(self, number: int) -> None:
        site = self.site(number)
        self.issuing = 0
        self.made[number] = self.boot_number
        self.lost.pop(number, None)
        if site.kind == "io":
            self.note("seal", number, self.read, self.looked[1])
        elif site.kind == "block":
            self.note("seal block", number, self.begun_at[number])
        else:
            self.note("seal copy", number)

    def note_copy(self, number: int, source: str, to: str, words: int) -> None:
        record = self.computer.records.get(number)
        if source == "keep":
            first = isinstance(record, CopyRecord) and self.did.get(number) == "copy"
            values = (number, words, to)
            self.note("copy out", *values) if first else self.note("copy recorded", *values, self.made[number])
            return
        self.did[number] = "copy"
        is_each = to != "keep" and self.computer.checked.kinds[to.partition("[")[0]] == "vol"
        why, values = ("each", ()) if is_each else self.why_lost(number) or ("", ())
        ends = (number, words, source, "the kept words" if to == "keep" else to)
        self.note(f"copy {why}".strip(), *ends, *values)
        if not is_each:
            self.lost[number] = Lost(0, self.boot_number)

    def note_commit(self, following: int) -> None:
        tasks = self.computer.checked.tasks
        name = tasks[self.computer.next - 1].name
        self.note("commit", name, tasks[following - 1].name) if following else self.note("commit stop", name)
        self.stay()

    def note_trap(self, code: int) -> None:
        self.note("trap", code, TRAPS.get(code, "a trap of the machine"))


def follow(checked: Checked, report: bytes) -> tuple[list[Line], Follower]:
    """The lines of a report and the follower that went along them; Stranger where it is none of this program."""
    try:
        lines = read_report(report)
    except NoReport as found:
        raise Stranger(f"line {found} is no line of a full report") from None
    follower = Follower(checked, lines)
    try:
        follower.run()
    except Illegal as found:
        wanted = f"; the rules give `{event_text(found.wanted)}` there" if found.wanted else ""
        raise Stranger(f"line {found.line} isn't one of this program's report{wanted}") from None
    return lines, follower
