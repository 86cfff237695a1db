"""What attempts and boots do: the rules of attempts of docs/ATTEMPTS.md as a program that runs.

A watcher is told each event before anything of it is done, and ends the boot there by raising Cut; so what stands behind a
Cut is what the events before it left. The steps that are allowed are those of the table "How soon".
"""

from __future__ import annotations

from typing import NamedTuple, Union

from model import Run, Trap
from model_text import Ann, End
from rules_core import Branch, Call, Checked, CheckedTask, Copy, Leave, Loop, Part, Scope
from rules_flow import Account

OWN, KEEP, FORCE = "own", "keep", "force"
BOOT, REGION, BEGINNING, WORD = 64, 16, 64, 12
CALL, DEPENDENT, BLOCK, COPY, MOVED, COMMIT = 96, 12, 64, 96, 28, 32

Event = tuple[Union[str, int], ...]
Spot = tuple[str, int]


class Cut(Exception):
    """The power fails."""


class CallRecord(NamedTuple):
    value: int
    stamp: int
    args: tuple[int, ...]


class BlockRecord(NamedTuple):
    stamp: int


class CopyRecord(NamedTuple):
    is_single: bool
    to: Spot
    source: Spot
    words: list[int]


class Watcher:
    """Follows a run: it is told each event, and tells the time of each look."""

    def event(self, event: Event, allowed: int) -> None:
        """The next event, and by which step of its boot it must have come; Cut where the boot ends before it."""
        raise NotImplementedError

    def look(self, site: int, allowed: int) -> int:
        """The same of a look; the answer is its time."""
        raise NotImplementedError


def choice(mode: str, ann: Ann, stamp: int | None, time: int) -> bool:
    """Whether a call with such a record, or none, keeps it."""
    if stamp is None or mode == FORCE:
        return False
    return mode == KEEP or ann.kind == "SINGLE" or (ann.kind == "TIMELY" and time - stamp <= ann.ticks)


def entered(mode: str, ann: Ann, stamp: int | None, time: int) -> str:
    """The mode inside a block."""
    if mode != OWN or (stamp is None and ann.kind != "ALWAYS"):
        return mode
    return KEEP if choice(mode, ann, stamp, time) else FORCE


def place(spot: Spot) -> str:
    return f"{spot[0]}[{spot[1]}]"


class Computer:
    """A computer between two boots, and what a boot does with it."""

    def __init__(self, checked: Checked, readings: dict[str, list[int]], scheme: str = "undo") -> None:
        self.checked, self.scheme = checked, scheme
        self.readings = readings
        self.run = Run(checked.program, [])
        self.committed = self.nonvolatile()
        self.next = 1
        self.records: dict[int, CallRecord | BlockRecord | CopyRecord] = {}
        self.issues: dict[str, int] = {}
        self.furthest = 0  # the greatest region whose copy gave an event in this instance
        self.allowed = 0
        self.attempt: Attempt | None = None  # the one that runs
        self.disagreements: list[str] = []

    def nonvolatile(self) -> dict[str, list[int]]:
        return {name: list(words) for name, words in self.run.store.items() if self.checked.kinds[name] == "nv"}

    def words(self, arrays: set[str]) -> int:
        return sum(self.checked.lengths[name] for name in arrays)

    def boot(self, watcher: Watcher) -> bool:
        """Does attempts until the watcher cuts them; True where they end by themselves, since nothing is next or one trapped."""
        try:
            if self.next == 0:
                return True
            self.begin_boot()
            while self.next:
                Attempt(self, watcher).run_task()
        except Trapped:
            return True
        except Cut:
            return False
        return True

    def begin_boot(self) -> None:
        self.allowed = BOOT
        if self.scheme == "undo":
            firsts = self.checked.accounts[self.next - 1].firsts
            saved = sum(map(self.words, firsts[: self.furthest + 2]))
            self.allowed += REGION * len(firsts) + WORD * saved

    def reading(self, name: str) -> int:
        """The reading of the peripheral's next issue."""
        values = self.readings.get(name, [])
        count = self.issues.get(name, 0)
        return values[min(count, len(values) - 1)] if values else 0


class Trapped(Exception):
    """An attempt trapped, and the watcher was told."""


class Attempt:
    """One run of a task from its beginning."""

    def __init__(self, computer: Computer, watcher: Watcher) -> None:
        self.computer, self.watcher = computer, watcher
        self.task: CheckedTask = computer.checked.tasks[computer.next - 1]
        self.account: Account = computer.checked.accounts[computer.next - 1]
        self.records = computer.records
        self.run = computer.run
        self.mode = OWN
        computer.attempt = self

    def allow(self, steps: int) -> None:
        self.computer.allowed += steps

    def event(self, *event: str | int) -> None:
        self.watcher.event(event, self.computer.allowed)

    def saved(self, region: int) -> int:
        """The steps that saving what a region writes first may take."""
        return WORD * self.computer.words(self.account.firsts[region]) if self.computer.scheme == "undo" else 0

    def run_task(self) -> None:
        checked, computer = self.computer.checked, self.computer
        saved = self.saved(0) if computer.scheme == "undo" else WORD * checked.words("nv")
        self.allow(BEGINNING + WORD * (checked.words("vol") + len(checked.pointers)) + saved)
        self.event("begin", self.task.number)
        self.run.declare("vol")
        for name, words in computer.committed.items():
            self.run.store[name] = list(words)
        try:
            self.body(self.task.body)
            following = self.leave(self.task.leave)
        except Trap as trap:
            self.event("trap", int(str(trap)))
            raise Trapped from None
        self.allow(COMMIT)
        self.event("commit", following)
        computer.committed, computer.next, computer.furthest = computer.nonvolatile(), following, 0
        computer.records.clear()

    def leave(self, leave: Leave) -> int:
        while leave.condition is not None:
            self.allow(leave.steps)
            leave = leave.yes if self.run.value(leave.condition) else leave.no
        return leave.next

    def body(self, body: list[Part]) -> None:
        for part in body:
            self.part(part)

    def part(self, part: Part) -> None:
        if isinstance(part, Branch):
            self.allow(part.steps)
            self.body(part.yes if self.run.value(part.condition) else part.no)
        elif isinstance(part, Loop):
            self.loop(part)
        elif isinstance(part, Call):
            self.call(part)
        elif isinstance(part, Scope):
            self.scope(part)
        elif isinstance(part, Copy):
            self.copy(part)
        else:
            self.allow(part.steps)
            self.run.statement(part.text)

    def loop(self, loop: Loop) -> None:
        self.allow(24)
        for turn in range(loop.turns):
            self.allow(24)
            self.run.store[loop.name.text][0] = turn
            self.body(loop.body)
        self.run.store[loop.name.text][0] = loop.turns

    def look(self, site: int) -> int:
        return self.watcher.look(site, self.computer.allowed)

    def drop(self, site: int) -> None:
        self.event("drop", site)
        self.records.pop(site, None)

    def call(self, call: Call) -> None:
        site, text = call.site.number, call.text
        self.allow(CALL + DEPENDENT * len(self.account.forces[site]) + call.steps)
        target = self.run.place(text.target.name, text.target.index) if text.target else None
        args = tuple(self.run.value(argument) for argument in text.args)
        time = self.look(site)
        record = self.records.get(site)
        if choice(self.mode, text.ann, record.stamp if record else None, time):
            if record.args != args:
                self.computer.disagreements.append(f"site {site} keeps for {args} what was issued for {record.args}")
            self.event("kept", site, record.value)
            word = record.value
        else:
            word = self.issue(call, args, time)
        if target:
            self.run.store[target[0]][target[1]] = word

    def issue(self, call: Call, args: tuple[int, ...], time: int) -> int:
        site, name = call.site.number, call.site.name
        for dropped in [site, *self.account.forces[site]]:
            self.drop(dropped)
        word = self.computer.reading(name)
        self.event("issue", site, name, args, word)
        self.computer.issues[name] = self.computer.issues.get(name, 0) + 1
        self.event("seal", site)
        self.records[site] = CallRecord(word, time, args)
        return word

    def scope(self, scope: Scope) -> None:
        site, outside = scope.site.number, self.mode
        self.allow(BLOCK)
        time = self.look(site)
        record = self.records.get(site)
        self.mode = inside = entered(outside, scope.site.ann, record.stamp if record else None, time)
        self.body(scope.body)
        self.mode = outside
        self.allow(BLOCK)
        if inside != KEEP:
            self.drop(site)
            self.event("seal", site)
            self.records[site] = BlockRecord(time)

    # Copies

    def copy(self, copy: Copy) -> None:
        site, text, record = copy.site.number, copy.text, self.records.get(copy.site.number)
        self.allow(COPY + self.saved(copy.site.region) + copy.steps)
        to, source = self.end(text.to), self.end(text.source)
        words = self.run.value(text.words)
        for array, at in (to, source):
            if at + words > len(self.run.store[array]):
                raise Trap(4)
        self.allow(MOVED * (len(record.words) if record else words))
        if record:
            if (record.to, record.source, len(record.words)) != (to, source, words):
                self.computer.disagreements.append(f"site {site} copies {source} to {to}, recorded {record.source} to {record.to}")
            self.recorded(copy, record)
        else:
            self.by_class(copy, to, source, words)

    def end(self, end: End) -> Spot:
        return self.run.end(end)

    def copied(self, copy: Copy, source: str, to: str, words: int) -> None:
        self.event("copy", copy.site.number, source, to, words)
        self.gave_event(copy)

    def gave_event(self, copy: Copy) -> None:
        self.computer.furthest = max(self.computer.furthest, copy.site.region)

    def put(self, to: Spot, words: list[int]) -> None:
        self.run.store[to[0]][to[1] : to[1] + len(words)] = words

    def recorded(self, copy: Copy, record: CopyRecord) -> None:
        if record.is_single:
            self.event("kept", copy.site.number, len(record.words))
            self.gave_event(copy)
        else:
            self.copied(copy, "keep", place(record.to), len(record.words))
        self.put(record.to, record.words)

    def by_class(self, copy: Copy, to: Spot, source: Spot, count: int) -> None:
        """A copy without a record, by the memories of its ends."""
        is_single = self.computer.checked.kinds[to[0]] != "vol"
        is_private = not is_single and self.computer.checked.kinds[source[0]] == "nv"
        if is_private:
            words = self.run.store[source[0]][source[1] : source[1] + count]
            self.copied(copy, place(source), "keep", count)
            self.seal(copy, CopyRecord(False, to, source, words))
            self.copied(copy, "keep", place(to), count)
            self.put(to, words)
            return
        self.copied(copy, place(source), place(to), count)
        for word in range(count):
            self.run.store[to[0]][to[1] + word] = self.run.store[source[0]][source[1] + word]
        if is_single:
            self.seal(copy, CopyRecord(True, to, source, self.run.store[to[0]][to[1] : to[1] + count]))

    def seal(self, copy: Copy, record: CopyRecord) -> None:
        self.event("seal", copy.site.number)
        self.records[copy.site.number] = record
