"""Which later site depends on an I/O site, where pointers may point, and what each region of a task writes first.

It is the static account of a task, for the model of the rules of attempts; sets of sites are numbers, with site k at bit k.
"""

from __future__ import annotations

from collections.abc import Iterator
from typing import NamedTuple

from model_text import Assign, Dma, End, Expr, Name, Point
from rules_core import Branch, Call, Checked, CheckedTask, Copy, Loop, Part, Plain, Scope, checked_form


class Account(NamedTuple):
    """What is known of a task before it runs; `forces` has the later sites that depend on each I/O site, ascending."""

    forces: dict[int, list[int]]
    members: dict[int, list[int]]  # of each block, at any depth
    points: dict[str, set[str]]
    firsts: list[set[str]]  # what each region writes first
    to: dict[int, set[str]]  # the arrays in which a copy may end
    source: dict[int, set[str]]


def checked(source: bytes) -> Checked:
    """The checked form of a source with its accounts; Refused or NoTree where it has none."""
    form = checked_form(source)
    form.accounts.extend(account(form, task) for task in form.tasks)
    return form


def account(checked: Checked, task: CheckedTask) -> Account:
    flow = Flow(checked, task)
    flow.body(task.body, 0)
    forces = {site.number: flow.dependents(site.number) for site in task.sites if site.kind == "io"}
    return Account(forces, flow.members, flow.points, list(regions(checked, task, flow)), flow.to, flow.source)


def inside(part: Part) -> list[Part]:
    if isinstance(part, Branch):
        return part.yes + part.no
    return part.body if isinstance(part, (Loop, Scope)) else []


def all_parts(body: list[Part]) -> Iterator[Part]:
    for part in body:
        yield part
        yield from all_parts(inside(part))


class Flow:
    """One forward pass over a task; `sets` has for each array and pointer the sites whose words it may carry."""

    def __init__(self, checked: Checked, task: CheckedTask) -> None:
        self.kinds, self.pointers = checked.kinds, set(checked.pointers)
        self.points: dict[str, set[str]] = {name: set() for name in checked.pointers}
        for part in all_parts(task.body):
            if isinstance(part, Plain) and isinstance(part.text, Point):
                self.points[part.text.name.text].add(part.text.other.text)
        self.sets: dict[str, int] = {}
        self.depends: dict[int, int] = {}
        self.members: dict[int, list[int]] = {}
        self.to: dict[int, set[str]] = {}
        self.source: dict[int, set[str]] = {}

    def dependents(self, site: int) -> list[int]:
        return [later for later in sorted(self.depends) if later > site and self.depends[later] >> site & 1]

    def reached(self, name: str) -> set[str]:
        """The arrays in which a place behind this name may be."""
        return self.points[name] if name in self.pointers else {name}

    def names_read(self, expr: Expr | None) -> set[str]:
        """The arrays and pointers that an expression reads."""
        if expr is None:
            return set()
        names = set().union(*map(self.names_read, expr.parts))
        return names | {expr.name.text} | self.reached(expr.name.text) if expr.name else names

    def union(self, names: set[str]) -> int:
        sites = 0
        for name in names:
            sites |= self.sets.get(name, 0)
        return sites

    def of(self, expr: Expr | None) -> int:
        return self.union(self.names_read(expr))

    def add(self, names: set[str], sites: int) -> None:
        for name in names:
            self.sets[name] = self.sets.get(name, 0) | sites

    def body(self, body: list[Part], conditions: int) -> None:
        for part in body:
            self.part(part, conditions)

    def part(self, part: Part, conditions: int) -> None:
        if isinstance(part, Plain) and isinstance(part.text, Assign):
            added = self.of(part.text.index) | self.of(part.text.value) | conditions
            self.write(part.text.name, part.text.index, added)
        elif isinstance(part, Plain):
            self.add({part.text.name.text}, self.of(part.text.index) | conditions)
        elif isinstance(part, Branch):
            self.branch(part, conditions)
        elif isinstance(part, Loop):
            read, written = self.loop(part)
            self.add(written, self.union(read) | conditions)
        elif isinstance(part, Call):
            self.call(part, conditions)
        elif isinstance(part, Scope):
            self.scope(part, conditions)
        else:
            self.copy(part, conditions)

    def write(self, name: Name, index: Expr | None, added: int) -> None:
        """A target takes a word; a pointer's own set is part of it."""
        if index is not None and name.text in self.pointers:
            added |= self.sets.get(name.text, 0)
        self.add(self.reached(name.text), added)

    def branch(self, part: Branch, conditions: int) -> None:
        conditions |= self.of(part.condition)
        before = dict(self.sets)
        self.body(part.yes, conditions)
        after, self.sets = self.sets, before
        self.body(part.no, conditions)
        for name, sites in after.items():
            self.add({name}, sites)

    def loop(self, loop: Loop) -> tuple[set[str], set[str]]:
        """All that a loop without sites reads and all that it may write."""
        read, written = set(), {loop.name.text}
        for part in all_parts(loop.body):
            if isinstance(part, Branch):
                read |= self.names_read(part.condition)
            elif isinstance(part, Loop):
                written.add(part.name.text)
            elif isinstance(part.text, Point):
                read |= self.names_read(part.text.index)
                written.add(part.text.name.text)
            else:
                read |= self.names_read(part.text.index) | self.names_read(part.text.value)
                written |= self.reached(part.text.name.text)
                if part.text.name.text in self.pointers:
                    read |= {part.text.name.text} | self.reached(part.text.name.text)
        return read, written

    def call(self, call: Call, conditions: int) -> None:
        depends = conditions
        for argument in call.text.args:
            depends |= self.of(argument)
        self.depends[call.site.number] = depends
        if call.text.target:
            name, index = call.text.target
            self.write(name, index, 1 << call.site.number | conditions | self.of(index))

    def scope(self, scope: Scope, conditions: int) -> None:
        self.depends[scope.site.number] = conditions
        self.body(scope.body, conditions)
        members = [part.site.number for part in all_parts(scope.body) if isinstance(part, (Call, Scope, Copy))]
        self.members[scope.site.number] = members
        depends = conditions
        for member in members:
            depends |= self.depends[member]
        for member in members:
            depends &= ~(1 << member)
        self.depends[scope.site.number] = depends

    def end(self, end: End) -> tuple[int, set[str]]:
        """The sites on which a copy's end depends, and the arrays in which it may be."""
        if end.is_bare:
            own = self.sets.get(end.name.text, 0) if end.name.text in self.pointers else 0
            return own, self.reached(end.name.text)
        return self.of(end.index), {end.name.text}

    def copy(self, copy: Copy, conditions: int) -> None:
        text: Dma = copy.text
        (to, targets), (source, sources) = self.end(text.to), self.end(text.source)
        depends = conditions | to | source | self.of(text.words) | self.union(sources)
        self.depends[copy.site.number] = depends
        self.to[copy.site.number], self.source[copy.site.number] = targets, sources
        self.add(targets, depends)


def regions(checked: Checked, task: CheckedTask, flow: Flow) -> Iterator[set[str]]:
    """The nonvolatile arrays that each region may write and no earlier one may."""
    copies = sum(site.kind == "copy" for site in task.sites)
    written: list[set[str]] = [set() for _ in range(copies + 1)]
    region = 0
    for part in all_parts(task.body):
        if isinstance(part, Copy):
            region = part.site.region
        written[region] |= {name for name in writes(part, flow) if checked.kinds[name] == "nv"}
    earlier: set[str] = set()
    for names in written:
        yield names - earlier
        earlier |= names


def writes(part: Part, flow: Flow) -> set[str]:
    if isinstance(part, Plain):
        return flow.reached(part.text.name.text) if isinstance(part.text, Assign) else set()
    if isinstance(part, Call):
        return flow.reached(part.text.target.name.text) if part.text.target else set()
    if isinstance(part, Copy):
        return flow.to[part.site.number]
    return {part.name.text} if isinstance(part, Loop) else set()
