"""The checked form of a program, for the model of the rules of attempts: loops with sites unrolled, sites numbered, steps counted.

It is written from docs/LANGUAGE.md and docs/ATTEMPTS.md and shares no text with the program. Dependence and regions stand in
rules_flow.py, what an attempt does in rules_attempts.py.
"""

from __future__ import annotations

from collections.abc import Iterator
from typing import TYPE_CHECKING, NamedTuple, Union

from model import check, has_sites
from model_text import Ann, Choose, Expr, Name, Place, Program, Target, read_program
from model_text import Assign, Block, Dma, End, Exit, For, If, Io, Next, Point, Stmt, Stop, Task

if TYPE_CHECKING:
    from rules_flow import Account

NODE, THROUGH, ASSIGNMENT, CHOICE, LOOP, TURN = 12, 12, 16, 16, 24, 24


class Site(NamedTuple):
    """A site as the text has it; `number` counts from 1 within the task."""

    number: int
    kind: str  # io, block or copy
    at: Place
    ann: Ann | None
    name: str  # of the peripheral of a call
    text: Stmt
    region: int  # of a copy


class Plain(NamedTuple):
    """An assignment or a pointer's assignment, with the steps that the table of costs gives it."""

    text: Assign | Point
    steps: int


class Branch(NamedTuple):
    condition: Expr
    yes: list[Part]
    no: list[Part]
    steps: int


class Loop(NamedTuple):
    """A loop without sites."""

    name: Name
    turns: int
    body: list[Part]


class Call(NamedTuple):
    site: Site
    text: Io
    steps: int  # of its expressions


class Scope(NamedTuple):
    site: Site
    body: list[Part]


class Copy(NamedTuple):
    site: Site
    text: Dma
    steps: int  # of its expressions


Part = Union[Plain, Branch, Loop, Call, Scope, Copy]


class Leave(NamedTuple):
    """An exit: a choice has a condition, otherwise `next` is the next task's number, 0 where the program stops."""

    next: int
    condition: Expr | None = None
    yes: Leave | None = None
    no: Leave | None = None
    steps: int = 0


class CheckedTask(NamedTuple):
    number: int
    name: str
    body: list[Part]
    leave: Leave
    sites: list[Site]


class Checked(NamedTuple):
    """A checked program; `lengths` has the words of each array, `kinds` whether they are nv, const or vol."""

    program: Program
    kinds: dict[str, str]
    lengths: dict[str, int]
    pointers: list[str]
    peripherals: dict[str, int]
    tasks: list[CheckedTask]
    accounts: list[Account]  # of the tasks, which rules_flow.py puts here

    def words(self, kind: str) -> int:
        return sum(length for name, length in self.lengths.items() if self.kinds[name] == kind)


def checked_form(source: bytes) -> Checked:
    """The checked form of a source, without its accounts; Refused or NoTree where it has none."""
    program = read_program(source)
    check(program)
    arrays = [decl for decl in program.decls if decl.has_words]
    pointers = [decl.name.text for decl in program.decls if decl.kind == "pointer"]
    numbers = {task.name.text: number for number, task in enumerate(program.tasks, 1)}
    return Checked(
        program,
        {decl.name.text: decl.kind for decl in arrays},
        {decl.name.text: decl.words for decl in arrays},
        pointers,
        {decl.name.text: decl.number for decl in program.decls if decl.kind == "peripheral"},
        [Numbering(set(pointers), numbers).task(task) for task in program.tasks],
        [],
    )


class Numbering:
    """Makes the checked form of one task, numbering its sites in the order of the text."""

    def __init__(self, pointers: set[str], tasks: dict[str, int]) -> None:
        self.pointers, self.tasks = pointers, tasks
        self.sites: list[Site] = []

    def task(self, task: Task) -> CheckedTask:
        body, leave = self.body(task.body), self.leave(task.exit)
        return CheckedTask(self.tasks[task.name.text], task.name.text, body, leave, self.sites)

    def body(self, body: list[Stmt]) -> list[Part]:
        return [part for statement in body for part in self.parts(statement)]

    def parts(self, statement: Stmt) -> Iterator[Part]:
        if isinstance(statement, For):
            yield from self.turns(statement)
        elif isinstance(statement, If):
            steps = CHOICE + self.steps(statement.condition)
            yield Branch(statement.condition, self.body(statement.yes), self.body(statement.no), steps)
        elif isinstance(statement, Io):
            target = self.target(statement.target) if statement.target else 0
            yield Call(self.site("io", statement), statement, target + sum(map(self.steps, statement.args)))
        elif isinstance(statement, Block):
            site = self.site("block", statement)
            yield Scope(site, self.body(statement.body))
        elif isinstance(statement, Dma):
            ends = self.end(statement.to) + self.end(statement.source)
            yield Copy(self.site("copy", statement), statement, ends + self.steps(statement.words))
        else:
            yield self.plain(statement)

    def turns(self, loop: For) -> Iterator[Part]:
        """A loop without sites stays one; another becomes its turns, each behind a setting of its variable."""
        if not has_sites(loop.body):
            yield Loop(loop.name, loop.turns.value, self.body(loop.body))
            return
        for turn in range(loop.turns.value):
            yield self.plain(Assign(loop.name, None, Expr("number", number=turn)))
            yield from self.body(loop.body)
        yield self.plain(Assign(loop.name, None, Expr("number", number=loop.turns.value)))

    def plain(self, statement: Assign | Point) -> Plain:
        if isinstance(statement, Assign):
            target = self.target(Target(statement.name, statement.index))
            return Plain(statement, ASSIGNMENT + target + self.steps(statement.value))
        return Plain(statement, ASSIGNMENT + self.index(statement.index))

    def site(self, kind: str, text: Io | Block | Dma) -> Site:
        ann = None if isinstance(text, Dma) else text.ann
        region = 1 + sum(site.kind == "copy" for site in self.sites) if kind == "copy" else 0
        name = text.name.text if isinstance(text, Io) else ""
        self.sites.append(Site(len(self.sites) + 1, kind, text.at, ann, name, text, region))
        return self.sites[-1]

    def leave(self, leave: Exit) -> Leave:
        if isinstance(leave, Choose):
            steps = CHOICE + self.steps(leave.condition)
            return Leave(0, leave.condition, self.leave(leave.yes), self.leave(leave.no), steps)
        return Leave(self.tasks[leave.name.text] if isinstance(leave, Next) else 0)

    # Steps of expressions: 12 a node, a scalar being an array with the index 0

    def steps(self, expr: Expr) -> int:
        if expr.op == "paren":
            return self.steps(expr.parts[0])
        scalar = NODE if expr.op == "read" else 0
        through = THROUGH if expr.op == "index" and expr.name.text in self.pointers else 0
        return NODE + scalar + through + sum(map(self.steps, expr.parts))

    def index(self, index: Expr | None) -> int:
        return self.steps(index) if index else NODE

    def target(self, target: Target) -> int:
        through = THROUGH if target.index and target.name.text in self.pointers else 0
        return through + self.index(target.index)

    def end(self, end: End) -> int:
        return 0 if end.is_bare and end.name.text in self.pointers else self.index(end.index)
