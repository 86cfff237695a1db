"""A model of `ease walk`: it reads, checks, runs and prints.

It is written from the definition of the language and shares no text with the program,
so that `tools/check_model` can compare the two. `python3 tools/model.py FILE N [READING ..]` writes its
answer, and `python3 tools/model.py --self-test` tries it on cases worked out by hand.
"""

from __future__ import annotations

import operator
import sys
from collections.abc import Callable, Iterator
from pathlib import Path
from typing import NamedTuple

from model_text import GREATEST_WORD, NoTree, Refused, read_program, show
from model_text import Assign, Block, Choose, Dma, End, Exit, Expr, For, If, Io, Name, Next, Place, Point, Program
from model_text import Stmt, Task

SOURCE_BYTES = 65_536
TASKS, NAMES, NAME_BYTES, WORDS = 64, 256, 32, 2_048
TURNS, UNROLLED, LOOPS, NODES = 65_535, 64, 3, 32_768
SITES, KEPT_WORDS, ARGUMENTS, PERIPHERAL = 128, 16_384, 4, 255

STATUS_OK, STATUS_REFUSED, STATUS_TOO_LONG, STATUS_TRAPPED = 0, 2, 7, 9
# The answer where the tokens have no tree: the definition doesn't fix the place that follows.
NO_TREE = b"source syntax at "


class Trap(Exception):
    """The run ends with this code."""


class NoReading(Exception):
    """A call finds no reading left."""


# Checks

FAULTS = (
    "unknown-name twice-named wrong-kind const-written dma-under-if too-many".split()
    + "tasks names nv-words vol-words length name-bytes peripheral turns loops sites kept-words nodes".split()
)


class Fault(NamedTuple):
    """A fault; the first by place answers, and at one place the one with the lowest rank."""

    at: Place
    rank: int
    count: int

    def __str__(self) -> str:
        what = FAULTS[self.rank]
        return f"source {show(self.at)} " + (f"limit {what} {self.count}" if self.count >= 0 else what)


class Sort(NamedTuple):
    """What a name stands for: words of a kind, a `pointer`, a `peripheral` or a `task`."""

    kind: str
    length: int | None = None

    @property
    def has_words(self) -> bool:
        return self.kind in ("nv", "const", "vol")

    @property
    def is_array(self) -> bool:
        return self.length is not None

    @property
    def is_scalar(self) -> bool:
        return self.has_words and not self.is_array

    @property
    def has_places(self) -> bool:
        return self.is_array or self.kind == "pointer"


class Around(NamedTuple):
    """What stands around a statement: loops by their variables, how many of them are pure, and whether an `if` does."""

    loops: tuple[str, ...] = ()
    pure: int = 0
    in_if: bool = False


def check(program: Program) -> None:
    checker = Checker()
    checker.program(program)
    if checker.faults:
        raise Refused(str(min(checker.faults)))


def sorted_names(program: Program) -> Iterator[tuple[Name, Sort]]:
    for decl in program.decls:
        yield decl.name, Sort(decl.kind, decl.length)
    for task in program.tasks:
        yield task.name, Sort("task")


def inside(statement: Stmt) -> list[Stmt]:
    """The statements directly in a statement."""
    if isinstance(statement, If):
        return statement.yes + statement.no
    return statement.body if isinstance(statement, (For, Block)) else []


def has_sites(body: list[Stmt]) -> bool:
    return any(isinstance(s, (Io, Block, Dma)) or has_sites(inside(s)) for s in body)


def times(statement: Stmt) -> int:
    """How often the statements in a statement stand after unrolling."""
    return statement.turns.value if isinstance(statement, For) and has_sites(statement.body) else 1


class Checker:
    """Gathers every fault of a program, in any order."""

    def __init__(self) -> None:
        self.faults: list[Fault] = []
        self.sorts: dict[str, Sort] = {}
        self.points: dict[str, set[str]] = {}
        self.nodes = 0

    def fault(self, at: Place, what: str, count: int = -1) -> None:
        self.faults.append(Fault(at, FAULTS.index(what), count))

    def program(self, program: Program) -> None:
        self.names(program)
        self.words(program, "nv-words", ("nv", "const"))
        self.words(program, "vol-words", ("vol",))
        numbers: set[int] = set()
        for decl in program.decls:
            if len(decl.values) > decl.words:
                self.fault(decl.name.at, "too-many")
            if decl.has_words and decl.words == 0:
                self.fault(decl.name.at, "length", 0)
            if decl.kind == "peripheral":
                self.peripheral(decl.name, decl.number, numbers)
        for count, task in enumerate(program.tasks, 1):
            if count > TASKS:
                self.fault(task.name.at, "tasks", count)
            self.task(task)

    def peripheral(self, name: Name, number: int, numbers: set[int]) -> None:
        if number in numbers:
            self.fault(name.at, "twice-named")
        numbers.add(number)
        if number > PERIPHERAL:
            self.fault(name.at, "peripheral", number)

    def names(self, program: Program) -> None:
        for count, (name, sort) in enumerate(sorted_names(program), 1):
            if name.text in self.sorts:
                self.fault(name.at, "twice-named")
            self.sorts.setdefault(name.text, sort)
            if count > NAMES:
                self.fault(name.at, "names", count)
            if len(name.text) > NAME_BYTES:
                self.fault(name.at, "name-bytes", len(name.text))

    def words(self, program: Program, limit: str, kinds: tuple[str, ...]) -> None:
        total = 0
        for decl in program.decls:
            total += decl.words if decl.kind in kinds else 0
            if total > WORDS and decl.kind in kinds:
                self.fault(decl.name.at, limit, total)

    def task(self, task: Task) -> None:
        self.points = {}
        self.addresses(task.body)
        self.body(task.body, Around())
        self.exit(task.exit)
        sites, kept = self.sites(task.body)
        if sites > SITES:
            self.fault(task.close, "sites", sites)
        if kept > KEPT_WORDS:
            self.fault(task.close, "kept-words", kept)
        self.nodes += body_nodes(task.body) + exit_nodes(task.exit)
        if self.nodes > NODES:
            self.fault(task.close, "nodes", self.nodes)

    def sort(self, name: Name) -> Sort:
        return self.sorts.get(name.text, Sort("none"))

    def addresses(self, body: list[Stmt]) -> None:
        """Gathers the arrays to which each pointer may point."""
        for statement in body:
            if isinstance(statement, Point):
                if self.sort(statement.name).kind == "pointer" and self.sort(statement.other).has_words:
                    self.points.setdefault(statement.name.text, set()).add(statement.other.text)
            elif times(statement) > 0:
                self.addresses(inside(statement))

    def reached(self, name: Name) -> set[str]:
        """The arrays in which a place of this name may be."""
        return self.points.get(name.text, set()) if self.sort(name).kind == "pointer" else {name.text}

    def longest(self, end: End) -> int:
        lengths = [self.sorts[name].length for name in self.reached(end.name) if name in self.sorts and self.sorts[name].has_words]
        return max([1 if length is None else length for length in lengths], default=0)

    def sites(self, body: list[Stmt]) -> tuple[int, int]:
        """The sites of a body and the words that its copies keep."""
        sites, kept = 0, 0
        for statement in body:
            more, words = self.sites(inside(statement))
            sites += times(statement) * more + isinstance(statement, (Io, Block, Dma))
            kept += times(statement) * words
            if isinstance(statement, Dma):
                kept += min(self.longest(statement.to), self.longest(statement.source))
        return sites, kept

    def body(self, body: list[Stmt], around: Around) -> None:
        for statement in body:
            self.statement(statement, around)

    def statement(self, statement: Stmt, around: Around) -> None:
        if isinstance(statement, Assign):
            self.target(statement.name, statement.index, around)
            self.expr(statement.value)
        elif isinstance(statement, Point):
            self.use(statement.name, lambda sort: sort.kind == "pointer")
            self.address(statement.other, statement.index)
        elif isinstance(statement, Io):
            self.call(statement, around)
        elif isinstance(statement, Block):
            self.body(statement.body, around)
        elif isinstance(statement, Dma):
            self.copy(statement, around)
        elif isinstance(statement, If):
            self.expr(statement.condition)
            self.body(statement.yes + statement.no, around._replace(in_if=True))
        else:
            self.loop(statement, around)

    def address(self, name: Name, index: Expr | None) -> None:
        if index is None:
            self.use(name, lambda sort: sort.is_scalar)
        else:
            self.use(name, lambda sort: sort.is_array)
            self.expr(index)

    def target(self, name: Name, index: Expr | None, around: Around) -> None:
        if index is None:
            self.use(name, lambda sort: sort.is_scalar and name.text not in around.loops)
        else:
            turning = self.sort(name).kind == "pointer" and self.reached(name) & set(around.loops)
            self.use(name, lambda sort: sort.has_places and not turning)
            self.expr(index)
        self.written(name)

    def written(self, name: Name) -> None:
        if any(self.sorts[array].kind == "const" for array in self.reached(name) if array in self.sorts):
            self.fault(name.at, "const-written")

    def call(self, call: Io, around: Around) -> None:
        if call.target is not None:
            self.target(call.target.name, call.target.index, around)
        self.use(call.name, lambda sort: sort.kind == "peripheral")
        for argument in call.args:
            self.expr(argument)
        if len(call.args) > ARGUMENTS:
            self.fault(call.at, "too-many")

    def copy(self, copy: Dma, around: Around) -> None:
        if around.in_if:
            self.fault(copy.at, "dma-under-if")
        for end in (copy.to, copy.source):
            if end.is_bare:
                self.use(end.name, lambda sort: sort.has_places)
            else:
                self.address(end.name, end.index)
        self.written(copy.to.name)
        self.expr(copy.words)

    def loop(self, loop: For, around: Around) -> None:
        is_pure = not has_sites(loop.body)
        if is_pure and around.pure >= LOOPS:
            self.fault(loop.at, "loops", around.pure + 1)
        self.use(loop.name, lambda sort: sort == Sort("vol") and loop.name.text not in around.loops)
        if loop.turns.value > (TURNS if is_pure else UNROLLED):
            self.fault(loop.turns.at, "turns", loop.turns.value)
        self.body(loop.body, around._replace(loops=(*around.loops, loop.name.text), pure=around.pure + is_pure))

    def exit(self, leave: Exit) -> None:
        if isinstance(leave, Next):
            self.use(leave.name, lambda sort: sort.kind == "task")
        elif isinstance(leave, Choose):
            self.expr(leave.condition)
            self.exit(leave.yes)
            self.exit(leave.no)

    def expr(self, expr: Expr) -> None:
        if expr.name:
            wants_places = expr.op == "index"
            self.use(expr.name, lambda sort: sort.has_places if wants_places else sort.is_scalar)
        for part in expr.parts:
            self.expr(part)

    def use(self, name: Name, is_right: Callable[[Sort], bool]) -> None:
        if name.text not in self.sorts:
            self.fault(name.at, "unknown-name")
        elif not is_right(self.sorts[name.text]):
            self.fault(name.at, "wrong-kind")


def body_nodes(body: list[Stmt]) -> int:
    return sum(map(statement_nodes, body))


def place_nodes(index: Expr | None) -> int:
    """A target, an address or an end counts 1 besides its index."""
    return 1 + (expr_nodes(index) if index else 0)


def statement_nodes(statement: Stmt) -> int:
    """The statement itself and its parts; an unrolled loop counts each turn, and 3 each time that its variable is set."""
    if isinstance(statement, Assign):
        return 1 + place_nodes(statement.index) + expr_nodes(statement.value)
    if isinstance(statement, Point):
        return 1 + place_nodes(statement.index)
    if isinstance(statement, Io):
        target = place_nodes(statement.target.index) if statement.target else 0
        return 1 + target + sum(map(expr_nodes, statement.args))
    if isinstance(statement, Dma):
        return 1 + place_nodes(statement.to.index) + place_nodes(statement.source.index) + expr_nodes(statement.words)
    if isinstance(statement, If):
        return 1 + expr_nodes(statement.condition) + body_nodes(statement.yes) + body_nodes(statement.no)
    if isinstance(statement, For) and has_sites(statement.body):
        return times(statement) * body_nodes(statement.body) + 3 * (times(statement) + 1)
    return 1 + body_nodes(statement.body)


def exit_nodes(leave: Exit) -> int:
    if isinstance(leave, Choose):
        return 1 + expr_nodes(leave.condition) + exit_nodes(leave.yes) + exit_nodes(leave.no)
    return 1


def expr_nodes(expr: Expr) -> int:
    return (expr.op != "paren") + sum(map(expr_nodes, expr.parts))


# The run

ONE = {"!": operator.not_, "~": operator.invert, "-": operator.neg}
TWO = {
    "|": operator.or_, "^": operator.xor, "&": operator.and_,
    "==": operator.eq, "!=": operator.ne,
    "<": operator.lt, "<=": operator.le, ">": operator.gt, ">=": operator.ge,
    "<<": lambda a, b: a << b if b < 32 else 0,
    ">>": lambda a, b: a >> b if b < 32 else 0,
    "+": operator.add, "-": operator.sub, "*": operator.mul,
    "/": operator.floordiv, "%": operator.mod,
}  # fmt: skip


class Run:
    """The unbroken run of a checked program, as a map from names to words."""

    def __init__(self, program: Program, readings: list[int]) -> None:
        self.decls = program.decls
        self.tasks = program.tasks
        self.numbers = {task.name.text: number for number, task in enumerate(program.tasks, 1)}
        self.readings = list(readings)
        self.store: dict[str, list[int]] = {}
        self.pointers: dict[str, tuple[str, int] | None] = {}
        self.declare("nv", "const", "vol")

    def declare(self, *kinds: str) -> None:
        for decl in self.decls:
            if decl.kind in kinds:
                self.store[decl.name.text] = decl.values + [0] * (decl.words - len(decl.values))
        self.pointers = {decl.name.text: None for decl in self.decls if decl.kind == "pointer"}

    def lines(self, tasks: int) -> Iterator[str]:
        """The printed lines of at most so many tasks; a trap comes out of it after the last."""
        number = 1
        for _ in range(tasks):
            task = self.tasks[number - 1]
            self.declare("vol")
            self.body(task.body)
            number = self.exit(task.exit)
            yield f"commit {number}"
            for decl in self.decls:
                if decl.kind == "nv":
                    yield " ".join([decl.name.text, "=", *map(str, self.store[decl.name.text])])
            if number == 0:
                yield "end stopped"
                return
        yield "end limit"

    def body(self, body: list[Stmt]) -> None:
        for statement in body:
            self.statement(statement)

    def statement(self, statement: Stmt) -> None:
        if isinstance(statement, Assign):
            array, at = self.place(statement.name, statement.index)
            self.store[array][at] = self.value(statement.value)
        elif isinstance(statement, Point):
            self.pointers[statement.name.text] = self.place(statement.other, statement.index)
        elif isinstance(statement, Io):
            self.call(statement)
        elif isinstance(statement, Block):
            self.body(statement.body)
        elif isinstance(statement, Dma):
            self.copy(statement)
        elif isinstance(statement, If):
            self.body(statement.yes if self.value(statement.condition) else statement.no)
        else:
            self.loop(statement)

    def call(self, call: Io) -> None:
        place = self.place(call.target.name, call.target.index) if call.target else None
        for argument in call.args:
            self.value(argument)
        if not self.readings:
            raise NoReading
        word = self.readings.pop(0)
        if place:
            self.store[place[0]][place[1]] = word

    def copy(self, copy: Dma) -> None:
        (to, t), (source, f) = self.end(copy.to), self.end(copy.source)
        words = self.value(copy.words)
        for array, at in ((to, t), (source, f)):
            if at + words > len(self.store[array]):
                raise Trap(4)
        for word in range(words):
            self.store[to][t + word] = self.store[source][f + word]

    def end(self, end: End) -> tuple[str, int]:
        if end.is_bare and end.name.text not in self.pointers:
            return end.name.text, 0
        return self.pointed(end.name) if end.is_bare else self.place(end.name, end.index)

    def pointed(self, name: Name) -> tuple[str, int]:
        place = self.pointers[name.text]
        if place is None:
            raise Trap(3)
        return place

    def loop(self, loop: For) -> None:
        for turn in range(loop.turns.value):
            self.store[loop.name.text][0] = turn
            self.body(loop.body)
        self.store[loop.name.text][0] = loop.turns.value

    def exit(self, leave: Exit) -> int:
        if isinstance(leave, Choose):
            return self.exit(leave.yes if self.value(leave.condition) else leave.no)
        return self.numbers[leave.name.text] if isinstance(leave, Next) else 0

    def place(self, name: Name, index: Expr | None) -> tuple[str, int]:
        """The array and the place that an index names, in the array or behind the place that a pointer points to."""
        at = self.value(index) if index else 0
        array, first = self.pointed(name) if name.text in self.pointers else (name.text, 0)
        if first + at >= len(self.store[array]):
            raise Trap(1)
        return array, first + at

    def value(self, expr: Expr) -> int:
        if expr.op == "number":
            return expr.number
        if expr.name:
            array, at = self.place(expr.name, expr.parts[0] if expr.op == "index" else None)
            return self.store[array][at]
        left = self.value(expr.parts[0])
        if expr.op == "paren":
            return left
        if len(expr.parts) == 1:
            return ONE[expr.op](left) & GREATEST_WORD
        return self.two(expr.op, left, expr.parts[1])

    def two(self, op: str, left: int, right_side: Expr) -> int:
        if op == "&&" and not left:
            return 0
        if op == "||" and left:
            return 1
        right = self.value(right_side)
        if op in ("&&", "||"):
            return int(right != 0)
        if op in ("/", "%") and right == 0:
            raise Trap(2)
        return TWO[op](left, right) & GREATEST_WORD


def walk(source: bytes, tasks: int, readings: list[int] | None = None) -> tuple[int, bytes]:
    """The status and the output of `ease walk` on this source and these readings; NO_TREE where the place isn't fixed."""
    if len(source) > SOURCE_BYTES:
        return STATUS_TOO_LONG, b"too long\n"
    try:
        program = read_program(source)
        check(program)
    except NoTree:
        return STATUS_REFUSED, NO_TREE
    except Refused as refused:
        return STATUS_REFUSED, f"{refused}\n".encode()
    status, output = STATUS_OK, ""
    try:
        for line in Run(program, readings or []).lines(tasks):
            output += f"{line}\n"
    except Trap as trap:
        status = STATUS_TRAPPED
        output += f"end trapped {trap}\n"
    except NoReading:
        output += "end reading\n"
    return status, output.encode()


def self_test() -> None:
    from model_cases import CASES

    for name, source, tasks, status, output, readings in CASES:
        wanted = (status, output)
        answer = walk(source, tasks, readings)
        if answer != wanted:
            sys.exit(f"model: {name}: {answer} for {wanted}")
    print(f"model: {len(CASES)} cases as worked out by hand")


def main(words: list[str]) -> None:
    if words == ["--self-test"]:
        self_test()
    elif len(words) >= 2 and all(word.isdecimal() for word in words[1:]):
        status, output = walk(Path(words[0]).read_bytes(), int(words[1]), [int(word) for word in words[2:]])
        sys.stdout.buffer.write(output)
        sys.exit(status)
    else:
        sys.exit("usage: model.py FILE N [READING ..] | model.py --self-test")


if __name__ == "__main__":
    main(sys.argv[1:])
