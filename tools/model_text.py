"""The tokens and trees of programs, for the model of `ease walk`."""

from __future__ import annotations

import re
import sys
from typing import NamedTuple, Union

GREATEST_WORD = 2**32 - 1
EXPRESSION_DEPTH, STATEMENT_NESTING, EXIT_NESTING = 24, 16, 16

# A number of any length is a token.
sys.set_int_max_str_digits(0)

Place = tuple[int, int]


class Refused(Exception):
    """The source is refused with this line."""


class NoTree(Exception):
    """The tokens have no tree."""


# Tokens

RESERVED = frozenset(
    "nv const word peripheral task if else for IO IO_BLOCK DMA NEXT STOP SINGLE TIMELY ALWAYS".split()
)
GAP = re.compile(rb"[ \t\r\n]+|//[^\n]*|/\*.*?\*/", re.DOTALL)
NAME = re.compile(rb"[A-Za-z_][A-Za-z0-9_]*")
NUMBER = re.compile(rb"(?:0x[0-9A-Fa-f]+|0|[1-9][0-9]*)(?![A-Za-z0-9_])")
SIGN = re.compile(rb"==|!=|<=|>=|<<|>>|&&|\|\||\+\+|/(?![/*])|[][{}();,=&|^~!+*%<>-]")


class Token(NamedTuple):
    """A token; a reserved word is of the kind `sign`, and the end is a sign without text."""

    kind: str
    text: str
    at: Place

    @property
    def value(self) -> int:
        return int(self.text, 16 if self.text.startswith("0x") else 10)


def divide(source: bytes) -> list[Token]:
    """The tokens of the source, with the end behind them."""
    tokens, at, line, line_start = [], 0, 1, 0
    while at < len(source):
        place = (line, at - line_start + 1)
        kind, piece = piece_at(source, at)
        if kind == "none":
            raise Refused(f"source syntax at {show(place)}")
        if kind != "gap":
            tokens.append(Token(kind, piece.decode("ascii"), place))
        at += len(piece)
        if b"\n" in piece:
            line += piece.count(b"\n")
            line_start = at - (len(piece) - piece.rindex(b"\n") - 1)
    return tokens + [Token("sign", "", (line, at - line_start + 1))]


def piece_at(source: bytes, at: int) -> tuple[str, bytes]:
    for kind, form in (("gap", GAP), ("name", NAME), ("number", NUMBER), ("sign", SIGN)):
        if found := form.match(source, at):
            reserved = kind == "name" and found[0].decode("ascii") in RESERVED
            return "sign" if reserved else kind, found[0]
    return "none", b""


def show(place: Place) -> str:
    return f"{place[0]}:{place[1]}"


# Trees


class Name(NamedTuple):
    text: str
    at: Place


class Expr(NamedTuple):
    """An expression by its operation: `number`, `read`, `index`, `paren` or the sign of an operator."""

    op: str
    parts: tuple[Expr, ...] = ()
    name: Name | None = None
    number: int = 0
    depth: int = 1


class Assign(NamedTuple):
    name: Name
    index: Expr | None
    value: Expr


class Point(NamedTuple):
    """`p = &a[e];`, or `p = &x;` without an index."""

    name: Name
    other: Name
    index: Expr | None


class Target(NamedTuple):
    name: Name
    index: Expr | None


class Ann(NamedTuple):
    """An annotation; the ticks are those of a `TIMELY`."""

    kind: str
    ticks: int = 0


class Io(NamedTuple):
    at: Place
    target: Target | None
    name: Name
    args: list[Expr]
    ann: Ann


class Block(NamedTuple):
    at: Place
    body: list[Stmt]
    ann: Ann


class End(NamedTuple):
    """An end of a copy: a bare name, or `&` with or without an index."""

    name: Name
    is_bare: bool
    index: Expr | None


class Dma(NamedTuple):
    at: Place
    to: End
    source: End
    words: Expr


class If(NamedTuple):
    condition: Expr
    yes: list[Stmt]
    no: list[Stmt]


class For(NamedTuple):
    at: Place
    name: Name
    turns: Token
    body: list[Stmt]


class Next(NamedTuple):
    name: Name


class Stop(NamedTuple):
    pass


class Choose(NamedTuple):
    condition: Expr
    yes: Exit
    no: Exit


Stmt = Union[Assign, Point, Io, Block, Dma, If, For]
Exit = Union[Next, Stop, Choose]


class Decl(NamedTuple):
    """A declaration; `kind` is `nv`, `const` or `vol` of words, `pointer` or `peripheral`. A scalar has no length."""

    kind: str
    name: Name
    length: int | None
    values: list[int]
    number: int = 0

    @property
    def has_words(self) -> bool:
        return self.kind in ("nv", "const", "vol")

    @property
    def words(self) -> int:
        if not self.has_words:
            return 0
        return 1 if self.length is None else self.length


class Task(NamedTuple):
    name: Name
    body: list[Stmt]
    exit: Exit
    close: Place


class Program(NamedTuple):
    decls: list[Decl]
    tasks: list[Task]


# Reading

LEVELS = "|| ; && ; | ; ^ ; & ; == != ; < <= > >= ; << >> ; + - ; * / %".split(" ; ")
LEVEL = {sign: level for level, signs in enumerate(LEVELS) for sign in signs.split()}


def read_program(source: bytes) -> Program:
    tokens = divide(source)
    for token in tokens:
        if token.kind == "number" and token.value > GREATEST_WORD:
            raise Refused(f"source {show(token.at)} number-too-wide")
    return Parser(tokens).program()


def join(op: str, *parts: Expr, name: Name | None = None) -> Expr:
    depth = 1 + max(part.depth for part in parts)
    if depth > EXPRESSION_DEPTH:
        raise NoTree
    return Expr(op, parts, name=name, depth=depth)


class Parser:
    """Reads tokens from the front; each method takes what its rule of the grammar says."""

    def __init__(self, tokens: list[Token]) -> None:
        self.tokens = tokens
        self.next = 0

    @property
    def ahead(self) -> Token:
        return self.tokens[self.next]

    def take(self, kind: str) -> Token:
        token = self.ahead
        if token.kind != kind or not token.text:
            raise NoTree
        self.next += 1
        return token

    def accepts(self, sign: str) -> bool:
        found = self.ahead.kind == "sign" and self.ahead.text == sign
        self.next += found
        return found

    def expect(self, *signs: str) -> None:
        for sign in signs:
            if not self.accepts(sign):
                raise NoTree

    def name(self) -> Name:
        token = self.take("name")
        return Name(token.text, token.at)

    def program(self) -> Program:
        decls = []
        while self.ahead.text in ("const", "nv", "word", "peripheral"):
            decls.append(self.decl())
        tasks = [self.task()]
        while self.ahead.text:
            tasks.append(self.task())
        return Program(decls, tasks)

    def decl(self) -> Decl:
        if self.accepts("peripheral"):
            name, number = self.name(), self.take("number").value
            self.expect(";")
            return Decl("peripheral", name, None, [], number)
        kind = "const" if self.accepts("const") else "vol"
        if self.accepts("nv"):
            kind = "const" if kind == "const" else "nv"
        elif kind == "const":
            raise NoTree
        self.expect("word")
        if kind == "vol" and self.accepts("*"):
            name = self.name()
            self.expect(";")
            return Decl("pointer", name, None, [])
        name, length = self.name(), None
        if self.accepts("["):
            length = self.take("number").value
            self.expect("]")
        values = self.values() if self.accepts("=") else []
        self.expect(";")
        return Decl(kind, name, length, values)

    def values(self) -> list[int]:
        if not self.accepts("{"):
            return [self.take("number").value]
        values = [self.take("number").value]
        while self.accepts(","):
            values.append(self.take("number").value)
        self.expect("}")
        return values

    def task(self) -> Task:
        self.expect("task")
        name = self.name()
        self.expect("{")
        body, leave, close = self.statements(1), self.exit(1), self.ahead.at
        self.expect("}")
        return Task(name, body, leave, close)

    def statements(self, nesting: int) -> list[Stmt]:
        body: list[Stmt] = []
        while statement := self.statement(nesting):
            if nesting > STATEMENT_NESTING:
                raise NoTree
            body.append(statement)
        return body

    def statement(self, nesting: int) -> Stmt | None:
        """The statement ahead, or none where an exit or a closing brace must follow."""
        start = self.next
        if self.ahead.kind == "name":
            return self.assign()
        if self.ahead.text == "IO":
            return self.call(None)
        if self.accepts("IO_BLOCK"):
            self.expect("(")
            ann = self.annotation()
            self.expect(")")
            return Block(self.tokens[start].at, self.braces(nesting), ann)
        if self.ahead.text == "DMA":
            return self.copy()
        if self.accepts("for"):
            return self.loop(self.tokens[start].at, nesting)
        if self.accepts("if"):
            condition = self.condition()
            if self.ahead.text == "{":
                yes = self.braces(nesting)
                return If(condition, yes, self.braces(nesting) if self.accepts("else") else [])
            self.next = start
        return None

    def assign(self) -> Stmt:
        name = self.name()
        index = self.index()
        self.expect("=")
        if index is None and self.accepts("&"):
            point = Point(name, self.name(), self.index())
            self.expect(";")
            return point
        if self.ahead.text == "IO":
            return self.call(Target(name, index))
        value = self.expr()
        self.expect(";")
        return Assign(name, index, value)

    def index(self) -> Expr | None:
        """The expression in brackets, if a bracket is ahead."""
        if not self.accepts("["):
            return None
        index = self.expr()
        self.expect("]")
        return index

    def call(self, target: Target | None) -> Io:
        at = self.ahead.at
        self.expect("IO", "(")
        name = self.name()
        self.expect(",")
        ann = self.annotation()
        args = []
        while self.accepts(","):
            args.append(self.expr())
        self.expect(")", ";")
        return Io(at, target, name, args, ann)

    def annotation(self) -> Ann:
        if self.accepts("TIMELY"):
            self.expect("(")
            ticks = self.take("number").value
            self.expect(")")
            return Ann("TIMELY", ticks)
        if self.accepts("SINGLE"):
            return Ann("SINGLE")
        self.expect("ALWAYS")
        return Ann("ALWAYS")

    def copy(self) -> Dma:
        at = self.ahead.at
        self.expect("DMA", "(")
        to = self.end()
        self.expect(",")
        source = self.end()
        self.expect(",")
        words = self.expr()
        self.expect(")", ";")
        return Dma(at, to, source, words)

    def end(self) -> End:
        if self.accepts("&"):
            return End(self.name(), False, self.index())
        return End(self.name(), True, None)

    def loop(self, at: Place, nesting: int) -> For:
        self.expect("(")
        name = self.name()
        self.expect("=")
        first = self.take("number").value
        self.expect(";")
        tested = self.name()
        self.expect("<")
        turns = self.take("number")
        self.expect(";")
        raised = self.name()
        self.expect("++", ")")
        if first != 0 or not name.text == tested.text == raised.text:
            raise NoTree
        return For(at, name, turns, self.braces(nesting))

    def condition(self) -> Expr:
        self.expect("(")
        condition = self.expr()
        self.expect(")")
        return condition

    def braces(self, nesting: int) -> list[Stmt]:
        if nesting > STATEMENT_NESTING:
            raise NoTree
        self.expect("{")
        body = self.statements(nesting + 1)
        self.expect("}")
        return body

    def exit(self, nesting: int) -> Exit:
        if self.accepts("NEXT"):
            self.expect("(")
            name = self.name()
            self.expect(")", ";")
            return Next(name)
        if self.accepts("STOP"):
            self.expect(";")
            return Stop()
        self.expect("if")
        if nesting > EXIT_NESTING:
            raise NoTree
        condition, yes = self.condition(), self.exit(nesting + 1)
        self.expect("else")
        return Choose(condition, yes, self.exit(nesting + 1))

    def expr(self, level: int = 0, within: int = 0) -> Expr:
        """An expression of operators at this level or tighter, inside so many constructs."""
        left = self.part(within)
        while LEVEL.get(self.ahead.text, -1) >= level:
            sign = self.take("sign").text
            left = join(sign, left, self.expr(LEVEL[sign] + 1, within))
        return left

    def part(self, within: int) -> Expr:
        if within == EXPRESSION_DEPTH:
            raise NoTree
        if self.ahead.kind == "number":
            return Expr("number", number=self.take("number").value)
        if self.ahead.kind == "name":
            name = self.name()
            if not self.accepts("["):
                return Expr("read", name=name)
            index = self.expr(0, within + 1)
            self.expect("]")
            return join("index", index, name=name)
        if self.accepts("("):
            inside = self.expr(0, within + 1)
            self.expect(")")
            return join("paren", inside)
        sign = self.take("sign").text
        if sign not in ("!", "~", "-"):
            raise NoTree
        return join(sign, self.part(within + 1))
