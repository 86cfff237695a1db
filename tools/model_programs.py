"""Random programs, and random changes of them."""

from __future__ import annotations

import random
from collections.abc import Iterator
from typing import NamedTuple

SIGNS = "{ } ( ) [ ] ; , = & | ^ ~ ! + - * / % < > == != <= >= << >> && || ++".split()
RESERVED = "nv const word peripheral task if else for IO IO_BLOCK DMA NEXT STOP SINGLE TIMELY ALWAYS".split()
BINARY = "|| && | ^ & == != < <= > >= << >> + - * / %".split()
EDGES = [0, 1, 2, 3, 7, 30, 31, 32, 33, 255, 65535, 65536, 2**31 - 1, 2**31, 2**31 + 1, 2**32 - 2, 2**32 - 1]
NAMES = "a b c x y z i j k n _ __ nv0 nvx constx words IO_ IO_BLOCKS Task NEXT1 stop iff for_ dma x0 _1 zZ9 else1".split()
NAMES += ["n" * 32, "N_" * 16, "m" * 31]
# No number between the turns that end soon and those that are refused.
OTHER_NUMBERS = ["0", "0x0", "1", "2", "0x3", "5", "65536", "2147483648", "0xFFFFFFFF", "4294967295", "4294967296"]
OTHER_BYTES = b" \t\r\n/*{}()[];,=&|^~!+-<>%01xX9aFz_#\"\x00\x0b\x7f\x80\xff"
GAPS = ["\n", "\t", "\r\n", "  ", "/**/", "/***/", "/* a // b */", "/*\n*/", "// nv */ /*\n", "/*/ * \xe9 */", "//\n"]

Tokens = list[str]


class Words(NamedTuple):
    name: str
    kind: str
    length: int | None


class Writer:
    """Writes one program; `wild` is how often an index or a divisor isn't tamed, and `careless` how often a name is any name."""

    def __init__(self, rng: random.Random, careless: float = 0.0) -> None:
        self.rng = rng
        self.careless = careless
        self.wild = rng.choice([0, 0.01, 0.03, 0.1])
        names = rng.sample(NAMES, rng.randint(4, 14))
        count = rng.randint(1, min(5, len(names) - 3))
        self.tasks = names[:count]
        rest = names[count:]
        self.pointers = [rest.pop() for _ in range(rng.choice([0, 0, 1, 2])) if len(rest) > 2]
        self.peripherals = [rest.pop() for _ in range(rng.choice([0, 0, 1])) if len(rest) > 2]
        self.words = [self.some_words(name) for name in rest]
        self.sites = rng.choice([0, 0, 3, 12])
        self.ifs = 0
        self.loose = [*names, "unknown"]
        self.left = rng.randint(5, 60)

    def chance(self, part: float) -> bool:
        return self.rng.random() < part

    # Declarations

    def some_words(self, name: str) -> Words:
        kind = self.rng.choice(["nv", "nv", "nv", "word", "word", "word", "const"])
        return Words(name, kind, self.rng.randint(1, 6) if self.chance(0.45) else None)

    def number(self, number: int | None = None) -> str:
        if number is None:
            number = self.rng.choice([self.rng.choice(EDGES), self.rng.randint(0, 9), self.rng.getrandbits(32)])
        if self.chance(0.7):
            return str(number)
        digits = self.rng.choice(["%x", "%X", "%03x", "%012X"]) % number
        return "0x" + "".join(self.rng.choice([digit.lower(), digit]) for digit in digits)

    def decl(self, words: Words) -> Tokens:
        front = {"nv": ["nv"], "const": ["const", "nv"], "word": []}[words.kind]
        size = [] if words.length is None else ["[", self.number(words.length), "]"]
        return [*front, "word", words.name, *size, *self.init(words.length or 1), ";"]

    def init(self, most: int) -> Tokens:
        if self.chance(0.4):
            return []
        if self.chance(0.3):
            return ["=", self.number()]
        values = ["=", "{", self.number()]
        for _ in range(self.rng.randint(0, most - 1)):
            values += [",", self.number()]
        return [*values, "}"]

    def other_decls(self) -> Iterator[Tokens]:
        for name in self.pointers:
            yield ["word", "*", name, ";"]
        for number, name in enumerate(self.peripherals):
            yield ["peripheral", name, self.number(number if self.chance(0.98) else 256), ";"]

    # Expressions

    def pick(self, kinds: str, is_array: bool, barred: tuple[str, ...] = ()) -> Words | None:
        if self.chance(self.careless / 2):
            return Words(self.rng.choice(self.loose), "word", self.rng.choice([1, 2, 3]))
        fit = [words for words in self.words if (words.length is not None) == is_array]
        if not self.chance(self.careless):
            fit = [words for words in fit if words.kind in kinds.split() and words.name not in barred]
        return self.rng.choice(fit) if fit else None

    def leaf(self) -> Tokens:
        words = self.pick("nv const word", False)
        return [words.name] if words and self.chance(0.65) else [self.number()]

    def index(self, depth: int) -> Tokens:
        """`a[e]`, where e is mostly below the length, or `p[e]`, where it is mostly small."""
        if self.pointers and self.chance(0.25):
            return [self.rng.choice(self.pointers), "[", *self.below(self.rng.choice([1, 1, 2, 3]), depth), "]"]
        words = self.pick("nv const word", True)
        return self.leaf() if words is None else [words.name, "[", *self.below(words.length or 1, depth), "]"]

    def below(self, length: int, depth: int) -> Tokens:
        if self.chance(self.wild):
            return [self.number(length + self.rng.choice([-1, 0, 1]))] if self.chance(0.5) else self.expr(depth)
        if self.chance(0.5):
            return [self.number(self.rng.randrange(length))]
        return [*self.paren(depth), "%", self.number(length)]

    def paren(self, depth: int) -> Tokens:
        return ["(", *self.expr(depth), ")"]

    def trap(self) -> Tokens:
        arrays = [w for w in self.words if w.length is not None]
        if arrays and self.chance(0.5):
            words = self.rng.choice(arrays)
            return [words.name, "[", self.number(words.length), "]"]
        return [self.number(), self.rng.choice("/%"), self.rng.choice(["0", "0x0"])]

    def expr(self, depth: int) -> Tokens:
        kind = self.rng.random()
        if depth <= 0 or kind < 0.15:
            return self.leaf()
        if kind < 0.27:
            return [self.rng.choice("!~-"), *self.expr(depth - 1)]
        if kind < 0.42:
            return self.index(depth - 1)
        if kind < 0.52:
            return self.paren(depth - 1)
        if kind < 0.62:
            return self.division(depth - 1)
        if kind < 0.69:
            return self.hidden_trap(depth - 1)
        sign = self.rng.choice([sign for sign in BINARY if sign not in "/%"])
        return [*self.expr(depth - 1), sign, *self.expr(depth - 1)]

    def division(self, depth: int) -> Tokens:
        tamed = ["(", *self.paren(depth), "|", "1", ")"]
        return [*self.leaf(), self.rng.choice("/%"), *(self.paren(depth) if self.chance(self.wild) else tamed)]

    def hidden_trap(self, depth: int) -> Tokens:
        """A trap that the left side of `&&` or `||` hides, or a test that guards a divisor."""
        kind = self.rng.randrange(3)
        if kind == 0:
            return ["(", "(", *self.paren(depth), "&", "0", ")", "&&", *self.trap(), ")"]
        if kind == 1:
            return ["(", "(", *self.paren(depth), "|", "1", ")", "||", *self.trap(), ")"]
        divisor = self.leaf()
        return ["(", *divisor, "&&", self.number(), self.rng.choice("/%"), *divisor, ")"]

    def deep(self, depth: int) -> Tokens:
        """An expression of exactly this depth."""
        tokens, reached = self.leaf(), 1
        while reached < depth:
            kind = self.rng.randrange(4)
            if kind == 0 and reached + 2 <= depth:
                sign = self.rng.choice([sign for sign in BINARY if sign not in "/%"])
                sides = [self.leaf(), tokens]
                self.rng.shuffle(sides)
                tokens, reached = ["(", *sides[0], sign, *sides[1], ")"], reached + 2
            elif kind == 1:
                tokens, reached = ["(", *tokens, ")"], reached + 1
            else:
                tokens, reached = [self.rng.choice("!~-"), *tokens], reached + 1
        return tokens

    def any_expr(self) -> Tokens:
        if self.chance(0.03):
            return self.deep(self.rng.choice([20, 23, *[24] * 15, 25]))
        return self.expr(self.rng.choice([0, 1, 1, 2, 3, 4]))

    # Statements

    def body(self, nesting: int, loops: tuple[str, ...], turns: int) -> Tokens:
        tokens: Tokens = []
        for _ in range(self.rng.choice([0, 1, 1, 2, 2, 3, 4])):
            if self.left > 0:
                self.left -= 1
                tokens += self.statement(nesting, loops, turns)
        return tokens

    def statement(self, nesting: int, loops: tuple[str, ...], turns: int) -> Tokens:
        kind = self.rng.random()
        if kind < 0.18 and len(loops) < 3 and nesting < 16:
            return self.loop(nesting, loops, turns)
        if kind < 0.38 and nesting < 16:
            return self.choice(nesting, loops, turns)
        if kind < 0.40:
            return self.nest(17 - nesting, loops)
        if kind < 0.55 and self.pointers:
            return self.point() if kind < 0.50 else self.through()
        if kind < 0.70 and self.sites > 0:
            self.sites -= 1
            return self.site(nesting, loops, turns)
        return self.assign(loops)

    def address(self) -> Tokens:
        """`&x` or `&a[e]`."""
        words = self.pick("nv word" if self.chance(0.8) else "nv const word", self.chance(0.7))
        if words is None:
            return []
        return ["&", words.name] if words.length is None else ["&", words.name, "[", *self.below(words.length, 1), "]"]

    def point(self) -> Tokens:
        address = self.address()
        return [self.rng.choice(self.pointers), "=", *address, ";"] if address else []

    def through(self) -> Tokens:
        return [self.rng.choice(self.pointers), "[", *self.below(self.rng.choice([1, 2, 3]), 1), "]", "=", *self.any_expr(), ";"]

    def annotation(self) -> Tokens:
        return self.rng.choice([["SINGLE"], ["ALWAYS"], ["TIMELY", "(", self.number(), ")"]])

    def site(self, nesting: int, loops: tuple[str, ...], turns: int) -> Tokens:
        kind = self.rng.random()
        if kind < 0.2 and self.peripherals:
            return self.call(loops)
        if kind < 0.5 and nesting < 16:
            return ["IO_BLOCK", "(", *self.annotation(), ")", "{", *self.body(nesting + 1, loops, turns), "}"]
        return [] if self.ifs and not self.chance(self.careless) else self.copy()

    def call(self, loops: tuple[str, ...]) -> Tokens:
        words = self.pick("nv word", False, loops)
        target = [words.name, "="] if words and self.chance(0.7) else []
        args = [token for _ in range(self.rng.choice([0, 1, 2, 4])) for token in [",", *self.expr(1)]]
        return [*target, "IO", "(", self.rng.choice(self.peripherals), ",", *self.annotation(), *args, ")", ";"]

    def end(self, kinds: str) -> Tokens:
        if self.pointers and self.chance(0.3):
            return [self.rng.choice(self.pointers)]
        words = self.pick(kinds, True)
        return [words.name] if words and self.chance(0.5) else self.address()

    def copy(self) -> Tokens:
        to, source = self.end("nv word"), self.end("nv const word")
        words = [self.number(self.rng.choice([0, 1, 1, 2, 3, 6]))] if self.chance(0.8) else self.below(4, 1)
        return ["DMA", "(", *to, ",", *source, ",", *words, ")", ";"] if to and source else []

    def assign(self, loops: tuple[str, ...]) -> Tokens:
        is_array = self.chance(0.4)
        words = self.pick("nv word", is_array, loops)
        if words is None:
            return []
        index = ["[", *self.below(words.length or 1, 2), "]"] if is_array else []
        return [words.name, *index, "=", *self.any_expr(), ";"]

    def loop(self, nesting: int, loops: tuple[str, ...], turns: int) -> Tokens:
        words = self.pick("word", False, loops)
        if words is None:
            return []
        count = self.rng.randint(0, max(1, min(5, turns)))
        i = words.name
        head = ["for", "(", i, "=", self.rng.choice(["0", "0", "0x0"]), ";", i, "<", self.number(count), ";", i, "++", ")"]
        return [*head, "{", *self.body(nesting + 1, (*loops, i), turns // max(1, count)), "}"]

    def choice(self, nesting: int, loops: tuple[str, ...], turns: int) -> Tokens:
        self.ifs += 1
        tokens = ["if", "(", *self.any_expr(), ")", "{", *self.body(nesting + 1, loops, turns), "}"]
        if self.chance(0.5):
            tokens += ["else", "{", *self.body(nesting + 1, loops, turns), "}"]
        self.ifs -= 1
        return tokens

    def nest(self, more: int, loops: tuple[str, ...]) -> Tokens:
        """An `if` in an `if`, so often that a statement stands where it just may, or now and then one deeper."""
        inside = self.assign(loops)
        for _ in range(more - 1 + self.chance(0.1)):
            empty = self.rng.choice([[], ["{", "}", "else"]])
            inside = ["if", "(", *self.leaf(), ")", *empty, "{", *inside, "}"]
        return inside

    def exit(self, more: int) -> Tokens:
        if more > 0 and self.chance(0.8):
            return ["if", "(", *self.any_expr(), ")", *self.exit(more - 1), "else", *self.exit(more // 2 - 1)]
        if self.chance(0.2):
            return ["STOP", ";"]
        name = self.rng.choice(self.loose if self.chance(self.careless) else self.tasks)
        return ["NEXT", "(", name, ")", ";"]

    def chain(self, more: int) -> Tokens:
        """Exactly so many exits `if` on one path."""
        tokens = self.exit(0)
        for _ in range(more):
            sides = [tokens, self.exit(0)]
            self.rng.shuffle(sides)
            tokens = ["if", "(", *self.leaf(), ")", *sides[0], "else", *sides[1]]
        return tokens

    def program(self) -> Tokens:
        decls = [*(self.decl(words) for words in self.words), *self.other_decls()]
        self.rng.shuffle(decls)
        tokens = [token for decl in decls for token in decl]
        for name in self.tasks:
            leave = self.chain(self.rng.choice([15, 16, 16, 17])) if self.chance(0.05) else self.exit(self.rng.choice([0, 1, 2, 3]))
            tokens += ["task", name, "{", *self.body(1, (), 30), *self.body(1, (), 30), *leave, "}"]
        return tokens


# Texts


def melts(left: str, right: str) -> bool:
    """Whether two tokens side by side are other tokens than the two."""
    if (left[-1].isalnum() or left[-1] == "_") and (right[0].isalnum() or right[0] == "_"):
        return True
    return left + right[0] in [*SIGNS, "//", "/*"]


def text(rng: random.Random, tokens: Tokens) -> bytes:
    """The tokens with as few blanks as may be, one blank between any two, or all kinds of gaps."""
    style, pieces, last = rng.randrange(3), [], ";"
    for token in tokens:
        gap = " " if style == 1 or melts(last, token) else ""
        if style == 2 and rng.random() < 0.3:
            gap = " " * (last == "/") + rng.choice(GAPS)
        pieces += [gap, token]
        last = token
    return "".join(pieces).encode("latin-1")


def changed_tokens(rng: random.Random, tokens: Tokens) -> Tokens:
    """The tokens with one of them deleted, doubled, swapped, replaced or renamed."""
    tokens, at = list(tokens), rng.randrange(len(tokens))
    kind = rng.randrange(7)
    names = sorted({token for token in tokens if token[0].isalpha() and token not in RESERVED})
    if kind == 0:
        del tokens[at]
    elif kind == 1:
        tokens.insert(at, tokens[at])
    elif kind == 2:
        other = min(at + rng.choice([1, 1, 2, 3]), len(tokens) - 1)
        tokens[at], tokens[other] = tokens[other], tokens[at]
    elif kind == 3:
        tokens[at] = rng.choice([rng.choice(SIGNS), rng.choice(RESERVED), rng.choice(names), rng.choice(OTHER_NUMBERS)])
    elif kind == 4:
        at = rng.choice([place for place, token in enumerate(tokens) if token in names])
        tokens[at] = rng.choice([*names, "unknown", "q" * 33])
    elif kind == 5:
        at = rng.choice([place for place, token in enumerate(tokens) if token in ("nv", "const", "word", "task")])
        tokens[at : at + 1] = rng.choice([[], ["const", "nv"], ["nv"], ["const"], ["nv", "word"], ["word"], ["word", "*"]])
    else:
        places = [place for place, token in enumerate(tokens) if token[0].isdigit()] or [at]
        tokens[rng.choice(places)] = rng.choice(OTHER_NUMBERS)
    return tokens


def changed_bytes(rng: random.Random, source: bytes) -> bytes:
    """The source with one to three bytes deleted, put in or replaced, or cut off."""
    changed = bytearray(source)
    for _ in range(rng.choice([1, 1, 2, 3])):
        at, byte = rng.randrange(len(changed) or 1), rng.choice(OTHER_BYTES)
        kind = rng.randrange(8)
        if kind == 0:
            del changed[at:]
        elif kind <= 2:
            changed[at : at + 1] = b""
        else:
            changed[at : at + kind % 2] = bytes([byte])
    return bytes(changed)


def random_source(rng: random.Random) -> bytes:
    kind = rng.random()
    careless = rng.choice([0.01, 0.04]) if kind >= 0.85 else 0.0
    tokens = Writer(rng, careless).program()
    if 0.45 <= kind < 0.70:
        tokens = changed_tokens(rng, tokens)
    source = text(rng, tokens)
    return changed_bytes(rng, source) if 0.70 <= kind < 0.85 else source


# Tables of operators


def table(exprs: list[str]) -> bytes:
    """One task that puts each value into its own word."""
    lines = [f"r[{place}] = {expr};" for place, expr in enumerate(exprs)]
    return "\n".join([f"nv word r[{len(exprs)}];", "task t {", *lines, "STOP; }"]).encode()


def operator_tables() -> Iterator[tuple[str, bytes]]:
    """Each operator on each two edges, and each two operators in a row, so that the tighter one shows."""
    for sign in BINARY:
        pairs = [(left, right) for left in EDGES for right in EDGES if right or sign not in "/%"]
        yield f"the operator {sign}", table([f"{left} {sign} {right}" for left, right in pairs])
    yield "the prefixes", table([f"{first}{second} {edge}" for first in "!~-" for second in "!~-" for edge in EDGES])
    for a, b, c in [(7, 3, 2), (1, 2, 4), (2**32 - 1, 31, 1), (0, 5, 5)]:
        rows = [f"{a} {first} {b} {second} {c}" for first in BINARY for second in BINARY]
        yield f"two operators on {a}, {b} and {c}", table(rows)
