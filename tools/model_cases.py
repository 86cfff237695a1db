"""Sources with the answers worked out by hand, on both sides of each limit, for the model of `ease walk`."""

from __future__ import annotations

from collections.abc import Iterator
from typing import NamedTuple


class Case(NamedTuple):
    name: str
    source: bytes
    tasks: int
    status: int
    output: bytes
    readings: list[int] = []


def case(name: str, source: str, output: str, tasks: int = 5, readings: tuple[int, ...] = ()) -> Case:
    """An output without a line feed behind it is the front of a refusal whose place isn't fixed."""
    first_word = output.split()[0]
    status = {"source": 2, "too": 7}.get(first_word, 9 if "end trapped" in output else 0)
    return Case(name, source.encode("latin-1"), tasks, status, output.encode(), list(readings))


NO_TREE = "source syntax at "
STOPPED = "commit 0\nend stopped\n"


def task(body: str, decls: str = "") -> str:
    return f"{decls}\ntask t {{\n{body}\nSTOP; }}"


def value(expr: str, word: int | None, trap: int = 0) -> Case:
    """What `x` becomes, or the trap, over some arrays."""
    decls = "nv word x; const nv word a[3] = {4, 5, 6}; nv word zero;"
    output = f"end trapped {trap}\n" if word is None else f"commit 0\nx = {word}\nzero = 0\nend stopped\n"
    return case(f"x = {expr}", task(f"x = {expr};", decls), output)


def refused(name: str, body: str, line: str, decls: str = "") -> Case:
    """A refusal in a task whose body stands on line 3."""
    return case(name, task(body, decls), f"source {line}\n")


def rows() -> Iterator[Case]:
    yield case("a counter wraps", "nv word x = 4294967295; task a { x = x + 1; STOP; }", f"commit 0\nx = 0\nend stopped\n")
    yield case("no tokens", "", NO_TREE)
    source = "nv word a[2] = {1, 2}; nv word i; task t { i = 2; NEXT(u); } task u { a[i] = 9; STOP; }"
    state = "commit 2\na = 1 2\ni = 2\n"
    yield case("the second task traps", source, state + "end trapped 1\n")
    yield case("the limit comes before the trap", source, state + "end limit\n", 1)
    yield case("no task at all", source, "end limit\n", 0)
    yield case("an unknown name", "task t { x = 1; STOP; }", "source 1:10 unknown-name\n")
    yield case("a number too wide", "nv word x = 4294967296; task t { STOP; }", "source 1:13 number-too-wide\n")


def divisions() -> Iterator[Case]:
    for name, piece, place in [
        ("a leading zero", "01", "3:1"), ("a bare 0x", " 0x", "3:2"), ("a capital 0X", "0X1", "3:1"),
        ("a number glued to a line", "12_", "3:1"), ("hexadecimal digits and a letter", "0x1g", "3:1"),
        ("a comment without end", "1 /*/", "3:3"), ("a form feed", "\t\r\f", "3:3"), ("a letter past ASCII", "/* \xe9 */\xe9", "3:8"),
        ("a number too wide before it", "4294967296 @", "3:12"), ("a lone quote after two lines", "/*\n\n*/ '", "5:4"),
    ]:  # fmt: skip
        yield case(name, task(piece), f"source syntax at {place}\n")
    yield case("a number too wide before no tree", "} 99999999999 0x100000000", "source 1:3 number-too-wide\n")
    yield case("a number of many digits", "9" * 60000, "source 1:1 number-too-wide\n")
    yield case("numbers in a comment, zeros before digits", task("x = 0x0fFfFfFfF; // 01", "word x;"), STOPPED)
    yield case("only signs side by side", "word x;task t{x=!~-1--x;STOP;}//", STOPPED)
    yield case("two plus signs are one sign", task("x = 1 ++ 1;", "word x;"), NO_TREE)
    yield case("the end of the file ends a comment", "task t { STOP; } // \xff", STOPPED)


def trees() -> Iterator[Case]:
    for name, inner, outer in [
        ("parentheses", "(" * 23 + "1" + ")" * 23, "({})"), ("prefixes", "!" * 23 + "1", "!{}"),
        ("sums", "+".join("1" * 24), "{}+1"), ("indexes", "a[" * 23 + "0" + "]" * 23, "a[{}]"),
    ]:  # fmt: skip
        yield case(f"{name}, 24 deep", task(f"x = {inner};", "word x; word a[1];"), STOPPED)
        yield case(f"{name}, 25 deep", task(f"x = {outer.format(inner)};", "word x; word a[1];"), NO_TREE)
    deep = "a[" * 22 + "0" + "]" * 22
    yield case("a target's index has a depth of its own", task(f"a[a[{deep}]] = a[{deep}];", "word a[1];"), STOPPED)
    for name, opening, closing in [("braces", "if (1) {", "}"), ("braces after else", "if (0) { } else {", "}")]:
        yield case(f"{name}, 16 nested", task(opening * 15 + "x = 1;" + closing * 15, "word x;"), STOPPED)
        yield case(f"{name}, 16 nested, empty", task(opening * 16 + closing * 16), STOPPED)
        yield case(f"{name}, 17 nested", task(opening * 16 + "x = 1;" + closing * 16, "word x;"), NO_TREE)
        yield case(f"{name}, 17 nested, empty", task(opening * 17 + closing * 17), NO_TREE)
    for name, opening, closing in [("first", "if (1) ", " else STOP;"), ("second", "if (0) STOP; else ", "")]:
        yield case(f"16 exits in the {name} branch", f"task t {{ {opening * 16}STOP;{closing * 16} }}", STOPPED)
        yield case(f"17 exits in the {name} branch", f"task t {{ {opening * 17}STOP;{closing * 17} }}", NO_TREE)
    for name, text in [
        ("a declaration after a task", "task t { STOP; } word x;"), ("a constant that is volatile", "const word x; task t { STOP; }"),
        ("an empty list", "word a[1] = {}; task t { STOP; }"), ("a task without exit", "word x; task t { x = 1; }"),
        ("an exit before a statement", "word x; task t { STOP; x = 1; }"), ("an exit in braces", "task t { if (1) { STOP; } else STOP; }"),
        ("an exit without else", "task t { if (1) STOP; }"), ("else if", "task t { if (1) { } else if (0) { } STOP; }"),
        ("an address of an indexed target", "word *p; word a[1]; task t { p[0] = &a[0]; STOP; }"),
        ("a nonvolatile pointer", "nv word *p; task t { STOP; }"), ("an address in a sum", "word x; word *p; task t { p = 1 + &x; STOP; }"),
        ("a peripheral without number", "peripheral p; task t { STOP; }"), ("a call without annotation", "task t { IO(p); STOP; }"),
        ("a call in a sum", "word x; task t { x = 1 + IO(p, SINGLE); STOP; }"), ("a block of TIMELY alone", "task t { IO_BLOCK(TIMELY) { } STOP; }"),
        ("a copy of two ends", "word a[1]; task t { DMA(a, a); STOP; }"), ("a copy to an element", "word a[1]; task t { DMA(a[0], a, 1); STOP; }"),
        ("a reserved name", "word DMA; task t { STOP; }"), ("a loop from 1", task("for (i = 1; i < 2; i++) { }", "word i;")),
        ("a loop of two names", task("for (i = 0; i < 2; j++) { }", "word i; word j;")),
    ]:  # fmt: skip
        yield case(name, text, NO_TREE)
    yield case("a loop from 0x0 of 0x2 turns", task("for (i = 0x0; i < 0x2; i++) { }", "word i;"), STOPPED)


def faults() -> Iterator[Case]:
    decls = "nv word n; const nv word c; const nv word k[2]; word i; word a[2];"
    for name, body, line in [
        ("a task that is read", "n = t;", "3:5 wrong-kind"), ("an array that is read", "n = a;", "3:5 wrong-kind"),
        ("a scalar with an index", "n = i[0];", "3:5 wrong-kind"), ("an array as a whole", "a = 1;", "3:1 wrong-kind"),
        ("a scalar with an index as target", "n[0] = 1;", "3:1 wrong-kind"), ("a task that is assigned", "t = 1;", "3:1 wrong-kind"),
        ("a constant", "c = 1;", "3:1 const-written"), ("a constant's element", "k[u] = 1;", "3:1 const-written"),
        ("a constant as a whole", "k = 1;", "3:1 wrong-kind"), ("an unknown index", "a[u] = w;", "3:3 unknown-name"),
        ("an unknown value", "a[0] = w + u;", "3:8 unknown-name"), ("an unknown loop", "for (u = 0; u < 9; u++) { }", "3:6 unknown-name"),
        ("a nonvolatile loop", "for (n = 0; n < 9; n++) { }", "3:6 wrong-kind"), ("an array's loop", "for (a = 0; a < 9; a++) { }", "3:6 wrong-kind"),
        ("a loop's own variable", "for (i = 0; i < 9; i++) { i = 1; }", "3:27 wrong-kind"),
        ("a loop's variable again", "for (i = 0; i < 9; i++) { for (i = 0; i < 9; i++) { } }", "3:32 wrong-kind"),
        ("an unknown task", "if (1) NEXT(v); else", "3:13 unknown-name"), ("a variable as task", "if (1) NEXT(i); else", "3:13 wrong-kind"),
        ("turns before a body", "for (i = 0; i < 65536; i++) { u = 1; }", "3:17 limit turns 65536"),
    ]:  # fmt: skip
        yield refused(name, body, line, decls)
    yield refused("a task named as a variable", "", "2:6 twice-named", "word t;")
    yield case("a task named twice", "task t { STOP; }\ntask t { u = 1; STOP; }", "source 2:6 twice-named\n")
    yield refused("a name declared twice", "", "1:14 twice-named", "word x; word x[0] = 1;")
    for name, decl, place in [
        ("a scalar", "nv word x = {1, 2};", "1:9"), ("an array", "word a[2] = {1, 2, 3};", "1:6"), ("no words", "word a[0] = 1;", "1:6")
    ]:  # fmt: skip
        yield refused(f"more values than words: {name}", "", f"{place} too-many", decl)


    yield from site_faults()


def site_faults() -> Iterator[Case]:
    decls = "nv word n; const nv word k[2]; word i; word a[2]; word *p; word *q; peripheral r 0;"
    for name, body, line in [
        ("a scalar that points", "n = &a[0];", "3:1 wrong-kind"), ("an array's address", "p = &a;", "3:6 wrong-kind"),
        ("a scalar's element", "p = &n[0];", "3:6 wrong-kind"), ("a pointer's address", "p = &q;", "3:6 wrong-kind"),
        ("a pointer that is read", "n = p;", "3:5 wrong-kind"), ("a pointer that is assigned", "p = 1;", "3:1 wrong-kind"),
        ("a scalar as a copy's end", "DMA(n, a, 1);", "3:5 wrong-kind"), ("a peripheral that is indexed", "n = r[0];", "3:5 wrong-kind"),
        ("an array as peripheral", "n = IO(a, ALWAYS);", "3:8 wrong-kind"), ("five arguments", "n = IO(r, ALWAYS, 1, 2, 3, 4, 5);", "3:5 too-many"),
        ("five arguments and no target", "IO(r, ALWAYS, 1, 2, 3, 4, u);", "3:1 too-many"),
        ("a copy to a constant", "DMA(k, a, 1);", "3:5 const-written"), ("a reading to a constant", "k[0] = IO(r, SINGLE);", "3:1 const-written"),
        ("a copy to where a constant may be", "DMA(p, a, 1); p = &k[0];", "3:5 const-written"),
        ("an index to where a constant may be", "p[0] = 1; q = &a[0]; p = &k[1];", "3:1 const-written"),
        ("a copy from a constant", "DMA(a, k, u);", "3:11 unknown-name"),
        ("a copy under an if", "if (1) { IO_BLOCK(SINGLE) { DMA(a, a, 1); } }", "3:29 dma-under-if"),
        ("a copy of another kind under an if", "if (1) { DMA(n, a, 1); }", "3:10 dma-under-if"),
        ("a reading to a loop's variable", "for (i = 0; i < 2; i++) { i = IO(r, SINGLE); }", "3:27 wrong-kind"),
        ("a pointer to a loop's variable", "p = &i; for (i = 0; i < 2; i++) { p[0] = 1; }", "3:35 wrong-kind"),
        ("65 turns with a call", "for (i = 0; i < 65; i++) { IO(r, SINGLE); }", "3:17 limit turns 65"),
        ("65 turns with an empty block", "for (i = 0; i < 65; i++) { IO_BLOCK(SINGLE) { } }", "3:17 limit turns 65"),
    ]:  # fmt: skip
        yield refused(name, body, line, decls)
    yield refused("a peripheral's number twice", "", "1:28 twice-named", "peripheral r 0; peripheral s 0x0;")
    yield refused("a peripheral's number too great", "", "1:12 limit peripheral 256", "peripheral r 256;")
    nowhere = "for (i = 0; i < 0; i++) { p = &k[0]; IO(r, SINGLE); } DMA(p, a, 0);"
    yield case("an unrolled loop without turns gives no address", task(nowhere, decls), "end trapped 3\n")
    yield refused("a pure loop without turns gives one", "for (i = 0; i < 0; i++) { p = &k[0]; } DMA(p, a, 0);", "3:44 const-written", decls)


def limits() -> Iterator[Case]:
    yield case("65,536 bytes", "task t { STOP; }".ljust(65536), STOPPED)
    yield case("65,537 bytes", "@".ljust(65537), "too long\n")
    yield from words("nv", "nv-words", 9)
    yield from words("", "vol-words", 6)
    yield refused("constants are nonvolatile words", "", "1:40 limit nv-words 2049", "const nv word a[2000]; word b; nv word c[49];")
    yield refused("a sum past 32 bits", "", "1:31 limit nv-words 4294967296", "nv word a; word b[9]; nv word c[4294967295];")
    yield refused("an array without words", "", "1:6 limit length 0", "word " + "a" * 33 + "[0];")
    tasks = "".join(f"task t{number} {{ STOP; }}\n" for number in range(65))
    yield case("64 tasks", tasks[: tasks.index("task t64")], STOPPED)
    yield case("65 tasks", tasks, "source 65:6 limit tasks 65\n")
    names = "".join(f"word v{number};\n" for number in range(256))
    yield case("256 names", names[: names.index("word v255")] + "task t { STOP; }", STOPPED)
    yield case("257 names", names + "task t { STOP; }", "source 257:6 limit names 257\n")
    yield case("a name too many and too long", names + f"task {'t' * 33} {{ STOP; }}", "source 257:6 limit names 257\n")
    yield case("a name too many and twice", names + "task v9 { STOP; }", "source 257:6 twice-named\n")
    yield case("a name and a task too many", names[: names.index("word v192")] + tasks, "source 257:6 limit tasks 65\n")
    for name, front in [("a variable", "word {}; task t"), ("a task", "task {}")]:
        at = front.index("{") + 1
        yield case(f"{name} of 32 bytes", front.format("n" * 32) + " { STOP; }", STOPPED)
        yield case(f"{name} of 33 bytes", front.format("n" * 33) + " { STOP; }", f"source 1:{at} limit name-bytes 33\n")
    yield refused("a long name that is unknown", "x = n" + "n" * 32 + ";", "3:5 unknown-name", "word x;")
    yield from loops()
    yield from nodes()
    yield from sites()


def words(kind: str, limit: str, column: int) -> Iterator[Case]:
    state = "" if not kind else "a =" + " 0" * 2048 + "\n"
    yield case(f"{limit} 2048", f"{kind} word a[2048]; task t {{ STOP; }}".strip(), f"commit 0\n{state}end stopped\n")
    yield case(f"{limit} 2049", f"{kind} word a[2049]; task t {{ STOP; }}".strip(), f"source 1:{column} limit {limit} 2049\n")
    scalar = f"{kind} word a[2048];\n{kind}{' ' * bool(kind)}word b; task t {{ STOP; }}".strip()
    yield case(f"{limit} by a scalar", scalar, f"source 2:{column} limit {limit} 2049\n")


def loops() -> Iterator[Case]:
    decls = "word i; word j; word k; word l; nv word x;"
    loop = "for ({0} = 0; {0} < {1}; {0}++) {{\n"
    yield case("65,535 turns", task(loop.format("i", 65535) + "x = i; }", decls), "commit 0\nx = 65534\nend stopped\n")
    yield refused("65,536 turns", loop.format("i", 65536) + "x = i; }", "3:17 limit turns 65536", decls)
    three = "".join(loop.format(name, 3) for name in "ijk")
    yield case("three loops", task(three + "x = x + 1; } } }", decls), "commit 0\nx = 27\nend stopped\n")
    yield refused("four loops", three + loop.format("u", 3) + "x = 1; } } } }", "6:1 limit loops 4", decls)
    after = task(loop.format("i", 7) + "}\nx = i;", decls)
    yield case("a loop's variable after it", after, "commit 0\nx = 7\nend stopped\n")
    none = task("i = 5;" + loop.format("i", 0) + "x = 1 / 0; }\nx = i;", decls)
    yield case("a loop of no turns", none, "commit 0\nx = 0\nend stopped\n")


def nodes() -> Iterator[Case]:
    """`x=1;` has three nodes, `x=!1;` four, `x=~-1;` five, and an exit without a choice one."""
    state = "commit 0\nx = {}\nend stopped\n"
    front, three, last = "nv word x; word a[2]; word i;\ntask t {\n", "x=1;", "\nSTOP;\n}"
    yield case("32,768 nodes", front + three * 10921 + "x=!1;" + last, state.format(0))
    yield case("32,769 nodes", front + three * 10921 + "x=!!1;" + last, "source 5:1 limit nodes 32769\n")
    # 5 for the first line, 1 + 3 + 3 + 3 for the next, 1 + 3 for the loop, and 1 + 1 + 1 + 1 for the exit.
    parts = "a[0]=(a[((1))]);\nif(x+1){x=(2);}else{x=(3);}\nfor(i=0;i<9;i++){x=4;}\n"
    choice = "\nif(0)NEXT(t);else STOP;\n}"
    yield case("each part, 32,768 nodes", front + parts + three * 10912 + "x=~-1;x=!1;" + choice, state.format(0))
    yield case("each part, 32,769 nodes", front + parts + three * 10912 + "x=~-1;x=~-1;" + choice, "source 8:1 limit nodes 32769\n")
    second = "\ntask u { STOP; }\ntask v { v = 1; STOP; }"
    yield case("two tasks, 32,768 nodes", front + three * 10922 + last + "\ntask u { STOP; }", state.format(1))
    yield case("three tasks, 32,769 nodes", front + three * 10922 + last + second.replace("v = 1; ", ""), "source 7:16 limit nodes 32769\n")


def sites() -> Iterator[Case]:
    decls = "peripheral r 0; word i; word j; nv word a[1024]; word b[1024];"
    block = "IO_BLOCK(SINGLE) { }"
    yield case("128 sites", task(f"for (i = 0; i < 64; i++) {{ {block} {block} }}", decls), "commit 0\na =" + " 0" * 1024 + "\nend stopped\n")
    yield case("129 sites", task(f"for (i = 0; i < 64; i++) {{ {block} {block} }} {block}", decls), "source 4:7 limit sites 129\n")
    most = "for (i = 0; i < 4; i++) { for (j = 0; j < 4; j++) { DMA(a, b, 0); } }"
    yield case("16,384 kept words", task(most, decls), "commit 0\na =" + " 0" * 1024 + "\nend stopped\n")
    yield case("16,385 kept words", task(most + " DMA(&j, b, 0);", decls), "source 4:7 limit kept-words 16385\n")
    # A turn: 2 for the call and its target, 1 for the block and 3 for each of its statements. 32 * 1023 + 3 * 33 + 1 = 32836.
    body = "for (i = 0; i < 32; i++) { j = IO(r, SINGLE); IO_BLOCK(SINGLE) { " + "j = 1;" * 340 + " } }"
    yield case("nodes of an unrolled loop", task(body, decls), "source 4:7 limit nodes 32836\n")


def pointers() -> Iterator[Case]:
    decls = "nv word a[3] = {1, 2, 3}; nv word s; word *p; "
    for index, output in [("1", "commit 0\na = 1 9 3\ns = 3\nend stopped\n"), ("2", "end trapped 1\n"), ("4294967295", "end trapped 1\n")]:
        yield case(f"p[{index}] behind a[1]", task(f"p = &a[1]; s = p[{index}]; p[0] = 9;", decls), output)
    yield case("p[1] of a pointer to nothing", task("s = p[1]; p[0] = 9;", decls), "end trapped 3\n")
    yield case("an index is valued before its pointer is tested", task("s = p[1 / 0];", decls), "end trapped 2\n")
    yield case("a pointer is tested before its place", task("s = p[9];", decls), "end trapped 3\n")
    yield case("a constant through a pointer", "const nv word g[1] = {4}; word *p; task t { p = &g[0]; p[0] = 1; STOP; }", "source 1:56 const-written\n")
    yield case("a target's place comes before the value", task("p[0] = 1 / 0;", decls), "end trapped 3\n")
    yield case("a place out of its array", task("p = &a[3];", decls), "end trapped 1\n")
    yield case("a pointer to a scalar", task("p = &s; p[0] = 4; s = p[0] + 1;", decls), "commit 0\na = 1 2 3\ns = 5\nend stopped\n")
    again = decls + "task t { if (s) { s = p[0]; } else { p = &a[2]; s = p[0]; } NEXT(t); }"
    yield case("a pointer points to nothing in each task", again, "commit 1\na = 1 2 3\ns = 3\nend trapped 3\n")


def copies() -> Iterator[Case]:
    six = "nv word a[6] = {1, 2, 3, 4, 5, 6}; word b[2] = {7, 8}; word *p;"
    state = "commit 0\na = {}\nend stopped\n"
    for body, words in [
        ("DMA(&a[1], a, 5);", "1 1 1 1 1 1"), ("DMA(a, &a[1], 5);", "2 3 4 5 6 6"), ("DMA(&a[5], &b[1], 0);", "1 2 3 4 5 6"),
        ("DMA(&a[4], b, 2);", "1 2 3 4 7 8"), ("p = &a[3]; DMA(p, &b[1], 1); DMA(&a[2], p, 3);", "1 2 8 5 6 6"),
    ]:  # fmt: skip
        yield case(body, task(body, six), state.format(words))
    for body, trap in [
        ("DMA(&a[6], p, 1);", 1), ("DMA(p, &a[6], 1);", 3), ("DMA(a, &b[2], 1 / 0);", 1), ("DMA(a, p, 1 / 0);", 3),
        ("DMA(&a[5], b, 2 / 0);", 2), ("DMA(&a[5], b, 2);", 4), ("DMA(a, &b[1], 2);", 4), ("DMA(a, a, 7);", 4), ("DMA(a, a, -1);", 4),
    ]:  # fmt: skip
        yield case(body, task(body, six), f"end trapped {trap}\n")
    great = "nv word a[2048]; word b[2048]; word *p;"
    yield case("2,048 words", task("b[2047] = 5; DMA(a, b, 2048);", great), "commit 0\na =" + " 0" * 2047 + " 5\nend stopped\n")
    yield case("2,049 words", task("DMA(a, b, 2049);", great), "end trapped 4\n")
    yield case("a destination that was never set", task("DMA(p, b, 2048);", great), "end trapped 3\n")
    yield case("a write before a trap isn't undone", "nv word n; task t { n = 1; NEXT(u); } task u { n = 2; n = 1 / 0; STOP; }", "commit 2\nn = 1\nend trapped 2\n")


def readings() -> Iterator[Case]:
    row = "peripheral radio 0; nv word n = 7; word v; task a { v = IO(radio, SINGLE, n); n = n + v; STOP; }"
    yield case("a reading", row, "commit 0\nn = 8\nend stopped\n", readings=(1,))
    yield case("no reading", row, "end reading\n")
    block = "peripheral r 9; nv word n; task t {{ IO_BLOCK(TIMELY(5)) {{ IO(r, ALWAYS); n = IO(r, SINGLE, {}); }} NEXT(t); }}"
    yield case("readings in order", block.format("1, 2"), "commit 1\nn = 5\nend reading\n", readings=(4, 5, 6))
    yield case("arguments come before the reading", block.format("1 / n"), "end trapped 2\n", readings=(4,))
    target = "peripheral r 9; nv word a[1]; task t { a[1] = IO(r, SINGLE, 1 / 0); STOP; }"
    yield case("the target comes before the arguments", target, "end trapped 1\n")
    loop = "peripheral r 0; nv word a[3]; nv word n; word i; task t { for (i = 0; i < 3; i++) { a[i] = IO(r, ALWAYS, i); } n = i; STOP; }"
    yield case("a loop with calls", loop, "commit 0\na = 5 6 7\nn = 3\nend stopped\n", readings=(5, 6, 7))


def meanings() -> Iterator[Case]:
    yield from pointers()
    yield from copies()
    yield from readings()
    yield from (
        value("0 - 1", 4294967295), value("-1 * -1", 1), value("~0", 4294967295), value("!7", 0), value("-4294967295", 1),
        value("2147483648 * 2", 0), value("1 << 31", 2147483648), value("1 << 32", 0), value("7 << 4294967295", 0),
        value("4294967295 >> 31", 1), value("4294967295 >> 32", 0), value("7 / 2 * 2 + 7 % 2", 7), value("9 - 3 - 2", 4),
        value("1 | 6 ^ 3 & 5", 7), value("1 < 2 == 1", 1), value("3 > 2 > 1", 0), value("2 >= 2 != 0 <= 4294967295", 0),
        value("1 + 2 << 3 - 1", 12), value("5 && 6", 1), value("0 || 6", 1), value("1 || 0 && 0", 1), value("!0 == 0 - 0", 0),
        value("0 && 1 / 0", 0), value("1 || a[3]", 1), value("1 && 1 / zero", None, 2), value("0 || a[3]", None, 1),
        value("a[2] % a[0]", 2), value("a[3] + 1 / 0", None, 1), value("1 / 0 + a[3]", None, 2), value("zero % zero", None, 2),
        value("a[a[0] - 4]", 4), value("a[4294967295]", None, 1), value("a[-1]", None, 1),
    )  # fmt: skip
    yield case("an index is tested before the value", task("a[2] = 1 / 0;", "word a[2];"), "end trapped 1\n")
    yield case("an index is valued before the value", task("a[1 / 0] = a[2];", "word a[2];"), "end trapped 2\n")
    fresh = "nv word n; word v[2] = 7; task t { v[1] = v[1] + 1; v[0] = v[0] + 1; n = v[0] * 10 + v[1]; if (n == 0) STOP; else NEXT(t); }"
    yield case("volatile words are fresh in each task", fresh, "commit 1\nn = 81\ncommit 1\nn = 81\nend limit\n", 2)
    choose = "nv word a[2] = {1}; const nv word c = 3; task t { a[1] = a[1] + 1; if (a[1] < c) if (a[1] - 1) NEXT(u); else NEXT(t); else STOP; } task u { NEXT(t); }"
    yield case("a choice of exits", choose, "commit 1\na = 1 1\ncommit 2\na = 1 2\ncommit 1\na = 1 2\ncommit 0\na = 1 3\nend stopped\n")
    yield case("an exit traps", "nv word n; task t { n = 1; if (1 / 0) STOP; else STOP; }", "end trapped 2\n")


CASES = [made for kind in (rows, divisions, trees, faults, limits, meanings) for made in kind()]
