"""Slips from C in a program each, for the test of tools/explain; the key is the first piece of the row in docs/LANGUAGE.md."""

from __future__ import annotations

DECLS = "peripheral temp 0; nv word x; nv word y; word c; word d; word i; word n; word a[4]; word b[4]; word *p;\n"

# Statements of a task.
STATEMENTS = {
    "x += 1;": ["x += 1;", "x <<= 1;", "a[i] -= 2;"],
    "x++;": ["x++;", "a[i]++;", "x--;", "++x;"],
    "x = y = 0;": ["x = y = 0;", "a[1] = x = 0;"],
    "if (c) x = 1;": ["if (c) x = 1;", "if (c > (d + 1)) a[i] = 2;"],
    "else if (d) { .. }": ["if (c) { x = 1; } else if (d) { x = 2; }"],
    "c ? a : b": ["x = c ? d : n;"],
    "for (i = 0; i <= 3; i++)": ["for (i = 0; i <= 3; i++) { x = 1; }"],
    "for (i = 1; i < 4; i++)": ["for (i = 1; i < 4; i++) { x = 1; }"],
    "for (i = 0; i < n; i++)": ["for (i = 0; i < n; i++) { x = 1; }"],
    "for (i = 0; i < 8; i += 2)": ["for (i = 0; i < 8; i += 2) { x = 1; }", "for (i = 0; i < 8; i = i + 1) { x = 1; }"],
    "for (word i = 0; ..)": ["for (word i = 0; i < 3; i++) { x = 1; }", "for (int i = 0; i < 3; i++) { x = 1; }"],
    "while (c) { .. }": ["while (c) { x = 1; }", "do { x = 1; } while (c);"],
    "switch (x) { .. }": ["switch (x) { case 1: x = 2; }"],
    "break;": ["for (i = 0; i < 3; i++) { break; }", "continue;", "goto end;"],
    "int x;": ["int z;", "unsigned z;"],
    "word x;": ["word z;", "x = 1; word z = 2;"],
    "x = *p;": ["x = *p;", "*p = 1;"],
    "p = a;": ["p = a;"],
    "p = p + 1;": ["p = p + 1;", "p = &p[1];"],
    "x = IO(temp, SINGLE) + 1;": ["x = IO(temp, SINGLE) + 1;", "x = 1 + IO(temp, TIMELY(5));"],
    "memcpy(a, b, n);": ["memcpy(a, b, n);", "DMA(a[1], b, n);", "DMA(a, b[1], n);"],
    "f(x);": ["f(x);", "x = f(1);", "struct s q;"],
    "010": ["x = 010;", "x = 10u;", "x = 0XFF;", "x = 'a';", "x = true;", "x = NULL;"],
    "word a[2][4];": ["x = a[i][d];"],
    ";": ["x = 1;; y = 2;", "if (c) { ; }"],
}

# Declarations.
DECLARATIONS = {
    "int x;": ["int z;", "uint32_t z;"],
    "word x, y;": ["word z, w;"],
    "word x = 2 * 8;": ["word z = 2 * 8;", "nv word z = -1;"],
    "const word x = 1;": ["const word z = 1;", "nv const word z = 1;"],
    "volatile word x;": ["volatile word z;", "static word z;"],
    "word a[] = {1, 2};": ["word z[] = {1, 2};"],
    "word a[2] = {1, 2,};": ["word z[2] = {1, 2,};", "word z[2] = {};"],
    "word a[2][4];": ["word z[2][4];"],
    "word *p = &a[0];": ["word *q = &a[0];"],
    "f(x);": ["#define N 4", "struct s { };"],
    "word x;": ["task u { STOP; } word z;"],
}

# The end of a task.
EXITS = {
    "return;": ["return;"],
    "NEXT t;": ["NEXT t;", "STOP();"],
    "if (c) { NEXT(t); } else { STOP; }": ["if (c) { NEXT(t); } else { STOP; }"],
    "if (c) STOP; NEXT(t);": ["if (c) STOP; NEXT(t);"],
}


def slips() -> list[tuple[str, bytes]]:
    """The rows, each with programs that slip so."""
    found = [(row, f"{DECLS}task t {{ {body} STOP; }}\n") for row, bodies in STATEMENTS.items() for body in bodies]
    found += [(row, f"{DECLS}{decl}\ntask t {{ STOP; }}\n") for row, decls in DECLARATIONS.items() for decl in decls]
    found += [(row, f"{DECLS}task t {{ x = 1; {leave} }}\n") for row, leaves in EXITS.items() for leave in leaves]
    return [(row, text.encode()) for row, text in found]
