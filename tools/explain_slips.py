"""Slips from C: forms of text, each with the row of docs/LANGUAGE.md, "Coming from C", that says what is written instead."""

from __future__ import annotations

import re
from pathlib import Path
from typing import NamedTuple

LANGUAGE = Path(__file__).resolve().parent.parent / "docs/LANGUAGE.md"

HEAD = r"\bif\s*\((?:[^()]|\([^()]*\))*\)\s*"
WORDS_OF_C = r"int|unsigned|signed|char|short|long|float|double|bool|size_t|u?int\d+_t"
OURS = r"IO|DMA|NEXT|TIMELY|IO_BLOCK|if|for|while|switch|return|memcpy|memmove|STOP"

# By the first piece of the row; of two forms at one place the earlier counts.
FORMS = {
    "for (i = 0; i < 8; i += 2)": r"\bfor\s*\([^;]*;[^;]*;\s*\w+\s*(?:[-+*]=|=)",
    "for (word i = 0; ..)": rf"\bfor\s*\(\s*(?:word|{WORDS_OF_C})\b",
    "for (i = 0; i <= 3; i++)": r"\bfor\s*\([^;]*;[^;]*<=",
    "for (i = 1; i < 4; i++)": r"\bfor\s*\(\s*\w+\s*=\s*(?!0\s*;|0x0+\s*;)[^;]+;",
    "for (i = 0; i < n; i++)": r"\bfor\s*\([^;]*;\s*\w+\s*<\s*[A-Za-z_]\w*",
    "while (c) { .. }": r"\bwhile\b|\bdo\b",
    "switch (x) { .. }": r"\bswitch\b",
    "break;": r"\bbreak\b|\bcontinue\b|\bgoto\b",
    "return;": r"\breturn\b",
    "NEXT t;": r"\bNEXT\s+\w+|\bNEXT\s*;|\bSTOP\s*\(",
    "if (c) { NEXT(t); } else { STOP; }": HEAD + r"\{\s*(?:NEXT|STOP)",
    "if (c) STOP; NEXT(t);": HEAD + r"(?:STOP|NEXT\s*\(\s*\w+\s*\))\s*;\s*(?!else)\S*",
    "else if (d) { .. }": r"\belse\s+if\b",
    "if (c) x = 1;": HEAD + r"(?!NEXT\b|STOP\b|if\b)[A-Za-z_]\w*",
    "c ? a : b": r"\?",
    "x += 1;": r"(?:[-+*/%&|^]|<<|>>)=(?!=)",
    "x++;": r"[\w\]]\s*(?:\+\+|--)\s*;|(?:\+\+|--)\s*\w",
    "x = y = 0;": r"\w+(?:\[[^][]*\])?\s*=\s*\w+(?:\[[^][]*\])?\s*=(?!=)",
    "const word x = 1;": r"\bconst\s+word\b|\bnv\s+const\b",
    "volatile word x;": r"\b(?:volatile|static|extern|register)\b",
    "int x;": rf"\b(?:{WORDS_OF_C})\b",
    "word *p = &a[0];": r"\bword\s*\*\s*\w+\s*=",
    "word a[] = {1, 2};": r"\bword\s+\w+\s*\[\s*\]",
    "word a[2] = {1, 2,};": r",\s*\}|=\s*\{\s*\}",
    "word a[2][4];": r"\[[^][]*\]\s*\[",
    "word x = 2 * 8;": r"\bword\s+\w+(?:\s*\[\w*\])?\s*=\s*(?:[-~!(]|\w+\s*[-+*/%<>&|^(])",
    "word x, y;": r"\bword\s+\w+(?:\s*=\s*\w+)?\s*,",
    "x = IO(temp, SINGLE) + 1;": r"\bIO\s*\((?:[^()]|\([^()]*\))*\)\s*[-+*/%&|^<>]|[-+*/%(&|^<>]\s*IO\s*\(",
    "memcpy(a, b, n);": r"\bmem(?:cpy|move|set)\s*\(|\bDMA\s*\(\s*\w+\s*\[|\bDMA\s*\([^,]+,\s*\w+\s*\[",
    "x = *p;": r"(?:^|[=;{}(])\s*\*\s*\w+",
    "f(x);": rf"\bstruct\b|\btypedef\b|\benum\b|\bvoid\b|#\s*\w+|\b(?!(?:{OURS})\b)[A-Za-z_]\w*\s*\(",
    "010": r"\b0\d+|\b\d+[uUlL]+\b|\b0X\w*|'[^']*'|\btrue\b|\bfalse\b|\bNULL\b",
    "word x;": r"^\s*(?:(?:const\s+)?nv\s+)?word\b|(?<=[;{}])\s*(?:(?:const\s+)?nv\s+)?word\b",
    "p = a;": r"\b(\w+)\s*=\s*(?!\1\b)\w+\s*;",
    "p = p + 1;": r"\b(\w+)\s*=\s*(?:\1\s*[-+]|&\s*\w+\s*\[)",
    ";": r"[;{}]\s*;",
}
COMPILED = {row: re.compile(form) for row, form in FORMS.items()}
# These aren't refused by the grammar, but by what a name stands for.
BY_KIND = {"wrong-kind": ("p = a;", "p = p + 1;"), "unknown-name": ("010",)}
# What no refusal can tell.
SILENT = ("-x >> 1",)
FAR = 16


class Row(NamedTuple):
    """A row of the table: the slip, and what is written instead."""

    slip: str
    instead: str


def rows() -> dict[str, Row]:
    """The table's rows by the first piece of code in them."""
    text = LANGUAGE.read_text().partition("## Coming from C")[2]
    found = {}
    for line in text.splitlines():
        if line.startswith("| `"):
            slip, instead = (cell.strip() for cell in line.strip("|").split(" | ", 1))
            found[slip.split("`")[1]] = Row(slip, instead)
    return found


def slip_at(cause: str, line: str, column: int) -> Row | None:
    """The slip that this place of a line, from 1, most likely is."""
    known = BY_KIND.get(cause, () if cause != "syntax" else [row for row in FORMS if row not in BY_KIND["wrong-kind"]])
    best = None
    for order, row in enumerate(known):
        for found in COMPILED[row].finditer(line):
            far = max(found.start() + 1 - column, column - found.end() - 1, 0)
            if far <= FAR and (best is None or (far, order) < best[:2]):
                best = (far, order, row)
    return rows()[best[2]] if best else None
