"""A sentence for each refusal line of docs/COMMANDS.md. `{0}` is the line's number or name, and `{1}` its count."""

from __future__ import annotations

SOURCE = {
    "syntax": "The text can't be read on from here.",
    "number-too-wide": "This number is above 4294967295, the greatest word.",
    "unknown-name": "Nothing declares this name. Declarations stand before the first task, as `word x;` or `nv word x;`; names of tasks count too.",
    "twice-named": "An earlier declaration or task has this name already, or an earlier peripheral this number.",
    "wrong-kind": "This name doesn't stand for what its use needs.",
    "const-written": "This is constant, or a pointer that may point to a constant, and constants are never written. Without `const` the words can be.",
    "dma-under-if": "A copy may not stand under an `if`. Copy always, and choose the length: `n = 0; if (c) { n = 4; } DMA(a, b, n);`.",
    "too-many": "There are more values than the declaration has words, or more than four arguments of a call.",
}

LIMITS = {
    "tasks": "A program has at most 64 tasks, and this is task {1}.",
    "names": "A program has at most 256 names, of declarations and tasks together, and this is number {1}.",
    "nv-words": "Nonvolatile and constant words together are at most 2048; with this declaration they are {1}.",
    "vol-words": "Volatile words are at most 2048; with this declaration they are {1}.",
    "length": "An array has at least one word.",
    "name-bytes": "A name has at most 32 bytes, and this one has {1}.",
    "peripheral": "A peripheral's number is at most 255, and this one is {1}.",
    "turns": "{1} turns are too many: a loop with calls, blocks or copies has at most 64, another at most 65535.",
    "loops": "Loops without calls, blocks or copies stand at most three deep.",
    "sites": "A task has at most 128 calls, blocks and copies, all turns of its loops counted; this one has {1}. Some of them can go into a task of their own.",
    "kept-words": "The copies of a task may keep at most 16384 words together, and those of this one {1}. Some of them can go into a task of their own.",
    "nodes": "The program is too long: its nodes are at most 32768, all turns of loops with calls, blocks or copies counted, and by this task they are {1}.",
}

LINES = {
    "usage": "The words are no command; docs/COMMANDS.md lists the commands. A number has no leading zero, and an option stands at most once.",
    "read fault": "A file of the command can't be read: it isn't there, or it may not be read.",
    "too long": "The file is too long: a program has at most 65,536 bytes, a world 1,048,576 and an image 40,000,000.",
    "world not-toml": "The world is no text of TOML in UTF-8: a quote or a bracket may be left open, a key stand twice, or a number be wider than 64 bits.",
    "world bad-key": "The world has a key that is none of `retained`, `power` and `readings`, or a power row one that is none of `on`, `off` and `fill`, or a row lacks `on`.",
    "world bad-value": "A value of the world is of another kind: power rows are written as `[[power]]`, readings as lists, and all numbers are whole, from 0 to 4294967295.",
    "world unknown-peripheral": "The world gives readings to a name that is no peripheral of the program or image.",
    "world too-many-steps": "The power rows last {0} steps together, and 4194304 are the most.",
    "world too-many-ticks": "The power rows with their outages last {0} ticks together, and 4294967295 are the most.",
    "image bad-magic": "The file is no image: it doesn't begin with the letters `EASE`. `ease build` makes images of programs.",
    "image bad-version": "The image has version {0}, and only 1 and 2 are known. It may be of another release.",
    "image bad-scheme": "The image has scheme {0}, and only 0 and 1 are known.",
    "image short": "The image ends too early: it was cut, or a count in it is too great.",
    "image too-large": "A count in the image, {0}, is past its limit.",
    "image bad-word": "Code word {0} of the image, counted from 0, is no instruction.",
    "image bad-symbol": "Entry {0} of the image's symbols and peripherals is bad, or its ranges are where that is 0: names, kinds, places and numbers must fit and may not meet.",
    "image bad-mark": "Mark {0} of the image is bad: its address, its kind, its site or its task doesn't fit the code.",
    "image trailing": "Bytes stand behind the end of the image.",
    "script line": "Line {0} of the script is none of the debugger's, or names what the image hasn't.",
    "report line": "Line {0} of the report is no line of a full report, or the `end` line is missing. A report in brief can't be judged.",
    "illegal": "Up to the line before, the report is a journal that the rules allow; with line {0} it is none.",
}  # fmt: skip

KINDS = {
    "pointer": "`{0}` is a pointer: it is set to a place of an array, `{0} = &a[0];`, and read and written with an index, `{0}[0]`.",
    "array": "`{0}` is an array: it is read and written with an index, `{0}[0]`, and stands alone only as an end of a copy.",
    "scalar": "`{0}` is a scalar: it has no index, and no pointer or array can be made of it. The variable of a loop isn't written inside it.",
    "kept scalar": "`{0}` is a nonvolatile scalar: it has no index, and a loop's variable must be volatile, `word i;`.",
    "peripheral": "`{0}` is a peripheral: its name stands first in `IO( )`, and nowhere else.",
    "task": "`{0}` is a task: its name stands in `NEXT( )`, and nowhere else.",
}
