"""Programs with their journals under failures, worked out by hand from the rules of attempts, for tools/check_rules.

A case has the readings, the times of the looks in order, and the events of each boot in brief; a boot's number of events is its
cut. The reports below are those of `audit`.
"""

from __future__ import annotations

from typing import NamedTuple


class Case(NamedTuple):
    name: str
    source: str
    readings: dict[str, list[int]]
    looks: list[int]
    boots: list[str]
    words: str = ""  # nonvolatile words at the end


SEND = "peripheral radio 0; nv word n = 7; word v; task a { v = IO(radio, SINGLE, n); n = n + v; STOP; }"
AGE = "peripheral temp 0; word v; nv word n; task a { v = IO(temp, TIMELY(1000)); n = v; STOP; }"
SENSE = "peripheral temp 0; peripheral radio 1; word v; task a { v = IO(temp, %s); IO(radio, SINGLE, v); STOP; }"
LOG = (
    "peripheral temp 0; peripheral radio 1; peripheral log 2; word v; task a { v = IO(temp, TIMELY(1000)); "
    "IO(radio, SINGLE, v); IO(log, SINGLE, v); STOP; }"
)
INSIDE = "peripheral temp 0; nv word n; word v; task a { IO_BLOCK(%s) { v = IO(temp, %s); } n = v; STOP; }"
PAIR = (
    "peripheral temp 0; peripheral hum 1; word v; word u; task a { IO_BLOCK(TIMELY(1000)) "
    "{ v = IO(temp, SINGLE); u = IO(hum, SINGLE); } STOP; }"
)
MOVE = "nv word a[6] = {1, 2, 3, 4, 5, 6}; task t { DMA(%s, 5); STOP; }"
CHOSEN = (
    "nv word n; nv word a[2] = {5, 6}; nv word c[2]; word b[2]; word *p; task t { if (n == 0) { p = &b[0]; } "
    "else { p = &c[0]; } DMA(p, a, 2); n = n + 1; if (n < 2) NEXT(t); else STOP; }"
)
STATION = """peripheral temp 0; peripheral radio 1;
const nv word gain[2] = {3, 1};
nv word samples[8]; nv word mean; nv word sent;
word v; word i; word b[8];
task sense { for (i = 0; i < 8; i++) { b[i] = IO(temp, TIMELY(1000)); }
  DMA(samples, b, 8); NEXT(filter); }
task filter { DMA(b, samples, 8); v = 0;
  for (i = 0; i < 8; i++) { v = v + b[i]; } mean = v / 8; NEXT(scale); }
task scale { DMA(b, gain, 2); mean = mean * b[0] / b[1]; NEXT(send); }
task send { v = IO(radio, SINGLE, mean); sent = sent + 1;
  if (sent < 3) NEXT(sense); else STOP; }
"""

FIRST = "begin 1 / look 1 / drop 1 / issue 1 radio 7 = 1"
BOTH = "begin 1 / look 1 / drop 1 / drop 2 / issue 1 temp = 20 / seal 1 / look 2 / drop 2 / issue 2 radio 20 = 0 / seal 2"
NEW = "begin 1 / look 1 / drop 1 / drop 2 / issue 1 temp = 21 / seal 1"
SENT = "look 2 / drop 2 / issue 2 radio 21 = 0 / seal 2"
ALL_THREE = (
    "begin 1 / look 1 / drop 1 / drop 2 / drop 3 / issue 1 temp = 20 / seal 1 / look 2 / drop 2 / issue 2 radio 20 = 0 / seal 2"
    " / look 3 / drop 3 / issue 3 log 20 = 0 / seal 3"
)
ONE = "begin 1 / look 1 / look 2 / drop 2 / issue 2 temp = 20 / seal 2 / drop 1 / seal 1"
TWO = (
    "begin 1 / look 1 / look 2 / drop 2 / issue 2 temp = 20 / seal 2 / look 3 / drop 3 / issue 3 hum = 60 / seal 3 / drop 1 / seal 1"
)


def sensed() -> str:
    """An instance of the station's first task."""
    calls = [f"look {k} / drop {k} / drop 9 / issue {k} temp = {8 + 2 * k} / seal {k}" for k in range(1, 9)]
    return " / ".join(["begin 1", *calls, "copy 9 b[0] samples[0] 8 / seal 9 / commit 2"])


CASES = [
    Case("a failure between issue and seal", SEND, {"radio": [1, 2, 3]}, [1, 2], [
        FIRST, "begin 1 / look 1 / drop 1 / issue 1 radio 7 = 2 / seal 1 / commit 0"], "n = 9"),
    Case("a failure behind the seal", SEND, {"radio": [1, 2, 3]}, [1, 2], [
        f"{FIRST} / seal 1", "begin 1 / look 1 / kept 1 1 / commit 0"], "n = 8"),
    Case("a reading that is just young enough", AGE, {"temp": [20, 21]}, [5, 1005], [
        "begin 1 / look 1 / drop 1 / issue 1 temp = 20 / seal 1", "begin 1 / look 1 / kept 1 20 / commit 0"], "n = 20"),
    Case("a reading that is just too old", AGE, {"temp": [20, 21]}, [5, 1006], [
        "begin 1 / look 1 / drop 1 / issue 1 temp = 20 / seal 1",
        "begin 1 / look 1 / drop 1 / issue 1 temp = 21 / seal 1 / commit 0"], "n = 21"),
    Case("a message of a new reading goes again", SENSE % "ALWAYS", {"temp": [20, 21]}, [1, 2, 3, 4], [
        BOTH, f"{NEW} / {SENT} / commit 0"]),
    Case("a message goes again although the new reading is kept", SENSE % "TIMELY(1000)", {"temp": [20, 21]}, [1, 2, 2003, 2010, 2011], [
        BOTH, NEW, f"begin 1 / look 1 / kept 1 21 / {SENT} / commit 0"]),
    Case("a failure between the drops", LOG, {"temp": [20, 21]}, [1, 2, 3, 2003, 2010, 2011, 2012], [
        ALL_THREE, "begin 1 / look 1 / drop 1 / drop 2",
        "begin 1 / look 1 / drop 1 / drop 2 / drop 3 / issue 1 temp = 21 / seal 1 / "
        f"{SENT} / look 3 / drop 3 / issue 3 log 21 = 0 / seal 3 / commit 0"]),
    Case("a block that was done keeps", INSIDE % ("SINGLE", "ALWAYS"), {"temp": [20, 21]}, [1, 2, 3, 4], [
        ONE, "begin 1 / look 1 / look 2 / kept 2 20 / commit 0"], "n = 20"),
    Case("a block that forces", INSIDE % ("ALWAYS", "SINGLE"), {"temp": [20, 21]}, [1, 2, 3, 4], [
        ONE, "begin 1 / look 1 / look 2 / drop 2 / issue 2 temp = 21 / seal 2 / drop 1 / seal 1 / commit 0"], "n = 21"),
    Case("a pair that is too old", PAIR, {"temp": [20, 21, 22], "hum": [60, 61]}, [1, 2, 3, 2003, 2004, 2010, 2011, 2012], [
        TWO, "begin 1 / look 1 / look 2 / drop 2 / issue 2 temp = 21 / seal 2",
        "begin 1 / look 1 / look 2 / drop 2 / issue 2 temp = 22 / seal 2 / look 3 / drop 3 / issue 3 hum = 61 / seal 3"
        " / drop 1 / seal 1 / commit 0"]),
    Case("a copy up over itself", MOVE % "&a[1], a", {}, [], [
        "begin 1 / copy 1 a[0] a[1] 5 / seal 1 / commit 0"], "a = 1 1 1 1 1 1"),
    Case("a copy down over itself", MOVE % "a, &a[1]", {}, [], [
        "begin 1 / copy 1 a[1] a[0] 5 / seal 1 / commit 0"], "a = 2 3 4 5 6 6"),
    Case("a copy whose words are put back", MOVE % "a, &a[1]", {}, [], [
        "begin 1 / copy 1 a[1] a[0] 5 / seal 1", "begin 1 / kept 1 5 / commit 0"], "a = 2 3 4 5 6 6"),
    Case("a copy that fails before its seal", MOVE % "a, &a[1]", {}, [], [
        "begin 1 / copy 1 a[1] a[0] 5", "begin 1 / copy 1 a[1] a[0] 5 / seal 1 / commit 0"], "a = 2 3 4 5 6 6"),
    Case("a copy to where a pointer points", CHOSEN, {}, [], [
        "begin 1 / copy 1 a[0] keep 2 / seal 1 / copy 1 keep b[0] 2 / commit 1"
        " / begin 1 / copy 1 a[0] c[0] 2 / seal 1 / commit 0"], "n = 2 / a = 5 6 / c = 5 6"),
    Case("a copy beyond its array", "nv word a[2048]; word b[2048]; task t { DMA(a, b, 2049); STOP; }", {}, [], ["begin 1 / trap 4"]),
    Case("a copy through no pointer", "nv word a[2]; word *p; task t { DMA(p, a, 1); STOP; }", {}, [], ["begin 1 / trap 3"]),
    Case("a station on power that holds", STATION, {"temp": [10, 12, 14, 16, 18, 20, 22, 24, 25]}, list(range(9)), [
        f"{sensed()} / begin 2 / copy 1 samples[0] keep 8 / seal 1 / copy 1 keep b[0] 8 / commit 3"
        " / begin 3 / copy 1 gain[0] b[0] 2 / commit 4"
        " / begin 4 / look 1 / drop 1 / issue 1 radio 51 = 0 / seal 1 / commit 1"],
        "samples = 10 12 14 16 18 20 22 24 / mean = 51 / sent = 1"),
]  # fmt: skip

SUMS = (
    "peripheral temp 0; peripheral radio 1; nv word sum; nv word out[2]; word v; word b[2] = {5, 6}; word i; task t { "
    "v = IO(temp, SINGLE); IO_BLOCK(SINGLE) { IO(radio, ALWAYS, v); } DMA(out, b, 2); "
    "for (i = 0; i < 2; i++) { sum = sum + v; } STOP; }"
)

# The steps that are allowed to the events of a boot of SUMS, each sum once.
ALLOWED = {"undo": [244, 376, 440, 560, 624, 848, 1128], "bank": [212, 344, 408, 528, 592, 780, 1060]}

NAMES = (
    "peripheral temp 0; peripheral radio 1; nv word x; nv word y; nv word a[4]; nv word c[4]; word v; word u; word b[4]; word i; "
    "word *p; task t { %s STOP; }"
)

# What depends on each I/O site of a task, where something does.
FORCES = [
    ("v = IO(temp, ALWAYS); IO(radio, SINGLE, v);", {1: [2]}),
    ("v = IO(temp, ALWAYS); if (v) { IO(radio, SINGLE, 1); } else { IO(radio, SINGLE, 2); } IO(radio, SINGLE, 3);", {1: [2, 3]}),
    ("v = IO(temp, ALWAYS); for (i = 0; i < 3; i++) { x = y; y = v; } IO(radio, SINGLE, x);", {1: [2]}),
    ("v = IO(temp, ALWAYS); p = &a[0]; p[1] = v; IO(radio, SINGLE, a[0]);", {1: [2]}),
    ("v = IO(temp, ALWAYS); p = &a[v]; IO(radio, SINGLE, p[0]);", {1: [2]}),
    ("v = IO(temp, ALWAYS); p = &a[0]; a[3] = v; IO(radio, SINGLE, p[1]);", {1: [2]}),
    ("v = IO(temp, ALWAYS); p = &a[v]; p[0] = IO(temp, SINGLE); IO(radio, SINGLE, a[1]);", {1: [3], 2: [3]}),
    ("b[0] = IO(temp, ALWAYS); DMA(a, b, 2); IO(radio, SINGLE, a[1]);", {1: [2, 3]}),
    ("v = IO(temp, ALWAYS); DMA(a, b, v); IO(radio, SINGLE, a[1]);", {1: [2, 3]}),
    ("v = IO(temp, ALWAYS); DMA(&a[v], b, 1); DMA(b, &c[v], 1); IO(radio, SINGLE, b[1]);", {1: [2, 3, 4]}),
    ("v = IO(temp, ALWAYS); IO_BLOCK(SINGLE) { u = IO(temp, SINGLE); IO(radio, SINGLE, v); } v = 1;", {1: [2, 4]}),
    ("IO_BLOCK(SINGLE) { u = IO(temp, SINGLE); IO(radio, SINGLE, u); } v = u;", {2: [3]}),
    ("v = IO(temp, ALWAYS); v = 0; IO(radio, SINGLE, v);", {1: [2]}),
    ("if (x) { v = IO(temp, ALWAYS); } else { IO(radio, SINGLE, v); } IO(radio, SINGLE, v);", {1: [3]}),
    ("for (i = 0; i < 2; i++) { IO(radio, SINGLE, v); v = IO(temp, SINGLE); }", {2: [3]}),
    ("v = IO(temp, ALWAYS); if (v) { x = 1; } IO(radio, SINGLE, x);", {1: [2]}),
]

# What each region of a task writes first.
FIRSTS = [
    ("x = 1; DMA(a, b, 4); y = 2; x = 3; DMA(c, a, 4); a[0] = 4;", ["x", "a y", "c"]),
    ("p = &a[0]; p[0] = 1; v = 2; DMA(b, a, 4); y = IO(temp, SINGLE); x = 1;", ["a", "x y"]),
    ("for (i = 0; i < 3; i++) { x = i; } p = &c[0]; DMA(p, b, 1);", ["x", "c"]),
]

WORLD = "[[power]]\non = 100\n[readings]\nradio = [1]\n"
TWICE = "[[power]]\non = 5\n[[power]]\non = 100\n[readings]\nradio = [1]\n"
SHORT = "0 boot 1 / 1 begin 1 / 2 look 1 1 / 3 drop 1 / 4 issue 1 radio 7 = 1 / 5 seal 1 / 6 commit 0 / 7 end halted"
KEPT = (
    "0 boot 1 / 1 begin 1 / 2 look 1 1 / 3 drop 1 / 4 issue 1 radio 7 = 1 / 5 seal 1 / 5 boot 2 / 6 begin 1 / 7 look 1 6"
    " / 8 kept 1 1 / 9 commit 0 / 10 end halted"
)


TRAPS = "nv word a[2]; word *p; task t { DMA(p, a, 1); STOP; }"
BARE = "[[power]]\non = 100\n"
OUTAGE = "[[power]]\non = 5\noff = 30\n[[power]]\non = 100\n[readings]\nradio = [1]\n"
TRAPPED = "0 boot 1 / 1 begin 1 / 9 trap 3 / 9 end trapped 3"
UP = MOVE % "&a[1], a"
MOVED = "0 boot 1 / 1 begin 1 / 2 copy 1 a[0] a[1] 5 / 3 seal 1 / 4 commit 0 / 5 end halted"


class Audited(NamedTuple):
    """A report of a program, with what is put in place of some of its text, and the answer."""

    world: str
    report: str
    old: str
    new: str
    answer: str
    source: str = SEND

    def text(self) -> bytes:
        """The bytes of the report."""
        changed = self.report.replace(self.old, self.new) if self.old else self.report
        return changed.replace(" / ", "\n").encode() + b"\n"


AUDITED = [
    Audited(WORLD, SHORT, "", "", "legal"),
    Audited(WORLD, SHORT, "7 = 1", "7 = 2", "illegal 5"),
    Audited(WORLD, SHORT, "look 1 1", "look 1 2", "illegal 3"),
    Audited(WORLD, SHORT, "3 drop 1 / ", "", "illegal 4"),
    Audited(WORLD, SHORT, "0 boot 1", "boot 1", "report line 1"),
    Audited(WORLD, SHORT, "1 begin 1", "1 begin 2", "illegal 2"),
    Audited(WORLD, SHORT, "2 look 1 1", "1 look 1 0", "illegal 3"),
    Audited(WORLD, SHORT, "7 = 1", "8 = 1", "illegal 5"),
    Audited(WORLD, SHORT, "radio 7 = 1", "radio = 1", "illegal 5"),
    Audited(WORLD, SHORT, "radio 7", "#0 7", "illegal 5"),
    Audited(WORLD, SHORT, "5 seal 1", "5 seal 2", "illegal 6"),
    Audited(WORLD, SHORT, "5 seal 1", "5 kept 1 1", "illegal 6"),
    Audited(WORLD, SHORT, "6 commit 0", "6 commit 1", "illegal 7"),
    Audited(WORLD, SHORT, "6 commit 0", "101 commit 0", "illegal 7"),
    Audited(WORLD, SHORT, "7 end halted", "6 end halted", "illegal 8"),
    Audited(WORLD, SHORT, "7 end halted", "101 end halted", "illegal 8"),
    Audited(WORLD, SHORT, "7 end halted", "100 end power", "legal"),
    Audited(WORLD, SHORT, "7 end halted", "99 end power", "illegal 8"),
    Audited(WORLD, SHORT, "7 end halted", "7 trap 1 / 7 end trapped 1", "illegal 8"),
    Audited(WORLD, SHORT, "7 end halted", "7 end trapped 1", "illegal 8"),
    Audited(WORLD, SHORT, "7 end halted", "7 begin 1 / 8 end halted", "illegal 8"),
    Audited(WORLD, SHORT, "7 end halted", "100 boot 2 / 101 end halted", "illegal 8"),
    Audited(WORLD, SHORT, " / 6 commit 0 / 7 end halted", " / 7 end halted", "illegal 7"),
    Audited(WORLD, SHORT, "7 end halted", "7 drop 1", "report line 9"),
    Audited(WORLD, SHORT, "7 end halted", "7 end halted / 7 end halted", "report line 9"),
    Audited(WORLD, SHORT, "7 end halted", "07 end halted", "report line 8"),
    Audited(WORLD, SHORT, "radio 7 = 1", "radio 7 1 2 3 4 = 1", "report line 5"),
    Audited(WORLD, SHORT, "radio 7 = 1", "radio 7 = 4294967296", "report line 5"),
    Audited(WORLD, SHORT, "0 boot 1 / ", "", "illegal 1"),
    Audited(WORLD, SHORT, "0 boot 1", "0 boot 2", "illegal 1"),
    Audited(TWICE, KEPT, "", "", "legal"),
    Audited(TWICE, KEPT, "8 kept 1 1", "8 drop 1", "illegal 10"),
    Audited(TWICE, KEPT, "8 kept 1 1", "8 kept 1 2", "illegal 10"),
    Audited(TWICE, KEPT, "look 1 6", "look 1 7", "illegal 9"),
    Audited(TWICE, KEPT, "5 boot 2", "6 boot 2", "illegal 7"),
    Audited(TWICE, KEPT, " / 5 boot 2 / 6 begin 1 / 7 look 1 6 / 8 kept 1 1", "", "illegal 7"),
    Audited(TWICE, KEPT, " / 6 begin 1 / 7 look 1 6 / 8 kept 1 1 / 9 commit 0 / 10 end halted", " / 105 end power", "legal"),
    Audited(TWICE, KEPT, "5 seal 1 / 5 boot 2", "5 boot 2", "illegal 9"),
    Audited(TWICE, KEPT, "10 end halted", "105 end power", "legal"),
    Audited(TWICE, KEPT, "10 end halted", "106 end halted", "illegal 12"),
    Audited(TWICE, KEPT, "4 issue 1 radio 7 = 1 / 5 seal 1 / ", "", "illegal 8"),
    Audited(TWICE, SHORT, "", "", "illegal 7"),
    Audited(OUTAGE, KEPT, "look 1 6", "look 1 36", "legal"),
    Audited(OUTAGE, KEPT, "look 1 6", "look 1 37", "illegal 9"),
    Audited(OUTAGE, KEPT, "look 1 6 / 8 kept 1 1 / 9 commit 0", "look 1 36 / 8 drop 1 / 9 commit 0", "illegal 10"),
    Audited(BARE, SHORT, "7 = 1", "7 = 0", "legal"),
    Audited(BARE, SHORT, "", "", "illegal 5"),
    Audited("", SHORT, "", "", "illegal 1"),
    Audited("", "0 end power", "", "", "legal"),
    Audited("", "1 end power", "", "", "illegal 1"),
    Audited("", "0 end halted", "", "", "illegal 1"),
    Audited(BARE, "0 end power", "", "", "illegal 1"),
    Audited(WORLD, SHORT, "3 drop 1", "2 drop 1", "illegal 4"),
    Audited(WORLD, SHORT, "1 begin 1", "0 begin 1", "illegal 2"),
    Audited(WORLD, SHORT, "radio 7 = 1", "radio 7 8 = 1", "illegal 5"),
    Audited(WORLD, SHORT, "radio 7", "radar 7", "illegal 5"),
    Audited(WORLD, SHORT, "radio 7", "7radio 7", "report line 5"),
    Audited(WORLD, SHORT, "7 end halted", "8 end halted ", "report line 8"),
    Audited(WORLD, SHORT, "2 look 1 1", "2 look 1", "report line 3"),
    Audited(WORLD, SHORT, "2 look 1 1", "2  look 1 1", "report line 3"),
    Audited(BARE, TRAPPED, "", "", "legal", TRAPS),
    Audited(BARE, TRAPPED, "9 trap 3", "9 trap 4", "illegal 3", TRAPS),
    Audited(BARE, TRAPPED, "9 end trapped 3", "9 end trapped 4", "illegal 4", TRAPS),
    Audited(BARE, TRAPPED, "9 end trapped 3", "10 end trapped 3", "illegal 4", TRAPS),
    Audited(BARE, TRAPPED, "9 end trapped 3", "100 end power", "illegal 4", TRAPS),
    Audited(BARE, TRAPPED, "9 end trapped 3", "10 begin 1 / 100 end power", "illegal 4", TRAPS),
    Audited(BARE, TRAPPED, "9 trap 3 / 9 end trapped 3", "100 end power", "legal", TRAPS),
    Audited(BARE * 2, TRAPPED, "9 end trapped 3", "100 boot 2 / 101 begin 1 / 109 trap 3 / 109 end trapped 3", "illegal 4", TRAPS),
    Audited(BARE, MOVED, "", "", "legal", UP),
    Audited(BARE, MOVED, "a[0] a[1]", "a[0] a[2]", "illegal 3", UP),
    Audited(BARE, MOVED, "a[0] a[1]", "a[0] b[1]", "illegal 3", UP),
    Audited(BARE, MOVED, "a[0] a[1]", "keep a[1]", "illegal 3", UP),
    Audited(BARE, MOVED, "a[0] a[1]", "@65536 a[1]", "illegal 3", UP),
    Audited(BARE, MOVED, "a[1] 5", "a[1] 4", "illegal 3", UP),
    Audited(BARE, MOVED, "a[0] a[1]", "a[0] a[01]", "report line 3", UP),
    Audited(BARE, MOVED, "3 seal 1", "3 kept 1 5", "illegal 4", UP),
]
