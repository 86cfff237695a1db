"""Writes into the folder of its argument the program, the world and the reports that bench/audit asks `ease audit` of."""
import itertools
import pathlib
import sys

OUT = pathlib.Path(sys.argv[1])
GREATEST = 67_108_864
STEPS = 4_194_304
END = f"{STEPS} end power\n".encode()
SOURCE = """peripheral %s 9; peripheral radio 0; nv word n = 5; nv word out[2]; word v; word b[2];
task first { IO(%s, ALWAYS); NEXT(again); }
task again { IO_BLOCK(SINGLE) { v = IO(radio, ALWAYS, n); } DMA(out, b, 2); NEXT(again); }
"""
FIRST = ["begin 1", "look 1 {time}", "drop 1", "issue 1 {name} = 0", "seal 1", "commit 2"]
AGAIN = [
    "begin 2", "look 1 {time}", "look 2 {time}", "drop 2", "issue 2 radio 5 = 7", "seal 2", "drop 1", "seal 1",
    "copy 3 b[0] out[0] 2", "seal 3", "commit 2",
]  # fmt: skip


def lines(name):
    """The lines of a legal journal, an event each step, for ever."""
    yield b"0 boot 1\n"
    for step, text in enumerate(itertools.chain(FIRST, itertools.cycle(AGAIN)), 1):
        yield f"{step} {text.format(time=step - 1, name=name)}\n".encode()


def up_to(size):
    """The first lines of the journal that have at most so many bytes, with the end."""
    kept, left = [], size - len(END)
    for line in lines("x"):
        left -= len(line)
        if left < 0:
            return kept, left + len(line)
        kept.append(line)


def legal():
    """A legal report of exactly as many bytes as a report may have; the name of a peripheral takes those that are over."""
    kept, over = up_to(GREATEST)
    name = "x" * (1 + over)
    kept[4] = kept[4].replace(b" x ", f" {name} ".encode())
    return name, b"".join([*kept, END])


name, report = legal()
assert len(report) == GREATEST
for kind in ("legal", "seals"):
    (OUT / f"{kind}.ease").write_text(SOURCE % (name, name))
    (OUT / f"{kind}.world").write_text(f"[[power]]\non = {STEPS}\n[readings]\nradio = [7]\n")
(OUT / "legal.report").write_bytes(report)
for count in (100_000, 1_100_000):
    (OUT / f"{count}.report").write_bytes(b"".join([*itertools.islice(lines(name), count), END]))
# an attempt every other step, each with the most words to commit
(OUT / "commits.ease").write_text("nv word a[2048]; word b[2048]; task t { NEXT(t); }\n")
attempts = (f"{step} begin 1\n{step + 1} commit 1\n" for step in range(1, 2_000_000 * 2, 2))
(OUT / "commits.report").write_bytes(b"".join([b"0 boot 1\n", "".join(attempts).encode(), END]))
(OUT / "commits.world").write_text(f"[[power]]\non = {STEPS}\n")
# as many lines as so many bytes can have
seals = b"1 seal 0\n" * ((GREATEST - len(b"0 boot 1\n") - len(END)) // len(b"1 seal 0\n"))
(OUT / "seals.report").write_bytes(b"0 boot 1\n" + seals + END)
