"""Writes into the folder of its argument the images and worlds that bench/run runs."""
import pathlib
import sys

OUT = pathlib.Path(sys.argv[1])


def number(value, size):
    return value.to_bytes(size, "little")


def image(code):
    """The bytes of an image of version 2 with this code and nothing else."""
    words = b"".join(number(word, 4) for word in code)
    return b"EASE" + bytes([2, 0]) + bytes(8) + number(len(code), 4) + words + bytes(4 + 2 + 2 + 4)


def world(steps):
    return f"[[power]]\non = {steps}\n"


# LD r1 r0 5, ADI r1 1, ST r1 r0 5, ADD r2 r1, JMP 0
(OUT / "sums.image").write_bytes(image([0x12100005, 0x11100001, 0x13100005, 0x05210000, 0x14000000]))
# TIME r1, JMP 0: each second step is a look
(OUT / "looks.image").write_bytes(image([0x17100000, 0x14000000]))
for steps in (100_000, 1_100_000, 4_194_304):
    (OUT / f"{steps}.world").write_text(world(steps))
(OUT / "rows.world").write_text("power = [" + "{on=0}," * 100_000 + "]\n")
