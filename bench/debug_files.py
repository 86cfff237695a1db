"""Writes into the folder of its argument the images, the world and the scripts that bench/debug runs."""
import pathlib
import sys

OUT = pathlib.Path(sys.argv[1])


def number(value, size):
    return value.to_bytes(size, "little")


def image(code, look):
    """The bytes of an image of version 2 with this code and one mark, of a look at site 1 of task 1."""
    words = b"".join(number(word, 4) for word in code)
    mark = number(1, 4) + number(look, 4) + bytes([2, 1, 1])
    return b"EASE" + bytes([2, 0]) + bytes(8) + number(len(code), 4) + words + bytes(4 + 2 + 2) + mark


# LD r1 r0 5, ADI r1 1, ST r1 r0 5, ADD r2 r1, JMP 0, and TIME r1, which isn't reached
(OUT / "marked_sums.image").write_bytes(image([0x12100005, 0x11100001, 0x13100005, 0x05210000, 0x14000000, 0x17100000], 5))
# TIME r1, JMP 0: each second step is a look
(OUT / "marked_looks.image").write_bytes(image([0x17100000, 0x14000000], 0))
(OUT / "empty.world").write_text("")
for steps in (1, 100_000, 1_100_000, 4_194_304):
    (OUT / f"{steps}.script").write_text(f"step {steps}\nwhy 1\n")
# as many steps at first as the shorter script, and all that are left
(OUT / "to.script").write_text("step 100000\nto 1\nwhy 1\n")
(OUT / "commands.script").write_text("to 1\nwhy 1\nregs\nfail 1 1\n" * 2250)
