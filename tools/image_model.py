"""An image file read by rules of its own: an independent model of `read_image`, for tools/check_image.

`verdict(data)` gives 'ok' or the refusal as `ease run` will write it, as 'bad-word 3'.
"""
import re

RESERVED = set("nv const word peripheral task if else for IO IO_BLOCK DMA NEXT STOP SINGLE TIMELY ALWAYS".split())
NONE, A_M, A_B, A_B_M, T, A = range(6)
FORMS = {1: NONE, 2: A_M, 3: A_M, 4: A_B, 17: A_M, 18: A_B_M, 19: A_B_M, 20: T, 21: A_M, 23: A, 25: "M"}
FORMS.update({code: A_B for code in range(5, 17)})
MARKED = {1: 2, 2: 23, 3: 4, 4: 19, 5: 22, 6: 19, 7: 24, 8: 19}  # a mark's kind: the code of its instruction


class Short(Exception):
    pass


class Reader:
    def __init__(self, data, at):
        self.data, self.at = data, at

    def take(self, n):
        if self.at + n > len(self.data):
            raise Short
        self.at += n
        return self.data[self.at - n : self.at]

    def number(self, n):
        return int.from_bytes(self.take(n), "little")


def has_row(word):
    code, a, b, m = word >> 24, word >> 20 & 15, word >> 16 & 15, word & 0xFFFF
    if code == 22:
        count = m >> 8
        return count <= 4 and b + count <= 16
    if code == 24:
        return m <= 15
    form = FORMS.get(code)
    if form is None:
        return False
    unused = {NONE: a or b or m, A_M: b, A_B: m, A_B_M: 0, T: 0, A: b or m, "M": a or b}
    return not unused[form]


def is_name(name):
    return len(name) <= 32 and re.fullmatch(rb"[A-Za-z_][A-Za-z0-9_]*", name) is not None and name.decode() not in RESERVED


def ranges(symbol, stride):
    name, kind, base, length = symbol
    own = (base, base + length)
    moved = (base + stride, base + stride + length) if kind == 0 else own
    return [own, moved]


def meet(a, b):
    return max(a[0], b[0]) < min(a[1], b[1])


def bad_symbol(symbol, earlier, names, kept, stride):
    name, kind, base, length = symbol
    if not is_name(name) or name in names or kind > 2 or length == 0:
        return True
    low, high = (1048576, 1052672) if kind == 2 else (0, 65536)
    for span in ranges(symbol, stride):
        if span[0] < low or span[1] > high or meet(span, kept):
            return True
        if any(meet(span, other) for e in earlier for other in ranges(e, stride)):
            return True
    return False


def bad_mark(mark, before, code, version):
    at, kind, site, task = mark
    if at >= len(code) or (before is not None and at <= before):
        return True
    if kind not in MARKED or code[at] >> 24 != MARKED[kind]:
        return True
    if site == 0 and kind != 8:
        return True
    if version == 2:
        return not 1 <= task <= 64 or (kind == 1 and task != site) or (2 <= kind <= 7 and site > 128)
    return False


def layout(data):
    r = Reader(data, 4)
    version, scheme = r.number(1), r.number(1)
    head = [r.number(2) for _ in range(4)]
    code = [r.number(4) for _ in range(r.number(4))]
    fram = [r.number(4) for _ in range(r.number(4))]
    symbols = [(r.take(r.number(1)), r.number(1), r.number(4), r.number(4)) for _ in range(r.number(2))]
    peripherals = [(r.take(r.number(1)), r.number(1)) for _ in range(r.number(2))]
    marks = [(r.number(4), r.number(1), r.number(1), r.number(1) if version == 2 else 0) for _ in range(r.number(4))]
    return version, scheme, head, code, fram, symbols, peripherals, marks, len(data) - r.at


def verdict(data):
    if data[:4] != b"EASE":
        return "bad-magic"
    if len(data) > 4 and data[4] not in (1, 2):
        return f"bad-version {data[4]}"
    if len(data) > 5 and data[5] > 1:
        return f"bad-scheme {data[5]}"
    try:
        version, scheme, (_, stride, keep, keep_words), code, fram, symbols, peripherals, marks, left = layout(data)
    except Short:
        return "short"
    for n, most in ((len(code), 4194304), (len(fram), 65536), (len(symbols), 256), (len(peripherals), 256), (len(marks), 2097152)):
        if n > most:
            return f"too-large {n}"
    for i, word in enumerate(code):
        if not has_row(word):
            return f"bad-word {i}"
    if (scheme == 0 and stride != 0) or keep + keep_words > 65536:
        return "bad-symbol 0"
    names, kept = set(), (keep, keep + keep_words)
    for n, symbol in enumerate(symbols):
        if bad_symbol(symbol, symbols[:n], names, kept, stride):
            return f"bad-symbol {n + 1}"
        names.add(symbol[0])
    numbers = set()
    for n, (name, number) in enumerate(peripherals):
        if not is_name(name) or name in names or number in numbers:
            return f"bad-symbol {len(symbols) + n + 1}"
        names.add(name)
        numbers.add(number)
    before = None
    for n, mark in enumerate(marks):
        if bad_mark(mark, before, code, version):
            return f"bad-mark {n + 1}"
        before = mark[0]
    return "trailing" if left else "ok"
