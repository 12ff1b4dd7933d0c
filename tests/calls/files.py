"""Files to read: put together part by part, and what the driver is to print of them."""

import collections
import math
import struct

import winged_reference as reference

WORDS, FLOATS = 32768, 8192  # what the program key lends
Case = collections.namedtuple("Case", "name sent want row")

BIG = 1048576.0
INSIDE, OUTSIDE = math.nextafter(BIG, 0.0), math.nextafter(BIG, math.inf)
# floats by their bits, and whether row 4 allows them
EDGES = [(bits, good) for value, good in (
    (BIG, False), (-BIG, False), (INSIDE, True), (-INSIDE, True), (OUTSIDE, False), (-OUTSIDE, False),
    (math.inf, False), (-math.inf, False), (0.0, True), (5e-324, True), (-5e-324, True), (2.2e-308, True), (1.7e308, False))
    for bits in struct.unpack("<Q", struct.pack("<d", value))]
EDGES += [(bits, False) for bits in (0x7FF8000000000000, 0xFFF8000000000000, 0x7FF0000000000001, 0xFFFFFFFFFFFFFFFF)]
MINUS_ZERO = 1 << 63


def bits_of(x):
    return struct.unpack("<Q", struct.pack("<d", x))[0]


def spaced(floats):
    """Floats as the programs print them."""
    return "".join(f" {bits:016x}" for bits in struct.unpack(f"<{len(floats)}Q", struct.pack(f"<{len(floats)}d", *floats)))


def step_text(step):
    if isinstance(step, reference.Slide):
        return f"slide {step.axis}{spaced([step.amount])}"
    if isinstance(step, reference.Slant):
        return f"slant {step.axis}{spaced([step.amount])} {step.other_axis}{spaced([step.other_amount])}"
    return f"turn{spaced(list(step))}"


def expected(data, words, floats):
    """What the program is to print."""
    a = reference.read(data, words, floats)
    if isinstance(a, reference.Refused):
        return f"refused {a.number}\nbehind 0 0"
    cells = "".join(f" {word:04x}" for word in a.cells)
    return (f"read {a.version} {a.d} {a.n} {a.v} {a.s} {a.h}\n{step_text(a.step)}\n"
            f"cells{cells}\npoints{spaced(a.points)}\nbehind 0 0")


def case(name, data, words=WORDS, floats=FLOATS, row=None):
    return Case(name, struct.pack("<4Q", 4, len(data), words, floats) + data, expected(data, words, floats), row)


class Solid:
    """A file before it is put together, so that faults can be set one by one. Its length fits its numbers. A cell is a sign
    byte, a material and vertices; a file of version 1 has no materials."""

    def __init__(self, d=2, n=3, v=5, s=4, h=2, kind=1, axes=(0, 0), floats=(1.5, 0.0, 0.0), version=2):
        self.mark, self.version = b"WNG", version
        self.d, self.n, self.v, self.s, self.h, self.kind = d, n, v, s, h, kind
        self.axes = list(axes)
        self.floats = [bits_of(x) for x in floats]
        self.points = [bits_of(k % 97 / 8 - 6) for k in range(v * n)]
        self.cells = [[43 + 2 * (p % 2), (999 - 111 * p) % 1000] + [(p + i) % max(v, 1) for i in range(d + 1)] for p in range(s)]
        self.tail, self.words, self.spaces = 0, None, None

    def data(self):
        data = self.mark + struct.pack("<HBBHHHBBB3Q", self.version, self.d, self.n, self.v, self.s, self.h, self.kind,
                                       *self.axes, *self.floats)
        data += struct.pack(f"<{len(self.points)}Q", *self.points)
        for sign, *words in self.cells:
            words = words[1:] if self.version == 1 else words
            data += struct.pack(f"<B{len(words)}H", sign, *words)
        return data[:self.tail] if self.tail < 0 else data + b"\0" * self.tail

    def case(self, name, row=None):
        words = WORDS if self.words is None else self.s * (self.d + 3) + self.words
        floats = FLOATS if self.spaces is None else self.v * self.n + self.spaces
        return case(name, self.data(), words, floats, row)

    def set(self, **values):
        for name, value in values.items():
            setattr(self, name, value)
        return self
