"""Cases for the call read: good files of both versions, both sides of every limit, two faults at once, and random damage."""

import itertools
import math
import struct

import solids
from files import BIG, EDGES, FLOATS, MINUS_ZERO, WORDS, Solid, bits_of, case

ORDER = (1, 2, 3, 4, 5, 6, 7, 8, 18, 15)  # in which the rows are tried


def limits():
    """Row 2 on both sides of every limit, the length made to fit."""
    for d, n in itertools.product(range(9), range(11)):
        good = d <= 6 and d + 1 <= n <= 8
        yield Solid(d=d, n=n, v=9).case(f"d {d} n {n}", 0 if good else 2)
    yield Solid(d=255, n=255).case("d and n 255", 2)
    for v in (0, 1, 2, 4095, 4096, 4097, 5000):
        yield Solid(d=0, n=1, v=v).case(f"v {v}", 0 if 1 <= v <= 4096 else 2)
    for version, s in itertools.product((1, 2), (0, 1, 2, 4095, 4096, 4097, 5000)):
        yield Solid(d=0, n=1, s=s, version=version).case(f"version {version} s {s}", 0 if s <= 4096 else 2)
    for h in (0, 1, 2, 63, 64, 65, 66, 256, 65535):
        yield Solid(h=h).case(f"h {h}", 0 if 1 <= h <= 64 else 2)
    for kind in range(256):
        row = 0 if kind in (1, 2) else 5 if kind == 3 else 2
        yield Solid(kind=kind, axes=(0, 1) if kind == 2 else (0, 0)).case(f"kind {kind}", row)
    for field, value in (("v", 65535), ("s", 65535), ("v", 0), ("s", 0), ("v", 256), ("s", 256)):
        row = 3 if value == 256 or (field, value) == ("s", 0) else 2
        yield Solid().set(**{field: value}).case(f"{field} {value} and another length", row)


def no_cells():
    """Files without cells, with and without vertices; lent no words, and floats enough, one more and one too few."""
    for d, n, v, h, data in solids.empty_files():
        for more in (0, 1, -1) if v else (0, 1):
            yield case(f"no cells: d {d} n {n} v {v} h {h}, {more} floats over", data, 0, v * n + more, 15 if more < 0 else 0)
        if v == 0:
            cell = struct.pack(f"<B{d + data[3]}H", 43, *range(d + data[3]))  # in version 2 with a material
            yield case(f"no vertices, one cell: d {d} n {n}", data[:9] + b"\1\0" + data[11:] + cell, row=2)
        yield case(f"no cells, a byte too many: d {d} n {n} v {v}", data + b"+", row=3)


def starts():
    """Row 1: every byte of mark and version, other versions, and every short length."""
    for version in (1, 2):
        data = Solid(d=0, n=1, v=1, s=1, version=version).data()
        for place, bit in itertools.product(range(5), range(8)):
            damaged = bytearray(data)
            damaged[place] ^= 1 << bit
            yield case(f"version {version} byte {place} bit {bit}", bytes(damaged), row=1)
        for length in range(len(data) + 1):
            row = 0 if length == len(data) else 1 if length < 40 else 3
            yield case(f"version {version} length {length}", data[:length], row=row)
        for other in (0, 1, 2, 3, 4, 255, 256, 257, 258, 512, 513, 514, 32769, 65535):
            row = 0 if other == version else 3 if other in (1, 2) else 1
            yield case(f"version {version} told as {other}", data[:3] + struct.pack("<H", other) + data[5:], row=row)


def lengths():
    """Row 3: one byte, one float or one cell too few or too many."""
    for d, version in itertools.product(range(7), (1, 2)):
        for tail in (-8, -2, -1, 1, 2, 8, 1 + 2 * (d + 1), -1 - 2 * (d + 1), 3 + 2 * (d + 1), -3 - 2 * (d + 1)):
            yield Solid(d=d, n=7, v=8, version=version).set(tail=tail).case(f"d {d} version {version} tail {tail}", 3)


def kinds():
    """A fitting step of each kind."""
    return (Solid(floats=(1.5, 0.0, 0.0)), Solid(kind=2, axes=(2, 0), floats=(1.5, -2.5, 0.0)),
            Solid(kind=3, floats=(0.6, 0.8, 0.5)))


def floats_at_edges():
    """Rows 4 and 5: every float at every edge; -0.0 in unused parts."""
    for k, place, (bits, good) in itertools.product(range(3), range(3), EDGES):
        solid = kinds()[k]
        solid.floats[place] = bits
        used = place <= k
        row = 4 if not good else None if k == 2 else 0 if used or bits == 0 else 5
        yield solid.case(f"kind {k + 1} float {place} {bits:x}", row)
    for k, place in itertools.product(range(3), range(3)):
        solid = kinds()[k]
        solid.floats[place] = MINUS_ZERO
        yield solid.case(f"kind {k + 1} float {place} -0.0", None if k == 2 else 0 if place <= k else 5)
    for place, (bits, good) in itertools.product((0, 7, 14), EDGES + [(MINUS_ZERO, True)]):
        solid = Solid()
        solid.points[place] = bits
        yield solid.case(f"point float {place} {bits:x}", 0 if good else 4)


def axes():
    """Row 5 by axes, for every n."""
    for n in range(1, 9):
        for a, b in itertools.product((*range(n + 2), 128, 255), repeat=2):
            slide, slant, turn = (Solid(d=0, n=n, kind=k, axes=(a, b), floats=f) for k, f in (
                (1, (1.0, 0.0, 0.0)), (2, (1.0, 2.0, 0.0)), (3, (0.6, 0.8, 1.0))))
            yield slide.case(f"n {n} slide {a} {b}", 0 if a < n and b == 0 else 5)
            yield slant.case(f"n {n} slant {a} {b}", 0 if a < n and b < n and a != b else 5)
            yield turn.case(f"n {n} turn {a} {b}", 0 if n >= 3 and a == b == 0 else 5)


def cells():
    """Rows 6, 7, 8 and 18: every sign byte, vertices about V, every pair of places, materials about 999."""
    for place, byte in itertools.product((0, 1, -1), range(256)):
        solid = Solid(version=1 + byte % 2)
        solid.cells[place][0] = byte
        yield solid.case(f"cell {place} sign {byte}", 0 if byte in (43, 45) else 6)
    for d, version in itertools.product(range(7), (1, 2)):
        for place, at, x in itertools.product((0, 1, -1), range(2, d + 3), (7, 8, 9, 255, 256, 65535)):
            solid = Solid(d=d, n=8, v=8, version=version)
            solid.cells[place][2:] = range(d + 1)
            solid.cells[place][at] = x
            yield solid.case(f"d {d} version {version} cell {place} vertex {at} is {x}", 0 if x < 8 else 7)
        for place, (i, j) in itertools.product((0, 1, -1), itertools.combinations(range(2, d + 3), 2)):
            solid = Solid(d=d, n=8, v=8, version=version)
            solid.cells[place][i] = solid.cells[place][j]
            yield solid.case(f"d {d} version {version} cell {place} vertices {i} and {j} equal", 8)
        for place, x in itertools.product((0, 1, -1), (*solids.MATERIALS, *solids.BAD_MATERIALS, 100, 65534)):
            solid = Solid(d=d, n=8, v=8, version=version)
            solid.cells[place][1] = x
            yield solid.case(f"d {d} version {version} cell {place} material {x}", 18 if x > 999 and version == 2 else 0)


def rooms():
    """Row 15: each buffer as long as its answer, one longer and one shorter, in small files and in the largest."""
    for version, d, words, floats in itertools.product((1, 2), range(7), (-1, 0, 1, None), (-1, 0, 1, None)):
        solid = Solid(d=d, n=7, v=8, s=6, version=version).set(words=words, spaces=floats)
        yield solid.case(f"version {version} d {d} room {words} {floats}", 15 if -1 in (words, floats) else 0)
    yield case("no room at all", Solid().data(), 0, 0, 15)
    # of these the first has 65,536 bytes and the second one more
    for n, v, s, row in ((8, 1023, 8, 0), (2, 4093, 3, 0), (2, 4096, 1, 0), (8, 1024, 1, 0), (3, 2731, 1, 15),
                         (3, 4096, 9, 15)):
        yield Solid(d=0, n=n, v=v, s=s, version=1).case(f"{n} axes of {v} points", row)
    # lists of 32,760 words and of 32,769, which are more than the program lends
    for version, (s, row) in itertools.product((1, 2), ((3640, 0), (3641, 15))):
        yield Solid(d=6, n=7, v=8, s=s, version=version).case(f"version {version}: {s} cells of dimension 6", row)
    for version, length in ((1, 323624), (2, 331816)):
        largest, name = Solid(d=6, n=8, v=4096, s=4096, version=version), f"the largest file of version {version}"
        assert len(largest.data()) == length
        yield largest.case(f"{name}, and too few floats", 15)
        yield case(name, largest.data(), 36864, 32768, 0)
        yield case(f"{name}, a word short", largest.data(), 36863, 32768, 15)
        yield case(f"{name}, a float short", largest.data(), 36864, 32767, 15)
    yield case("400,000 zeros", bytes(400000), row=1)


def point_bad(place):
    return lambda f: f.points.__setitem__(place, bits_of(BIG))


def cell_bad(place, change):
    return lambda f: change(f.cells[place])


def sign_bad(cell):
    cell[0] = 42


def vertex_bad(cell):
    cell[2] = 5


def vertex_again(cell):
    cell[-1] = cell[-2]


def material_bad(cell):
    cell[1] = 1000


# a row and what makes it apply; places from the first cell or point to the last
FAULTS = [
    (1, lambda f: f.set(version=3)), (1, lambda f: f.set(mark=b"WNg")),
    (2, lambda f: f.set(h=0)), (2, lambda f: f.set(h=65)),
    (3, lambda f: f.set(tail=1)),
    (4, lambda f: f.floats.__setitem__(2, 0x7FF0000000000000)), (4, point_bad(0)), (4, point_bad(-1)),
    (5, lambda f: f.axes.__setitem__(0, 3)), (5, lambda f: f.axes.__setitem__(1, 1)),
    (5, lambda f: f.floats.__setitem__(1, MINUS_ZERO)),
    (6, cell_bad(0, sign_bad)), (6, cell_bad(-1, sign_bad)),
    (7, cell_bad(0, vertex_bad)), (7, cell_bad(-1, vertex_bad)),
    (8, cell_bad(0, vertex_again)), (8, cell_bad(-1, vertex_again)),
    (18, cell_bad(0, material_bad)), (18, cell_bad(-1, material_bad)),
    (15, lambda f: f.set(words=-1)), (15, lambda f: f.set(spaces=-1)),
]


def two_faults():
    """The first row that applies, wherever in the file the two faults stand; and each fault alone."""
    for i, (row, fault) in enumerate(FAULTS):
        solid = Solid()
        fault(solid)
        yield solid.case(f"fault {i}", row)
    for (i, (row, fault)), (j, (other, second)) in itertools.combinations(enumerate(FAULTS), 2):
        solid = Solid()
        fault(solid)
        second(solid)
        yield solid.case(f"faults {i} and {j}", min(row, other, key=ORDER.index))
    solid = Solid()
    sign_bad(solid.cells[-1])
    vertex_bad(solid.cells[0])
    yield solid.case("sign in the last cell, vertex in the first", 6)


def circles(rng):
    """Row 5 at the margin of the unit circle, in files."""
    for c, s, good in circle_edges(rng):
        yield Solid(kind=3, floats=(c, s, 0.25)).case(f"turn {c!r} {s!r}", 0 if good else 5)


def circle_edges(rng, most=12):
    """Pairs whose squares add up, each operation rounded, to the ends of the margin and to their neighbours."""
    low, high = 1.0 - 2.0**-40, 1.0 + 2.0**-40
    for end, inward in ((low, 2.0), (high, 0.0)):
        outward = 2.0 - inward
        for target, good in ((end, True), (math.nextafter(end, inward), True), (math.nextafter(end, outward), False)):
            found = 0
            while found < most:
                angle = rng.uniform(-math.pi, math.pi)
                c, s = math.cos(angle) * math.sqrt(target), math.sin(angle) * math.sqrt(target)
                for _ in range(40):
                    if c * c + s * s == target:
                        yield c, s, good
                        found += 1
                        break
                    s = math.nextafter(s, s * (2.0 if c * c + s * s < target else 0.5))


def random_files(rng, count):
    """Random files, most damaged; the buffers now and then about as long as the answer."""
    for k in range(count):
        data = solids.random_file(rng)
        if rng.random() < 0.6:
            data = solids.damaged(data, rng)
        words, floats = WORDS, FLOATS
        if rng.random() < 0.3 and len(data) >= 40:
            d, n, v, s, _ = solids.file_numbers(data)
            words = min(32768, max(0, s * (d + 3) + rng.choice((-1, 0, 0, 1, 5))))
            floats = min(32768, max(0, v * n + rng.choice((-1, 0, 0, 1, 5))))
        yield case(f"random {k}", data, words, floats)


def cases(rng):
    for part in (limits, no_cells, starts, lengths, floats_at_edges, axes, cells, rooms, two_faults):
        yield from part()
    yield from circles(rng)
    yield from random_files(rng, 4000)
