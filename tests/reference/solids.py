"""Random solids, points, steps and files for comparison tests, sound and damaged.

A cell is a sign, +1 or -1, a tuple of vertices, and a material.
All chance comes from the random.Random that the caller lends.
"""

import itertools
import math
import struct

from winged_reference import (EMPTY, VERSIONS, Cell, Slant, Slide, Turn, ascending, file_cell_size, moved_axes, moved_point,
                              record_size)

BIG = 1048576.0
BELOW_BIG = math.nextafter(BIG, 0.0)
MANNERS = ("connected", "scattered", "mixed")
MATERIALS = (0, 1, 255, 256, 998, 999)  # those that may be, at their edges
BAD_MATERIALS = (1000, 1001, 1023, 1024, 4096, 32768, 65535)

# Solids.
class Growth:
    """A solid that takes a cell only if it stays accepted."""

    def __init__(self):
        self.cells = []
        self.taken = set()
        self.signs = {}

    def faces(self, sign, vertices):
        """The faces of an ascending cell; none in dimension 0."""
        places = range(len(vertices)) if len(vertices) > 1 else ()
        return [(vertices[:i] + vertices[i + 1:], sign if i % 2 == 0 else -sign) for i in places]

    def add(self, sign, vertices):
        """Takes the ascending cell if it fits; tells whether it did."""
        found = self.faces(sign, vertices)
        if vertices in self.taken or any(self.signs.get(f) not in (None, -s) for f, s in found):
            return False
        self.cells.append(Cell(sign, vertices))
        self.taken.add(vertices)
        for f, s in found:
            self.signs[f] = s if f not in self.signs else "full"
        return True

    def propose(self, d, v, rng, connected):
        """Vertices of a next cell: any, or those of a cell with one changed."""
        if not (connected and self.cells and v > d + 1):
            return tuple(sorted(rng.sample(range(v), d + 1)))
        vertices = list(rng.choice(self.cells).vertices)
        vertices[rng.randrange(d + 1)] = rng.choice([x for x in range(v) if x not in vertices]
                                                    if v < 40 else [rng.randrange(v)])
        return tuple(sorted(set(vertices)))

def with_materials(cells, rng):
    """The cells with materials: in most solids each its own, in some all the same, in some all 0."""
    chance = rng.random()
    if chance < 0.15:
        return [cell._replace(material=0) for cell in cells]
    some = MATERIALS if chance < 0.5 else (rng.randrange(1000),) if chance < 0.6 else range(1000)
    return [cell._replace(material=rng.choice(some)) for cell in cells]

def random_solid(d, v, s, rng, manner="mixed"):
    """An accepted solid of up to s ascending cells, v at least d+1; never empty."""
    growth = Growth()
    for _ in range(12 * s + 40):
        if len(growth.cells) == s:
            break
        connected = manner == "connected" or manner == "mixed" and rng.random() < 0.8
        vertices = growth.propose(d, v, rng, connected)
        sign = rng.choice((1, -1))
        if len(vertices) == d + 1:
            growth.add(sign, vertices) or growth.add(-sign, vertices)
    return with_materials(growth.cells, rng)

def closed_solid(d, v, rng):
    """All faces of a simplex of dimension d+1: no boundary; v at least d+2, d at least 1."""
    vertices = sorted(rng.sample(range(v), d + 2))
    sign = rng.choice((1, -1))
    cells = [Cell(sign * (-1) ** i, tuple(vertices[:i] + vertices[i + 1:])) for i in range(d + 2)]
    rng.shuffle(cells)
    return with_materials(cells, rng)

def shuffled(cells, rng, adjust=True):
    """Cells in random vertex order; without adjusting, odd reorderings turn cells over."""
    result = []
    for cell in cells:
        order = rng.sample(cell.vertices, len(cell.vertices))
        sign = ascending(cell.sign, order)[0] if adjust else cell.sign
        result.append(Cell(sign, tuple(order), cell.material))
    return result

def cell_words(cells):
    """The list of cells that wing takes."""
    return [word for cell in cells for word in (0 if cell.sign == 1 else 1, cell.material, *cell.vertices)]

def small_solid(d, rng):
    """A small solid of dimension d, of any manner: (v, cells)."""
    v = d + 1 + rng.choice((0, 1, 2, 3, 6))
    if d > 0 and v > d + 1 and rng.random() < 0.15:
        return v, closed_solid(d, v, rng)
    return v, random_solid(d, v, rng.randint(1, 9), rng, rng.choice(MANNERS))

# Points and steps.
def near_tie(rng):
    """An odd sixteenth, half-way between two thousandths as no other float is; or a neighbour of it, one bit away."""
    x = rng.choice((1, -1)) * rng.randrange(1, rng.choice((2**6, 2**14, 2**24)), 2) / 16.0
    return rng.choice((x, math.nextafter(x, 0.0), math.nextafter(x, 2 * x)))

def random_float(rng, most=1000.0):
    """A float of many kinds, below the limit: halves of thousandths, tiny, plain."""
    return rng.choice((
        lambda: rng.uniform(-most, most),
        lambda: rng.randint(-2**12, 2**12) / 16.0,
        lambda: near_tie(rng),
        lambda: rng.randint(-2000, 2000) / 2000.0,
        lambda: float(rng.randint(-9, 9)),
        lambda: rng.uniform(-1, 1) * 2.0 ** rng.randint(-1070, -8),
        lambda: rng.choice((0.0, -0.0, 0.0005, -0.0005, 0.0625, -0.0625, 0.9995, 5e-324)),
    ))()

def edge_float(rng):
    """A float at the edge of what row 4 allows, on either side."""
    return rng.choice((BIG, -BIG, BELOW_BIG, -BELOW_BIG, BIG - 1.0, math.inf, -math.inf,
                       math.nan, 0.0, -0.0, 1.0, 5e-324, -5e-324))

def random_points(v, n, rng):
    """The floats of v points; seldom some near the limit, so that moves go over it."""
    points = [random_float(rng) for _ in range(v * n)]
    if points and rng.random() < 0.15:
        points[rng.randrange(v * n)] = rng.choice((BELOW_BIG, -BELOW_BIG, BIG - 1.0, BIG - 2.0))
    return points

def random_turn(rng):
    """A turn on the circle, now and then just about at the edge of row 5."""
    if rng.random() < 0.3:
        c, s = rng.choice(((1.0, 0.0), (0.0, 1.0), (-1.0, 0.0), (0.0, -1.0), (0.6, 0.8)))
    else:
        angle = rng.uniform(-math.pi, math.pi)
        c, s = math.cos(angle), math.sin(angle)
    if rng.random() < 0.2:
        scale = math.sqrt(1.0 + rng.choice((1, -1)) * 2.0**-40)
        scale += rng.randint(-3, 3) * 2.0**-52
        c, s = c * scale, s * scale
    return Turn(c, s, random_float(rng))

def random_step(n, rng):
    """A step that fits n axes; a turn may stand at the edge of the circle."""
    kind = rng.choice([k for k, least in ((1, 1), (2, 2), (3, 3)) if n >= least])
    if kind == 1:
        return Slide(rng.randrange(n), random_float(rng))
    if kind == 2:
        a, b = rng.sample(range(n), 2)
        return Slant(a, random_float(rng), b, random_float(rng))
    return random_turn(rng)

def flat_on(points, n, axis, value):
    """The points with one value on an axis; where that is 0, every other zero has a minus."""
    values = (value, -value) if value == 0 else (value,)
    return [values[k // n % len(values)] if k % n == axis else x for k, x in enumerate(points)]

def with_amount(step, axis, amount):
    """The step with another amount on an axis that it moves, or another rise."""
    if isinstance(step, Turn):
        return step._replace(rise=amount)
    return step._replace(**{"amount" if step.axis == axis else "other_amount": amount})

def random_move(v, n, rng, points=None):
    """A step and v points, random ones or those given. Most are made flat on an axis that the step moves, by an amount that
    rounding does not swallow; some only nearly so, and some are left to chance: row 17 refuses nearly all of these."""
    step, points = random_step(n, rng), random_points(v, n, rng) if points is None else points
    chance = rng.random()
    if v == 0 or chance < 0.03:
        return step, points
    axis = rng.choice(moved_axes(step, n))
    amount = moved_point(step, [0.0] * n)[axis]
    value = rng.choice(points[axis::n]) if rng.random() < 0.95 else rng.choice((BELOW_BIG, -BELOW_BIG, BIG - 2.0, 2.0 - BIG))
    if chance > 0.09:
        amount = amount or rng.choice((1.0, -1.0, 0.125, 5e-324))
        if value + amount == value:
            value = 0.0
    points = flat_on(points, n, axis, value)
    if chance < 0.06:
        place = axis + n * rng.randrange(v)
        points[place] = math.nextafter(points[place], rng.choice((BIG, -BIG)))
    return with_amount(step, axis, amount), points

# Solids without cells.
def empty_sizes():
    """Vertex counts and steps for a solid without cells: those that a sweep may have, and those that are too many."""
    return ((0, 1), (0, 2), (0, 64), (1, 1), (1, 5), (3, 1), (7, 3), (63, 64), (2048, 1), (2049, 1), (1366, 2), (4096, 64))

def steps_of_each_kind(n):
    """A step of each kind that n axes have room for."""
    steps = (Slide(n - 1, 1.0), Slant(n - 1, 0.5, 0, -2.0), Turn(0.6, 0.8, 0.25))
    return steps[:min(n, 3)]

def empty_files():
    """Files without cells, flat on the last axis, of every dimension, kind of step and version, with many vertices only slid
    and in one version; (d, n, v, h, file)."""
    for d, (v, h) in itertools.product(range(7), empty_sizes()):
        for n in {d + 1, max(d + 1, 3), 8} if v < 1000 else {d + 1}:
            points = flat_on([(k * 37 % 101 - 50) / 16 for k in range(v * n)], n, n - 1, -2.5)
            few = v < 1000
            for version, step in itertools.product(VERSIONS if few else (1 + d % 2,), steps_of_each_kind(n)[:3 if few else 1]):
                yield d, n, v, h, file_bytes(d, n, v, h, step, points, [], version)

# Files.
def step_bytes(step):
    """Bytes 13 to 39 of a file."""
    if isinstance(step, Slide):
        return struct.pack("<3B3d", 1, step.axis, 0, step.amount, 0.0, 0.0)
    if isinstance(step, Slant):
        return struct.pack("<3B3d", 2, step.axis, step.other_axis,
                           step.amount, step.other_amount, 0.0)
    return struct.pack("<3B3d", 3, 0, 0, *step)

def file_bytes(d, n, v, h, step, points, cells, version):
    """A file of the given solid; version 1 leaves its materials out."""
    data = b"WNG" + struct.pack("<HBBHHH", version, d, n, v, len(cells), h) + step_bytes(step)
    data += struct.pack(f"<{len(points)}d", *points)
    for sign, vertices, material in cells:
        words = vertices if version == 1 else (material, *vertices)
        data += struct.pack(f"<B{len(words)}H", 43 if sign == 1 else 45, *words)
    return data

def random_file(rng, d=None):
    """A file of a random accepted solid, shuffled; most are small, some too big to sweep, some without cells. Most are of
    version 2."""
    d = rng.randint(0, 6) if d is None else d
    n = rng.randint(d + 1, 8)
    v, cells = small_solid(d, rng)
    h = rng.choice((1, 1, 1, 2, 2, 3, 5))
    if rng.random() < 0.06:
        v = rng.choice((60, 200, 700, 1365, 1366, 2048, 2049))
        cells = random_solid(d, v, rng.choice((5, 50, 150, 400)), rng)
        n, h = d + 1, rng.choice((1, 2, 8, 63, 64))
    elif rng.random() < 0.05:
        v, cells = rng.choice((0, 1, v)), []
    cells = shuffled(cells, rng, adjust=rng.random() < 0.9)
    version = rng.choice((1, 2, 2))
    step, points = random_move(v, n, rng)
    return file_bytes(d, n, v, h, step, points, cells, version)

# Files about as long as the program has room for, on the way to their keys.
def apart(d, v, s):
    """The first s cells on v vertices with a sum that v divides: no two of them share a face."""
    rows = (row for row in itertools.combinations(range(v), d + 1) if sum(row) % v == 0)
    return [Cell(1, row, p % 1000) for p, row in enumerate(itertools.islice(rows, s))]

def ring(s):
    """A closed row of s segments."""
    return [Cell(1, (p, p + 1), p) for p in range(s - 1)] + [Cell(-1, (0, s - 1))]

def sheet(side):
    """A square of side by side squares, of two triangles each."""
    width = side + 1
    corners = [y * width + x for y in range(side) for x in range(side)]
    return [cell for a in corners for cell in (Cell(1, (a, a + 1, a + width), a), Cell(-1, (a + 1, a + width, a + width + 1)))]

def limit_files():
    """Files whose list, table or swept table just fits into the program's 65,536 bytes, or is longer by a cell or a step;
    (the refusal or 0, file)."""
    for version in VERSIONS:
        # tables of 32,768 words at most, whose sweep is too large, and longer ones
        for d, v, s, row in ((2, 161, 4096, 12), (3, 46, 3276, 12), (3, 46, 3277, 15), (6, 20, 2048, 12), (6, 20, 2049, 15)):
            yield row, file_bytes(d, d + 1, v, 1, Slide(d, 1.0), [0.0] * (v * (d + 1)), apart(d, v, s), version)
        # lists of 32,760 words and of 32,769, with a cell twice: where the list is read, wing says so
        for s, row in ((3640, 9), (3641, 15)):
            cells = apart(6, 20, s - 1)
            yield row, file_bytes(6, 7, 20, 1, Slide(6, 1.0), [0.0] * 140, cells + cells[:1], version)
        # swept tables of 32,768 words, of 32,400 and of 32,940
        for d, v, h, cells, row in ((1, 32, 64, ring(32), 0), (2, 16, 60, sheet(3), 0), (2, 16, 61, sheet(3), 15)):
            yield row, file_bytes(d, d + 1, v, h, Slide(d, 0.5), [0.0] * (v * (d + 1)), cells, version)

# Damage. Each fault takes a bytearray and returns it changed.
def file_numbers(data):
    """d, n, V and S as the header says, and where the cells start."""
    d, n, v, s = struct.unpack_from("<BBHH", data, 5)
    return d, n, v, s, 40 + 8 * n * v

def cell_layout(data):
    """The bytes of a cell by the header, and how many of them stand before its vertices."""
    version, d = struct.unpack_from("<HB", data, 3)
    size = file_cell_size(version, d)
    return size, size - 2 * (d + 1)

def fault_byte(data, rng):
    """One byte changed, as often in the header as elsewhere."""
    most = len(data) if rng.random() < 0.5 else min(len(data), 40)
    if most:
        data[rng.randrange(most)] = rng.randrange(256)
    return data

def fault_cut(data, rng):
    """Cut by a few bytes, or to any length."""
    keep = rng.choice((len(data) - 1, len(data) - 2, 40, 39, rng.randint(0, len(data))))
    return data[:max(keep, 0)]

def fault_extended(data, rng):
    """A few bytes too many."""
    return data + bytes(rng.randrange(256) for _ in range(rng.choice((1, 1, 2, 3, 8))))

HEADER_EDGES = (
    (3, "<H", (0, 1, 2, 3, 256, 257, 258, 65535)),
    (5, "<B", (0, 1, 5, 6, 7, 8, 255)),
    (6, "<B", (0, 1, 2, 3, 7, 8, 9, 255)),
    (7, "<H", (0, 1, 2, 2048, 2049, 4096, 4097, 65535)),
    (9, "<H", (0, 1, 2, 4096, 4097, 65535)),
    (11, "<H", (0, 1, 2, 63, 64, 65, 65535)),
    (13, "<B", (0, 1, 2, 3, 4, 255)),
    (14, "<B", (0, 1, 2, 3, 7, 8, 255)),
    (15, "<B", (0, 1, 2, 3, 7, 8, 255)),
)

def refitted(data, rng):
    """The data cut or filled to the length that its header says, if that is not large."""
    _, _, _, s, start = file_numbers(data)
    length = start + s * cell_layout(data)[0]
    if length > 70000:
        return data
    return data[:length] + bytes(rng.choice((0, 0, 43, 45, 1)) for _ in range(length - len(data)))

def fault_header(data, rng):
    """A number of the header at the edge of its limit, the length made to fit or not."""
    if len(data) < 40:
        return data
    place, form, edges = rng.choice(HEADER_EDGES)
    struct.pack_into(form, data, place, rng.choice(edges))
    return refitted(data, rng) if rng.random() < 0.5 else data

def fault_float(data, rng):
    """A float of the header or a point at its edge."""
    _, n, v, _, _ = file_numbers(data) if len(data) >= 40 else (0, 0, 0, 0, 0)
    place = rng.choice((16, 24, 32, 40 + 8 * rng.randrange(max(n * v, 1))))
    if place + 8 <= len(data):
        struct.pack_into("<d", data, place, edge_float(rng))
    return data

def fault_step(data, rng):
    """Another step, whether or not it fits the axes."""
    if len(data) >= 40:
        data[13:40] = step_bytes(rng.choice((
            Slide(rng.randrange(9), random_float(rng)),
            Slant(rng.randrange(4), random_float(rng), rng.randrange(4), random_float(rng)),
            random_turn(rng), Turn(random_float(rng), random_float(rng), random_float(rng)))))
    return data

def fault_cell(data, rng):
    """A sign, a material, a vertex or a whole cell changed in one cell."""
    if len(data) < 40:
        return data
    d, _, v, s, start = file_numbers(data)
    size, before = cell_layout(data)
    place = start + size * rng.randrange(max(s, 1))
    if place + size > len(data):
        return data
    what = rng.randrange(6)
    if what == 0:
        data[place] = rng.choice((0, 42, 43, 44, 45, 46))
    elif what == 1:
        data[place] = 88 - data[place] if data[place] in (43, 45) else 43
    elif what == 2:
        other = start + size * rng.randrange(max(s, 1))
        data[place + 1:place + size] = data[other + 1:other + size]
    elif what == 3:
        if before == 3:
            struct.pack_into("<H", data, place + 1, rng.choice(MATERIALS + BAD_MATERIALS))
    else:
        old = place + before + 2 * rng.randrange(d + 1)
        twice = struct.unpack_from("<H", data, place + before + 2 * rng.randrange(d + 1))[0]
        new = rng.choice((twice, max(v - 1, 0), v, 65535, rng.randrange(max(v, 1))))
        struct.pack_into("<H", data, old, new)
    return data

def fault_added(data, rng):
    """One or two cells more, both over one face of a cell of the file."""
    if len(data) < 40:
        return data
    d, _, v, s, start = file_numbers(data)
    size, before = cell_layout(data)
    if len(data) != start + s * size or s == 0 or v == 0:
        return data
    model = start + size * rng.randrange(s)
    changed = before + 2 * rng.randrange(d + 1)
    for _ in range(rng.randint(1, 2)):
        cell = data[model:model + size]
        cell[0] = rng.choice((43, 45))
        struct.pack_into("<H", cell, changed, rng.randrange(v))
        data = data + cell
        s += 1
    struct.pack_into("<H", data, 9, s)
    return data

FAULTS = (fault_byte, fault_cut, fault_extended, fault_header, fault_float, fault_step,
          fault_cell, fault_cell, fault_added)

def damaged(data, rng):
    """The file with one or two faults; now and then it stays good all the same."""
    data = bytearray(data)
    for _ in range(rng.randint(1, 2)):
        data = rng.choice(FAULTS)(data, rng)
    return bytes(data)

def damaged_table(table, d, v, s, rng):
    """The words of a table with one or two faults, of the same length; another material may be none."""
    table = list(table)
    size = record_size(d)
    for _ in range(rng.randint(1, 2)):
        place = rng.randrange(len(table))
        at = place % size
        if at == 0:
            table[place] = rng.choice((0, 1, 2, 65535))
        elif at == 1:
            table[place] = rng.choice(MATERIALS + BAD_MATERIALS)
        elif at <= d + 2:
            table[place] = rng.choice((0, v - 1, v, 65535, rng.randrange(v),
                                       table[place - at + 2 + rng.randrange(d + 1)]))
        else:
            table[place] = rng.choice((EMPTY, 0, s - 1, s, place // size, rng.randrange(s)))
        if rng.random() < 0.1:
            p, q = rng.randrange(s) * size, rng.randrange(s) * size
            table[p:p + size] = table[q:q + size]
    return table
