"""Row 17 of move, the step that no axis carries: each check a name, what the reference gives, and what is wanted.

Steps are worked out by hand, at the edges of flat and of rising; of random ones it is told in another way, vertex by vertex.
"""

import math
import struct

import solids
import winged_reference as ref
from winged_reference import Cell, Refused, Slant, Slide, Turn

ROOM = 10**6
BIG = 1048576.0
SQUARE = [[0.0, 0.0, 0.5], [1.0, 0.0, 0.5], [0.0, 1.0, 0.5], [1.0, 1.0, 0.5]]  # flat on axis 2
TILTED = [[0.0, 0.0, 0.0], [1.0, 0.0, 1.0], [0.0, 1.0, 2.0], [1.0, 1.0, 3.0]]  # flat on no axis
LOST = 2.0**-53  # added to 1, half a unit, which goes to the even neighbour: 1 again
BELOW_ONE = 1.0 - LOST

def moved(step, rows, h=1, room=ROOM, n=None):
    """The refusal number of move on points in rows, 0 if accepted."""
    n = n or len(rows[0])
    answer = ref.move(n, len(rows), h, step, [x for row in rows for x in row], room)
    return answer.number if isinstance(answer, Refused) else 0

def on_axis(values):
    """Points of one axis."""
    return [[x] for x in values]

def slides():
    """Along the plane and out of it; amounts of no effect."""
    yield "square along itself", [moved(Slide(a, 1.0), SQUARE) for a in (0, 1, 2)], [17, 17, 0]
    yield "square along itself, many steps", [moved(Slide(a, 1.0), SQUARE, 64) for a in (0, 1, 2)], [17, 17, 0]
    yield "falling", [moved(Slide(a, -0.25), SQUARE, 5) for a in (0, 1, 2)], [17, 17, 0]
    yield "no axis flat", [moved(Slide(a, 1.0), TILTED) for a in (0, 1, 2)], [17] * 3
    yield "amount 0", [moved(Slide(2, x), SQUARE) for x in (0.0, -0.0, 5e-324, -5e-324)], [17] * 4
    yield "amount 0 from 0", [moved(Slide(0, x), on_axis([y, 0.0])) for x in (0.0, -0.0) for y in (0.0, -0.0)], [17] * 4
    yield "the least amount from 0", [moved(Slide(0, x), on_axis([0.0, -0.0]), h) for x in (5e-324, -5e-324) for h in (1, 64)], [0] * 4
    half = 2.0**-34  # of a unit at 1,048,575, which is even
    for x, wanted in ((2.0**-40, 17), (-2.0**-40, 17), (half, 17), (-half, 17), (math.nextafter(half, 1.0), 0), (2.0**-33, 0)):
        yield f"1,048,575 slid by {x!r}", moved(Slide(0, x), on_axis([1048575.0] * 2)), wanted
    yield "far down, slid by 2^-40", [moved(Slide(0, x), [[-1048575.0]]) for x in (2.0**-40, -2.0**-40)], [17] * 2

def later_levels():
    """An amount that is lost only from some level on; and one that is lost at no level."""
    for sign in (1.0, -1.0):
        slide, start = Slide(0, sign * LOST), on_axis([sign * BELOW_ONE] * 3)
        yield f"lost at the second level, {sign}", [moved(slide, start, h) for h in (1, 2, 3, 64)], [0, 17, 17, 17]
    for k in (3, 7, 63):
        start = on_axis([1.0 - k * LOST])
        yield f"lost at level {k + 1}", [moved(Slide(0, LOST), start, h) for h in (1, k, k + 1, 64)], [0, 0, 17, 17]
    yield "from 1, by half a unit and by more", [moved(Slide(0, x), [[1.0]], 9) for x in (LOST, math.nextafter(LOST, 1.0))], [17, 0]
    yield "towards 0, lost at first", [moved(Slide(0, x), [[1.0]]) for x in (-LOST / 2, math.nextafter(-LOST / 2, -1.0))], [17, 0]

def slants():
    """One axis of the two is enough, whichever."""
    for a, b, wanted in ((0, 1, 17), (1, 0, 17), (0, 2, 0), (2, 0, 0), (1, 2, 0), (2, 1, 0)):
        yield f"slant {a} {b}", moved(Slant(a, 0.5, b, -0.5), SQUARE, 3), wanted
    yield "slant, the flat axis by 0", [moved(Slant(0, 0.5, 2, x), SQUARE) for x in (0.0, -0.0, 5e-324)], [17] * 3
    yield "slant, the flat axis first and by 0", [moved(Slant(2, x, 0, 0.5), SQUARE) for x in (0.0, -0.0, 5e-324)], [17] * 3
    yield "slant, the other axis by 0", [moved(Slant(2, 1.0, 0, x), SQUARE) for x in (0.0, -0.0)], [0] * 2
    yield "slant, flat on an axis that it does not move", moved(Slant(0, 1.0, 1, 1.0), SQUARE), 17
    yield "slant, no axis flat", moved(Slant(0, 1.0, 2, 1.0), TILTED), 17
    flat = [[3.0, 0.0, -3.0]] * 4
    yield "slant, both flat", [moved(Slant(0, x, 2, y), flat) for x in (1.0, 0.0) for y in (-1.0, 0.0)], [0, 0, 0, 17]
    # at the second level the first axis has lost its amount, and at the third the second
    late = Slant(0, LOST, 1, LOST)
    yield "slant, one lost late", [moved(late, [[BELOW_ONE, 1.0 - 2 * LOST]], h) for h in (1, 2, 3)], [0, 0, 17]

def turns():
    """The last axis alone carries a turn, by its rise."""
    screw = Turn(0.6, 0.8, 0.5)
    yield "turn, rises", [moved(screw._replace(rise=x), SQUARE, 4) for x in (0.5, -0.5, 0.0, -0.0, 5e-324)], [0, 0, 17, 17, 17]
    yield "turn, last axis not flat", moved(screw, TILTED), 17
    yield "turn by nothing", [moved(Turn(1.0, 0.0, x), SQUARE) for x in (1.0, 0.0)], [0, 17]
    for n in range(3, 9):
        rows = [[float(i == k) for k in range(n - 1)] + [-0.0] for i in range(n)]
        yield f"turn in {n} axes", [moved(screw, rows, 3), moved(screw._replace(rise=0.0), rows, 3)], [0, 17]
        off = [row[:-2] + row[-2:][::-1] for row in rows]  # flat on the last axis but one
        yield f"turn in {n} axes, another axis flat", moved(screw, off), 17
    yield "turn, axes 0 and 1 flat", moved(screw, [[1.0, 1.0, 0.0], [1.0, 1.0, 1.0]]), 17
    yield "turn, a rise lost late", [moved(Turn(0.0, 1.0, LOST), [[2.0, 3.0, BELOW_ONE]], h) for h in (1, 2)], [0, 17]

def flatness():
    """Equal by value, over all vertices, at every level."""
    step = Slide(0, 1.0)
    yield "-0 beside 0", [moved(step, on_axis(x)) for x in ([0.0, -0.0], [-0.0, 0.0, -0.0], [-0.0])], [0] * 3
    for x in (0.0, 1.0, -3.5, 1000.1):
        for place in (0, 1, 4):
            values = [x] * 5
            values[place] = math.nextafter(x, math.inf)
            yield f"{x} but for a bit at {place}", moved(Slide(0, 2.0), on_axis(values)), 17
    # one value after the first step, and two before it
    yield "merged by rounding", [moved(step, on_axis(x)) for x in ([0.0, 2.0**-60], [2.0**-60, 0.0], [2.0**-60] * 2)], [17, 17, 0]
    yield "merged by rounding, downwards", moved(Slide(0, -1.0), on_axis([2.0**-60, -2.0**-60])), 17
    yield "one vertex", [moved(Slide(a, x), [[7.0, -7.0, 0.1]]) for a in (0, 1, 2) for x in (1.0, -1.0, 0.0)], [0, 0, 17] * 3
    yield "one vertex, slant and turn", [moved(s, [[7.0, -7.0, 0.1]]) for s in (Slant(0, 1.0, 1, 0.0), Slant(0, 0.0, 1, 1.0),
                                         Slant(0, 0.0, 1, 0.0), Turn(0.0, 1.0, 1.0), Turn(0.0, 1.0, 0.0))], [0, 0, 17, 0, 17]
    many = [[float(k), 2.5] for k in range(2048)]
    yield "2,048 vertices", [moved(Slide(a, 1.0), many) for a in (0, 1)], [17, 0]
    for place in (0, 1023, 2047):
        bent = [row[:] for row in many]
        bent[place][1] = math.nextafter(2.5, 3.0)
        yield f"2,048 vertices, {place} off by a bit", moved(Slide(1, 1.0), bent), 17
    for step in (Slide(0, 0.0), Slant(0, 0.0, 2, -0.0), Turn(1.0, 0.0, 0.0), Slide(2, 1.0)):
        yield f"no vertices, {step}", [moved(step, [], h, 0, 3) for h in (1, 64)], [0, 0]

def order():
    """13 comes before 17, and 17 before 15."""
    out = [[BIG - 1.0, 0.0], [0.0, 1.0]]
    yield "13 and 17", [moved(Slide(0, x), out) for x in (1.0, 0.5, -1.0)], [13, 17, 17]
    yield "13 at a later level, and 17", [moved(Slide(0, 0.25), out, h) for h in (3, 4)], [17, 13]
    yield "13 on another axis, and flat", moved(Slant(1, 1.0, 0, 1.0), [[BIG - 1.0, 0.0]] * 2), 13
    yield "17 and 15", [moved(Slide(0, 1.0), SQUARE, 1, room) for room in (0, 23, 24)], [17] * 3
    yield "15 alone", [moved(Slide(2, 1.0), SQUARE, 1, room) for room in (0, 23, 24)], [15, 15, 0]
    yield "5 and 17", moved(Slide(3, 0.0), SQUARE), 5
    yield "12 and 17", ref.move(1, 2049, 1, Slide(0, 0.0), [float(k) for k in range(2049)], 0), Refused(12)
    yield "4 and 17", moved(Slide(0, math.nan), SQUARE), 4

def files():
    """A seller's square, slid along itself and out of its plane; a vertex of no cell counts as well."""
    triangles = [Cell(1, (0, 1, 2), 7), Cell(-1, (1, 2, 3), 42)]
    for version in (1, 2):
        for axis, more, wanted in ((0, [], b"refused 17\n"), (1, [], b"refused 17\n"), (2, [], b"key 3 3 8 12\n"),
                                   (2, [0.0, 0.0, 0.5], b"key 3 3 10 12\n"), (2, [0.0, 0.0, 0.0], b"refused 17\n")):
            points = [x for row in SQUARE for x in row] + more
            data = solids.file_bytes(2, 3, len(points) // 3, 1, Slide(axis, 1.0), points, triangles, version)
            text = ref.key(data)
            yield f"file of version {version}, axis {axis}, {len(more)} floats more", text[:len(wanted)], wanted
            yield "a refusal is one line", text == wanted, wanted.startswith(b"refused")
    points = [0.0, 0.0, 1.0, 0.0, 0.0, 1.0]
    shared = [Cell(1, (0, 1)), Cell(1, (0, 2))]  # equal signs at vertex 0: 11 comes first, from wing
    yield "11 and 17", ref.key(solids.file_bytes(1, 2, 3, 1, Slide(0, 1.0), points, shared, 1)), b"refused 11\n"
    yield "nothing, slid by 0", ref.key(solids.file_bytes(2, 3, 0, 1, Slide(0, 0.0), [], [], 1)), b"key 3 3 0 0\n"

def carried_by_vertices(step, n, v, levels):
    """Row 17 told vertex by vertex: all go through the same values on some axis, and these are ordered, none twice."""
    for axis in {Slide: lambda: step[:1], Slant: lambda: step[::2], Turn: lambda: (n - 1,)}[type(step)]():
        ways = {tuple(levels[i + axis::v * n]) for i in range(0, v * n, n)}
        if len(ways) == 1:
            way, = ways
            if list(way) in (sorted(set(way)), sorted(set(way), reverse=True)):
                return True
    return False

def random_moves(rng):
    """Random moves: told in the other way; and the same in another order of vertices, mirrored, and with a vertex twice."""
    seen = {0: 0, 17: 0}
    for trial in range(3000):
        n, v, h = rng.randint(1, 8), rng.choice((1, 2, 3, 6)), rng.choice((1, 2, 3, 9))
        step, points = solids.random_move(v, n, rng)
        answer = ref.move(n, v, h, step, points, ROOM)
        number = answer.number if isinstance(answer, Refused) else 0
        if number not in seen:
            continue
        seen[number] += 1
        rows = ref.split(points, n)
        levels = [x for row in rows for x in row]
        for _ in range(h):
            rows = [ref.moved_point(step, row) for row in rows]
            levels += [x for row in rows for x in row]
        yield f"move {trial}: {step}", number, 0 if carried_by_vertices(step, n, v, levels) else 17
        rows = ref.split(points, n)
        yield f"move {trial} in another order", moved(step, rng.sample(rows, v), h), number
        yield f"move {trial} with a vertex twice", moved(step, rows + [rng.choice(rows)], h), number
        mirrored = step._replace(rise=-step.rise) if isinstance(step, Turn) else type(step)(*(
            -x if place % 2 else x for place, x in enumerate(step)))
        yield f"move {trial} mirrored", moved(mirrored, [[-x for x in row] for row in rows], h), number
    yield "moves accepted and refused", seen[0] >= 2000 and seen[17] >= 150, True

def wanting_bits():
    """The amounts that are written as powers of two are what they should be."""
    yield "half a unit at 1", (1.0 + LOST == 1.0, BELOW_ONE + LOST == 1.0, BELOW_ONE < 1.0), (True, True, True)
    yield "the float below 1", struct.pack("<d", BELOW_ONE), struct.pack("<Q", 0x3FEFFFFFFFFFFFFF)

def checks(rng):
    """All of them."""
    for part in (slides, later_levels, slants, turns, flatness, order, files, wanting_bits):
        yield from part()
    yield from random_moves(rng)
