"""Cases for the call move: both sides of every limit, exact bits, two faults at once, and random points. Where row 17 is not
meant the points are flat on an axis that carries the step."""

import itertools
import math
import struct
from fractions import Fraction

import solids
import winged_reference as reference
from files import BIG, INSIDE, OUTSIDE, Case, spaced
from read_cases import circle_edges
from winged_reference import Slant, Slide, Turn

MARK = -700001.625
TINY, SMALL = 5e-324, 2.0**-1022
HUGE = (2**32, 2**63, 2**64 - 1)
ORDER = (2, 3, 4, 5, 12, 13, 17, 15)  # in which the rows are tried


def step_numbers(step):
    """A step as the program takes it."""
    if isinstance(step, Slide):
        return struct.pack("<3Q3d", 1, step.axis, 0, step.amount, 0.0, 0.0)
    if isinstance(step, Slant):
        return struct.pack("<3Q3d", 2, step.axis, step.other_axis, step.amount, step.other_amount, 0.0)
    return struct.pack("<3Q3d", 3, 0, 0, *step)


def case(name, n, v, h, step, points, room=None, row=None):
    """A case; with no room given, three floats more than the answer needs."""
    if room is None:
        room = (h + 1) * v * n + 3 if max(n, v, h) < 5000 else 40
    room = min(room, 33000)
    answer = reference.move(n, v, h, step, points, room)
    if isinstance(answer, reference.Refused):
        want = f"refused {answer.number}\nbuffer{spaced([MARK] * room)}"
    else:
        want = f"moved {answer.count}\nbuffer{spaced(answer.written + [MARK] * (room - answer.count))}"
    sent = step_numbers(step) + struct.pack("<5Q", n, v, h, len(points), room) + struct.pack(f"<{len(points)}d", *points)
    return Case(name, sent, want, row)


def plain(count, n=1, axis=0):
    """Floats of points of n axes, flat on one of them, that stay far from the limit."""
    return [-1.375 if k % max(n, 1) == axis else (k * 37 % 101) / 16 - 3 for k in range(count)]


def limits():
    """Row 2 and row 12 on both sides of every limit."""
    for n in (*range(11), *HUGE):
        yield case(f"n {n}", n, 3, 2, Slide(0, 1.0), plain(3 * n if n < 20 else 3, n), row=0 if 1 <= n <= 8 else 2)
    for v in (0, 1, 2, 2048, 2049, 4095, 4096, 4097, 4098, *HUGE):
        row = 0 if v <= 2048 else 12 if v <= 4096 else 2
        yield case(f"v {v}", 1, v, 1, Slide(0, 1.0), plain(v if v < 5000 else 3), row=row)
    for h in (*range(67), 255, 65536, *HUGE):
        yield case(f"h {h}", 2, 3, h, Slide(1, 1.0), plain(6, 2, 1), room=400, row=0 if 1 <= h <= 64 else 2)
    for v, h in ((2048, 1), (2049, 1), (1365, 2), (1366, 2), (1024, 3), (1025, 3), (64, 63), (63, 64), (64, 64),
                 (65, 62), (66, 62), (4096, 64)):
        row = 0 if (h + 1) * v <= 4096 else 12
        yield case(f"v {v} h {h}", 1, v, h, Slide(0, 0.5), plain(v), row=row)


def no_points():
    """No vertices: nothing is written, whatever the room; the numbers, the length and the step are tested as ever."""
    for n, h in itertools.product(range(1, 9), (1, 2, 64)):
        for step, room in itertools.product(solids.steps_of_each_kind(n), (0, 1, 3)):
            yield case(f"no points: n {n} h {h} room {room} {step}", n, 0, h, step, [], room, 0)
        yield case(f"no points, and a float: n {n} h {h}", n, 0, h, Slide(0, 1.0), [0.0], 4, 3)
        yield case(f"no points, slid too far: n {n} h {h}", n, 0, h, Slide(0, BIG), [], 4, 4)
        yield case(f"no points, axis {n}: h {h}", n, 0, h, Slide(n, 1.0), [], 4, 5)
    for n, h in ((0, 1), (9, 1), (1, 0), (1, 65)):
        yield case(f"no points: n {n} h {h}", n, 0, h, Slide(0, 1.0), [], 4, 2)


def lengths():
    """Row 3: points of another length, also where the numbers changed places."""
    for n, v in itertools.product((1, 3, 8), (1, 2, 5)):
        for more in (-n * v, -n, -1, 0, 1, n):
            count = n * v + more
            yield case(f"n {n} v {v}, {count} floats", n, v, 1, Slide(0, 1.0), plain(count, n), row=0 if more == 0 else 3)


EDGES = ((BIG, False), (-BIG, False), (INSIDE, True), (-INSIDE, True), (OUTSIDE, False), (-OUTSIDE, False),
         (math.inf, False), (-math.inf, False), (math.nan, False), (0.0, True), (-0.0, True), (TINY, True), (-TINY, True),
         (1.7e308, False))


def floats_at_edges():
    """Row 4: each float that a step holds, and points at the first, a middle and the last place. Amounts of 0 are row 17."""
    slant, turn = Slant(0, 0.0, 2, 0.0), Turn(0.6, 0.8, 0.0)
    for x, good in EDGES:
        row = 4 if not good else 17 if x == 0 else 0
        yield case(f"slide by {x}", 3, 2, 1, Slide(1, x), [0.0] * 6, row=row)
        yield case(f"slant by {x} first", 3, 2, 1, slant._replace(amount=x), [0.0] * 6, row=row)
        yield case(f"slant by {x} second", 3, 2, 1, slant._replace(other_amount=x), [0.0] * 6, row=row)
        yield case(f"rise {x}", 3, 2, 1, turn._replace(rise=x), [0.0] * 6, row=row)
        for name in "cs":
            yield case(f"{name} {x}", 3, 2, 1, turn._replace(**{name: x}), [0.0] * 6, row=5 if good else 4)
        for place in (0, 7, 14):
            points = [0.0] * 15
            points[place] = x
            yield case(f"float {place} is {x}", 3, 5, 2, Slide((place + 1) % 3, 1.0), points, row=0 if good else 4)


def axes():
    """Row 5 by axes, for every n."""
    for n in range(1, 9):
        some = (*range(n + 2), 255, 2**32, 2**64 - 1)
        for a in some:
            yield case(f"n {n} slide {a}", n, 2, 1, Slide(a, 0.5), plain(2 * n, n, a), row=0 if a < n else 5)
        for a, b in itertools.product(some, repeat=2):
            good = a < n and b < n and a != b
            for axis in (a, b):  # whichever carries
                step = Slant(a, 0.5, b, -0.25)
                yield case(f"n {n} slant {a} {b}, flat on {axis}", n, 2, 1, step, plain(2 * n, n, axis), row=0 if good else 5)
        yield case(f"n {n} turn", n, 2, 3, Turn(0.6, 0.8, 0.5), plain(2 * n, n, n - 1), row=0 if n >= 3 else 5)


def fused(c, s):
    """c c + s s with the second product not rounded: what a fused operation would give."""
    return float(Fraction(c * c) + Fraction(s) * Fraction(s))


def circles(rng):
    """Row 5 at the margin of the unit circle; pairs that a fused sum would judge otherwise are among them."""
    for c, s, good in circle_edges(rng):
        yield case(f"turn {c!r} {s!r}", 3, 2, 2, Turn(c, s, 0.25), plain(6, 3, 2), row=0 if good else 5)
    low, high = 1.0 - 2.0**-40, 1.0 + 2.0**-40
    found = 0
    while found < 20:
        for c, s, good in circle_edges(rng, 1):
            if (low <= fused(c, s) <= high) != good:
                found += 1
                yield case(f"fused turn {c!r} {s!r}", 3, 1, 1, Turn(c, s, 0.5), plain(3), row=0 if good else 5)


def out_of_range():
    """Row 13 at the first, a middle and the last level, of one vertex and of all; one step less is accepted, or row 17 where
    the one vertex is off the others' plane."""
    for level, sign, n in itertools.product((1, 2, 3, 7, 32, 63, 64), (1, -1), (1, 3, 8)):
        for step in (Slide(n - 1, sign * 8.0), Slant(0, 0.5, n - 1, sign * 8.0), Turn(1.0, 0.0, sign * 8.0)):
            if n < 3 and not isinstance(step, Slide):
                continue
            slant = isinstance(step, Slant)  # carried by axis 0
            for v, place in ((1, 0), (5, 0), (5, 2), (5, 4), (5, None)):
                points = plain(v * n, n, 0 if slant else n - 1)
                for k in range(v) if place is None else (place,):
                    points[k * n + n - 1] = sign * (BIG - 8.0 * level)
                inside = 0 if slant or v == 1 or place is None else 17
                for h in sorted({1, level - 1, level, level + 1, 64} & set(range(1, 65))):
                    yield case(f"out at level {level} of {h}", n, v, h, step, points, row=13 if h >= level else inside)
    yield case("1,048,575 slid by 1", 1, 1, 1, Slide(0, 1.0), [1048575.0], row=13)
    yield case("just inside, slid by less than half a unit", 1, 1, 3, Slide(0, 2.0**-35), [INSIDE], row=17)
    yield case("the same, where another axis carries", 2, 1, 3, Slant(0, 2.0**-35, 1, 0.5), [INSIDE, 0.0], row=0)
    yield case("just inside, slid by half a unit", 1, 1, 1, Slide(0, 2.0**-34), [INSIDE], row=13)
    side = 750000.0
    for x, y in itertools.product((side, -side), repeat=2):
        yield case("turned out", 3, 1, 1, Turn(math.sqrt(0.5), math.sqrt(0.5), 0.0), [x, y, 0.0], row=13)
    yield case("out and in again", 3, 1, 2, Turn(0.0, 1.0, 0.5), [INSIDE, -INSIDE, 1.0], row=0)


def rooms():
    """Row 15 on both sides, and nothing behind the answer."""
    for n, v, h in itertools.product((1, 3, 8), (1, 2, 7), (1, 2, 5)):
        need = (h + 1) * v * n
        for room in (0, 1, n * v, need - 1, need, need + 1, need + 40):
            yield case(f"room {room} of {need}", n, v, h, Slide(n - 1, 1.0), plain(v * n, n, n - 1), room, 15 if room < need else 0)
    for n, v, h in ((8, 2048, 1), (8, 64, 63), (8, 63, 64), (8, 1, 64), (7, 585, 6)):
        need = (h + 1) * v * n
        for room in (need - 1, need):
            step = Turn(math.cos(0.1), math.sin(0.1), 0.125)
            yield case(f"room {room} of {need}", n, v, h, step, plain(v * n, n, n - 1), room, 15 if room < need else 0)


def exact():
    """Bits: zeros with their signs, subnormals, sums and products that round, other axes copied."""
    some = (0.0, -0.0, TINY, -TINY, SMALL, -SMALL, 3 * TINY, SMALL - TINY, 0.1, -0.3, 1.0, 1 / 3, 2.0**-30, 1e-300,
            250000.123)
    turns = ((1.0, 0.0), (-1.0, -0.0), (0.0, -1.0), (0.6, 0.8), (math.cos(1), math.sin(1)), (1.0, TINY), (-1.0, 1e-200))
    for x, y in itertools.product(some, repeat=2):
        yield case(f"{x} slid by {y}", 2, 1, 3, Slide(1, y), [x, -0.0], row=0 if y else 17)
        yield case(f"{x} slant by {y}", 3, 1, 2, Slant(2, x, 0, y), [y, TINY, x], row=0 if x or y else 17)
        yield case(f"{x} slant by {y}, another axis carries", 3, 1, 2, Slant(1, 0.5, 0, y), [x, TINY, y], row=0)
        for c, s in turns:
            yield case(f"{x}, {y} turned by {c}, {s}", 4, 1, 2, Turn(c, s, x or 0.5), [x, y, -0.0, x], row=0)


def far(f):
    """A point whose moved coordinate goes out at the last level."""
    f["points"][-1] = BIG - 2.0 * f["h"]


def bent(place):
    """A vertex one bit off the plane of the others."""
    return lambda f: f["points"].__setitem__(place, math.nextafter(f["points"][place], BIG))


# a row and what makes it apply to 64 points of 3 axes slid twice by 2 on the last axis
FAULTS = [
    (2, lambda f: f.update(h=65)), (2, lambda f: f.update(h=0)),
    (3, lambda f: f["points"].append(0.0)), (3, lambda f: f["points"].pop(1)),
    (4, lambda f: f["points"].__setitem__(0, math.nan)), (4, lambda f: f["points"].__setitem__(95, BIG)),
    (4, lambda f: f.update(step=f["step"]._replace(amount=-math.inf))),
    (5, lambda f: f.update(step=f["step"]._replace(axis=3))),
    (12, lambda f: f.update(h=64)),
    (13, far),
    (17, bent(2)), (17, bent(128)),
    (15, lambda f: f.update(room=64 * 3 * 3 - 1)), (15, lambda f: f.update(room=0)),
]


def two_faults():
    """The first row that applies, wherever the faults stand; and each fault alone."""
    pairs = itertools.combinations(range(len(FAULTS)), 2)
    for chosen in [(i,) for i in range(len(FAULTS))] + list(pairs):
        rows = {FAULTS[i][0] for i in chosen}
        if len(rows) < len(chosen) or rows == {2, 12}:
            continue  # one row alone, or two that are both about h
        f = {"h": 2, "step": Slide(2, 2.0), "points": plain(192, 3, 2), "room": 600}
        for i in chosen:
            FAULTS[i][1](f)
        yield case(f"faults {chosen}", 3, 64, f["h"], f["step"], f["points"], f["room"], min(rows, key=ORDER.index))
    off = Turn(0.6, 0.8000001, math.inf)
    yield case("a turn off the circle, its rise not finite", 3, 1, 1, off, plain(3), row=4)
    yield case("a turn of two axes, a point out of range", 2, 1, 1, Turn(0.6, 0.8, 0.0), [BIG, 0.0], row=4)
    yield case("over 4,096, and out at the first level", 1, 2049, 1, Slide(0, 1.0), [INSIDE] * 2049, row=12)
    yield case("out at the last level, and no room", 1, 1, 64, Slide(0, 1.0), [BIG - 64.0], 0, 13)


def random_cases(rng, count):
    """Random points and steps; every kind, n 1 to 8, h 1 to 64."""
    for k in range(count):
        n, v = rng.randint(1, 8), rng.choice((1, 1, 2, 3, 5, 9))
        h = rng.choice((1, 1, 2, 3, 5, 17, 64))
        points = [rng.uniform(-1, 1) * BIG for _ in range(v * n)] if rng.random() < 0.15 else None
        step, points = solids.random_move(v, n, rng, points)
        if rng.random() < 0.05:
            points[rng.randrange(len(points))] = solids.edge_float(rng)
        need = (h + 1) * v * n
        yield case(f"random {k}", n, v, h, step, points, need + rng.choice((0, 0, 2, 3, 9, -1)))


def cases(rng):
    for part in (limits, no_points, lengths, floats_at_edges, axes, out_of_range, rooms, exact, two_faults):
        yield from part()
    yield from circles(rng)
    yield from random_cases(rng, 4000)
