"""Cases of move about row 17, a step that no axis carries: amounts that rounding swallows at some level, values one bit apart,
zeros of both signs, and each kind of step, carried by one axis, by two or by none.

What each case is made for is told with fractions, level by level, and not by the reference. A column is the values of all
vertices on one axis, and the amount that a step adds there.
"""

import itertools
import math
from fractions import Fraction

from files import BIG, INSIDE
from move_cases import TINY, case, plain
from winged_reference import Slant, Slide, Turn

ZEROS = (0.0, -0.0)
LOST = 2.0**-53  # half a unit at 1


def rounded(x, amount):
    """Their sum, rounded once, from the exact one."""
    return float(Fraction(x) + Fraction(amount))


def column_row(column, h):
    """What a column makes of a step: 13 where it goes out of range, 0 where it carries, else 17."""
    values, amount = column
    ways = []
    for x in values:
        way = [x]
        for _ in range(h):
            way.append(rounded(way[-1], amount))
            if abs(way[-1]) >= BIG:
                return 13
        ways.append(way)
    ups = {(y > x) - (y < x) for way in ways for x, y in zip(way, way[1:])}
    return 0 if all(way == ways[0] for way in ways) and ups in ({1}, {-1}) else 17


def made(name, n, h, kind, axes, columns, room=None):
    """A case of points that are plain but for the columns on these axes. A turn has one column, on the last axis."""
    v = len(columns[0][0])
    points = [(k * 37 % 101) / 16 - 3 for k in range(v * n)]
    for axis, (values, _) in zip(axes, columns):
        points[axis::n] = values
    (_, amount), (_, other) = columns[0], columns[-1]
    step = Slide(axes[0], amount) if kind == 1 else Slant(axes[0], amount, axes[-1], other) if kind == 2 else Turn(0.6, 0.8, amount)
    found = [column_row(column, h) for column in columns]
    row = 13 if 13 in found else min(found)
    if row == 0 and room is not None and room < (h + 1) * v * n:
        row = 15
    return case(f"{name}: n {n} h {h} {step}", n, v, h, step, points, room, row)


def in_each_kind(name, column, h, n=3):
    """A column on an axis of a slide, on either axis of a slant beside one that carries nothing, and on the last of a turn."""
    v = len(column[0])
    rough = ([float(k) for k in range(v)], 0.5) if v > 1 else ([1.0], 0.0)
    yield made(name, n, h, 1, (1,), [column])
    yield made(name, n, h, 2, (n - 1, 0), [column, rough])
    yield made(name, n, h, 2, (0, n - 2), [rough, column])
    yield made(name, n, h, 3, (n - 1,), [column])


def lost_amounts():
    """Amounts about half a unit of a value, added to it and taken from it, at one level and at many."""
    for x in (1.0, 1.5, math.nextafter(1.0, 2.0), 1.0 - LOST, 3.0, 1024.0, 0.1, 250000.123, 1048575.0, 2.0**-1000, TINY, 2.0**-1022):
        half = math.ulp(x) / 2 or TINY
        amounts = {half, half / 2, 2 * half, 3 * half, math.nextafter(half, 0.0), math.nextafter(half, 1.0), TINY}
        for amount, sign, side, h in itertools.product(sorted(amounts), (1, -1), (1, -1), (1, 2, 64)):
            yield from in_each_kind(f"{side * x!r} by {sign * amount!r}", ([side * x] * 2, sign * amount), h)
    yield case("1,048,575 by 2^-40", 1, 3, 1, Slide(0, 2.0**-40), [1048575.0] * 3, row=17)


def lost_later():
    """An amount that is lost from level L on: a step less is accepted."""
    for level, sign in itertools.product(range(1, 65), (1, -1)):
        start = sign * (1.0 - (level - 1) * LOST)
        for h in {max(1, level - 1), level, 64 if level % 8 == 0 else level}:
            for v in (1, 3):
                yield from in_each_kind(f"lost at level {level}", ([start] * v, sign * LOST), h)
        yield case(f"lost at level {level}", 1, 1, level, Slide(0, sign * LOST), [start], row=17)
        if level > 1:
            yield case(f"lost behind level {level - 1}", 1, 1, level - 1, Slide(0, sign * LOST), [start], row=0)
    for first, second, h in itertools.product(range(4), range(4), range(1, 6)):
        slant = [([1.0 - k * LOST] * 2, LOST) for k in (first, second)]
        yield made(f"slant, lost behind {first} and {second}", 3, h, 2, (2, 0), slant)


def bits_apart():
    """Values that differ by a bit, at the first, a middle or the last vertex; of some the next levels are equal."""
    for x, v, up in itertools.product((0.0, 2.0**-60, 1.0, -3.5, 1000.1), (2, 3, 9), (BIG, -BIG)):
        for place in {0, v // 2, v - 1}:
            values = [x] * v
            values[place] = math.nextafter(x, up)
            for amount in (1.0, -1.0, 2.0**-30):
                yield from in_each_kind(f"{x} of {v}, a bit off at {place}", (values, amount), 1 + place % 3)
    for values in ([0.0, 2.0**-60], [2.0**-60, 0.0], [-2.0**-60, 2.0**-60], [2.0**-60] * 2, [1.0 - LOST, 1.0]):
        for amount, h in itertools.product((1.0, -1.0, 3.0, LOST), (1, 2, 5)):
            yield from in_each_kind(f"{values} made one", (values, amount), h)


def zeros():
    """Zeros of both signs are one value; amounts of zero carry nothing, and the least amount does from zero."""
    for values in itertools.chain.from_iterable(itertools.product(ZEROS, repeat=v) for v in (1, 2, 3)):
        for amount, h in itertools.product((0.0, -0.0, TINY, -TINY, 1.0, -0.5), (1, 2, 64)):
            yield from in_each_kind(f"{values} by {amount}", (list(values), amount), h)
    for x, y, h in itertools.product((0.0, -0.0, TINY, -1.0), (0.0, -0.0, TINY, 1.0), (1, 3)):
        for first, second in itertools.product(((7.0, 7.0), (0.0, -0.0), (1.0, 2.0)), repeat=2):
            yield made("slant", 3, h, 2, (0, 2), [(list(first), x), (list(second), y)])
    for n, h, x in itertools.product(range(1, 9), (1, 64), ZEROS):
        for step in (Slide(n - 1, x), Slant(0, x, n - 1, x), Turn(0.6, 0.8, x))[:1 if n == 1 else 2 if n == 2 else 3]:
            yield case(f"no vertices: n {n} h {h} {step}", n, 0, h, step, [], 0, 0)
            yield case(f"one vertex: n {n} h {h} {step}", n, 1, h, step, plain(n), 0, 17)


def large():
    """As many vertices as there may be: one off the plane by a bit, wherever it stands."""
    for v, h in ((2048, 1), (1365, 2), (63, 64)):
        for kind, n in ((1, 1), (1, 3), (2, 2), (3, 3)):
            axes = ((n - 1) // 2,) if kind == 1 else (1, 0) if kind == 2 else (2,)
            rough = [([k / 8 for k in range(v)], 0.5)] if kind == 2 else []
            for place in (None, 0, 1, v // 2, v - 2, v - 1):
                values = [0.75] * v
                if place is not None:
                    values[place] = math.nextafter(0.75, 1.0)
                yield made(f"{v} vertices, off at {place}", n, h, kind, axes, [(values, -0.25)] + rough)


def two_faults():
    """13 comes before 17, and 17 before 15, on one axis and on two."""
    far = ([BIG - 2.0, 0.0, 0.0], 1.0)
    for h, room in itertools.product((1, 2, 3), (None, 0, 5)):
        yield made("far off", 1, h, 1, (0,), [far], room)
        yield made("far off", 3, h, 3, (2,), [far], room)
        for column in (([0.5] * 3, 1.0), ([0.5] * 3, 0.0), ([0.5, 1.5, 2.5], 1.0), ([INSIDE] * 3, -2.0**-34), ([INSIDE] * 3, 2.0**-36)):
            yield made("far off, and another axis", 2, h, 2, (0, 1), [far, column], room)
            yield made("another axis, and far off", 2, h, 2, (1, 0), [column, far], room)
            yield made("another axis alone", 2, h, 1, (1,), [column], room)
    yield case("off the circle, and no rise", 3, 2, 1, Turn(0.6, 0.7, 0.0), plain(6), row=5)
    yield case("over 4,096, and an amount of 0", 1, 2049, 1, Slide(0, 0.0), plain(2049), row=12)
    yield case("out by a turn, and no rise", 3, 1, 1, Turn(0.8, 0.6, 0.0), [1048000.0, -1048000.0, 0.0], row=13)
    yield case("inside, and no rise", 3, 1, 1, Turn(0.8, 0.6, 0.0), [1048000.0, 0.0, 0.0], 0, 17)


def some_column(v, h, rng):
    """A column of any sort."""
    x = rng.choice((rng.uniform(-9, 9), rng.uniform(-1, 1) * 2.0 ** rng.randint(-60, 18), float(rng.randint(-3, 3)), 0.0, 1.0))
    half = math.ulp(x) / 2 or TINY
    amount = rng.choice((rng.uniform(-9, 9), rng.randint(-8, 8) / 4, rng.choice((1, -1)) * half * rng.choice((0.5, 1.0, 1.5, 2.0, 3.0))))
    sort = rng.randrange(8)
    if sort == 0:  # lost at a later level, up to a power of two
        top = 2.0 ** rng.randint(-30, 15)
        amount = rng.choice((1, -1)) * math.ulp(top) / 2
        x = math.copysign(top, amount) - rng.randint(0, h + 1) * amount
    values = [x] * v
    if sort == 1:
        values[rng.choice((0, v - 1, rng.randrange(v)))] = math.nextafter(x, rng.choice((BIG, -BIG)))
    elif sort == 2:
        values = [x + rng.uniform(-1, 1) for _ in values]
    elif sort == 3:
        values = [rng.choice(ZEROS) for _ in values]
    elif sort == 4:
        amount = rng.choice((*ZEROS, TINY, -TINY))
    return values, amount


def random_cases(rng, count):
    """Random columns in each kind of step; room now and then too little."""
    for k in range(count):
        kind = rng.choice((1, 2, 2, 3))
        n, h = rng.randint(kind, 8), rng.choice((1, 1, 2, 3, 5, 17, 64))
        v = rng.choice((1, 2, 2, 3, 5, 9, 40) if h < 9 else (1, 2, 3))
        axes = (n - 1,) if kind == 3 else rng.sample(range(n), kind)
        room = rng.choice((None, None, None, (h + 1) * v * n, (h + 1) * v * n - 1, 0))
        yield made(f"random {k}", n, h, kind, axes, [some_column(v, h, rng) for _ in axes], room)


def cases(rng):
    for part in (lost_amounts, lost_later, bits_apart, zeros, large, two_faults):
        yield from part()
    yield from random_cases(rng, 4000)
