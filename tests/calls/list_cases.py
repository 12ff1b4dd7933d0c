"""Cases for the call list: sound tables of every dimension in both versions, both sides of every limit, tables with one
thing wrong, two faults at once, and random damage."""

import itertools
import math
import struct

import solids
import winged_reference as reference
from files import BIG, INSIDE, OUTSIDE, Case
from winged_reference import EMPTY, Cell

LIST, MARK = 5, 0xA5
ANY_ROOM = 1 << 30
HUGE = (2**32, 2**63, 2**64 - 1)


def case(name, d, n, v, s, table, points, room=None, row=None, version=2):
    """A case; with no room given, five bytes more than the text needs."""
    answer = reference.list_key(version, d, n, v, s, table, points, ANY_ROOM if room is None else room)
    if isinstance(answer, reference.Refused):
        room = 40 if room is None else room
        first, text = f"refused {answer.number}", b""
    else:
        room = answer.count + 5 if room is None else room
        first, text = f"listed {answer.count}", answer.written
    sent = struct.pack("<9Q", LIST, version, d, n, v, s, len(table), len(points), room)
    sent += struct.pack(f"<{len(table)}H", *table) + struct.pack(f"<{len(points)}d", *points)
    return Case(name, sent, f"{first}\nbuffer {(text + bytes([MARK]) * (room - len(text))).hex()}", row)


def table_of(d, v, cells):
    """The table of an accepted list of cells."""
    return reference.wing(d, v, len(cells), solids.cell_words(cells), ANY_ROOM, ANY_ROOM).written


def strip(d, s):
    """Cells in a row, each the next one's neighbour, of many materials; in dimension 0 points."""
    return [Cell((-1) ** (p * (d + 1)), tuple(range(p, p + d + 1)), (999 - 111 * p) % 1000) for p in range(s)]


def plain(count):
    """Points of several lengths in print."""
    return [(k * 37 % 101 - 50) * 10.0 ** (k % 5) / 16 for k in range(count)]


def points_apart(s):
    """A table of dimension 0 on the vertices 0 to s - 1."""
    return [word for p in range(s) for word in (p % 2, p % 1000, p, EMPTY)]


def lone(d, material=0):
    """A table of one cell."""
    return [0, material, *range(d + 1), *[EMPTY] * (d + 1)]


def limits():
    """Row 2 on both sides of every limit, the lengths made to fit where they can."""
    for d, version in itertools.product(range(11), (1, 2)):
        yield case(f"d {d}", d, 2, d + 1, 1, lone(d, 12), plain(2 * d + 2), row=0 if d <= 7 else 2, version=version)
    for n in range(11):
        yield case(f"n {n}", 1, n, 4, 3, table_of(1, 4, strip(1, 3)), plain(4 * n), row=0 if 1 <= n <= 8 else 2)
    for v in (0, 1, 2, 4095, 4096, 4097, 4098):
        yield case(f"v {v}", 0, 1, v, 1, [1, 5, 0, EMPTY], plain(v), row=0 if 1 <= v <= 4096 else 2)
    for s in (0, 1, 2, 4095, 4096, 4097, 4098):
        yield case(f"s {s}", 0, 1, 4096, s, points_apart(s), [0.0] * 4096, row=0 if s <= 4096 else 2)
    most = (7, 8, 4096, 4096)
    yield case("the most of all, no table", *most, [0] * 73728, [0.0] * 32768, row=14)
    yield case("the most of all, a word short", *most, [0] * 73727, [0.0] * 32768, row=3)
    yield case("the most of all, a float short", *most, [0] * 73728, [0.0] * 32767, row=3)
    for place, x in itertools.product(range(4), HUGE):
        numbers = [0, 1, 1, 1]
        numbers[place] = x
        yield case(f"{'dnvs'[place]} {x}", *numbers, lone(0), [0.5], row=2)


def versions():
    """Row 2 for each version but 1 and 2, with faults of other rows too; both versions with materials at their edges."""
    table, points = table_of(2, 5, strip(2, 3)), plain(15)
    for version in (0, 1, 2, 3, 4, 255, 256, 257, 258, 65535, 65537, 65538, *HUGE, 2**32 + 1, 2**32 + 2):
        for t, p, room, row in ((table, points, None, 0), ([], points, 9, 3), (table, [], 9, 3), (table, [BIG] * 15, 9, 4),
                                ([2] + table[1:], points, 9, 14), (table, points, 0, 15)):
            yield case(f"version {version}, row {row}", 2, 3, 5, 3, t, p, room, row if version in (1, 2) else 2, version)
    for d, p, version, material in itertools.product(range(8), (0, 2), (1, 2), solids.MATERIALS + solids.BAD_MATERIALS):
        table = with_word(table_of(d, d + 3, strip(d, 3)), p * reference.record_size(d) + 1, material)
        row = 14 if material > 999 else 0
        yield case(f"d {d} material {material} in cell {p}", d, 1, d + 3, 3, table, plain(d + 3), row=row, version=version)


def no_cells():
    """No cells: a first line and the vertices, if there are any. No vertices and a cell are row 2."""
    for d, n, v in itertools.product(range(8), (1, 3, 8), (0, 1, 5, 4096)):
        for version in (1, 2):
            yield case(f"no cells: version {version} d {d} n {n} v {v}", d, n, v, 0, [], plain(v * n), row=0, version=version)
        yield case(f"no cells, and a word: d {d} n {n} v {v}", d, n, v, 0, [0], plain(v * n), row=3)
        yield case(f"no cells, and a float: d {d} n {n} v {v}", d, n, v, 0, [], plain(v * n + 1), row=3)
        need = reference.list_key(2, d, n, v, 0, [], plain(v * n), ANY_ROOM).count
        for room in (0, need - 1, need):
            yield case(f"no cells: d {d} n {n} v {v} room {room}", d, n, v, 0, [], plain(v * n), room, 15 if room < need else 0)
    for d, n in itertools.product(range(8), (1, 8)):
        yield case(f"no vertices, one cell: d {d} n {n}", d, n, 0, 1, lone(d), [], row=2)
    for d, n, v in ((8, 1, 0), (0, 0, 0), (0, 9, 0), (0, 1, 4097)):
        yield case(f"no cells: d {d} n {n} v {v}", d, n, v, 0, [], plain(v * n), row=2)


def lengths():
    """Row 3: a table or points of another length, by one and by a whole record or point."""
    for d, n in itertools.product((0, 1, 3, 7), (1, 3, 8)):
        s, v = 3, d + 3
        table, points, size = table_of(d, v, strip(d, s)), plain(v * n), reference.record_size(d)
        for more in (-s * size, -size, -1, 0, 1, size):
            other = table[:s * size + more] + [0] * more
            yield case(f"d {d} n {n}, {more} words", d, n, v, s, other, points, row=3 if more else 0)
        for more in (-v * n, -n, -1, 0, 1, n):
            other = points[:v * n + more] + [0.0] * more
            yield case(f"d {d} n {n}, {more} floats", d, n, v, s, table, other, row=3 if more else 0)


EDGES = ((BIG, False), (-BIG, False), (INSIDE, True), (-INSIDE, True), (OUTSIDE, False), (-OUTSIDE, False),
         (math.inf, False), (-math.inf, False), (math.nan, False), (0.0, True), (-0.0, True), (5e-324, True),
         (-5e-324, True), (1.7e308, False), (0.0005, True), (-0.0005, True), (0.0625, True), (-0.0625, True),
         (-0.0001, True), (math.nextafter(0.0005, 0.0), True), (9.9995, True), (1048575.9995, True))


def floats_at_edges():
    """Row 4, and coordinates that just round, at the first, a middle and the last float."""
    table = table_of(2, 5, strip(2, 3))
    for (x, good), place in itertools.product(EDGES, (0, 7, 14)):
        points = plain(15)
        points[place] = x
        yield case(f"float {place} is {x}", 2, 3, 5, 3, table, points, row=0 if good else 4)


def many_floats(rng):
    """All that a call can list, 32,768 floats: half-way between two thousandths, the neighbours of such, and any."""
    ties = [(-1) ** k * (2 * k + 1) / 16 for k in range(10922)]
    beside = [math.nextafter(x, to) for x in ties for to in (-BIG, BIG)]
    yield case("odd sixteenths and one bit away", 0, 8, 4096, 1, lone(0), [*ties, *beside, 0.0625, -0.0625], row=0)
    for name, kind in (("odd sixteenths up to the limit", solids.near_tie), ("floats of any kind", solids.random_float)):
        yield case(name, 0, 8, 4096, 1, lone(0), [kind(rng) for _ in range(32768)], row=0)


def with_word(table, place, word):
    return table[:place] + [word] + table[place + 1:]


def bad_records(d, v, s, table, p):
    """Tables that are wrong in cell p of a strip, each with what is wrong."""
    size = reference.record_size(d)
    at, first, first_wing = p * size, p * size + 2, p * size + d + 3
    for sign in (2, 3, 256, 65535):
        yield f"sign word {sign}", with_word(table, at, sign)
    if d > 0:
        yield "the other sign", with_word(table, at, 1 - table[at])
    for material in solids.BAD_MATERIALS:
        yield f"material {material}", with_word(table, at + 1, material)
    for x in (v, v + 1, 4096, 65535):
        yield f"last vertex {x}", with_word(table, first + d, x)
    for i in range(first, first + d):
        low, high = table[i:i + 2]
        yield f"vertices {i - first} and {i - first + 1} changed over", table[:i] + [high, low] + table[i + 2:]
        yield f"vertices {i - first} and {i - first + 1} equal", with_word(table, i, high)
    for wing in range(first_wing, first_wing + d + 1):
        for x in {EMPTY, 0, p, s - 1, (p + 1) % s, s, 4095, 65534} - {table[wing]}:
            yield f"wing {wing - first_wing} is {x}", with_word(table, wing, x)
    for q in range(s):
        if q != p:
            copy = table[at:at + size]
            yield f"cell {q} the same", table[:q * size] + copy + table[(q + 1) * size:]
            copy[:2] = [1 - copy[0], 500]
            yield f"cell {q} the same, turned over, of material 500", table[:q * size] + copy + table[(q + 1) * size:]


def unsound():
    """Row 14: strips with one thing wrong in the first, a middle or the last cell."""
    for d in range(8):
        s, v = 4, d + 4
        table, points = table_of(d, v, strip(d, s)), plain(v * 2)
        yield case(f"strip of dimension {d}", d, 2, v, s, table, points, row=0)
        for p in (0, 1, s - 1):
            for name, bad in bad_records(d, v, s, table, p):
                yield case(f"d {d} cell {p}: {name}", d, 2, v, s, bad, points, row=14)
        if d > 0:
            alone = [EMPTY if x < s and place % (2 * d + 4) > d + 2 else x for place, x in enumerate(table)]
            yield case(f"d {d}: neighbours without wings", d, 2, v, s, alone, points, row=14)
    yield from unsound_by_hand()


def unsound_by_hand():
    """Row 14: what no strip shows."""
    e = EMPTY
    for name, d, v, s, table in (
            ("a lone triangle, wing 0", 2, 3, 1, [0, 7, 0, 1, 2, 0, e, e]),
            ("a point with a wing to itself", 0, 2, 1, [0, 0, 0, 0]),
            ("points with wings to each other", 0, 2, 2, [0, 0, 0, 1, 1, 0, 1, 0]),
            ("a face in three cells", 1, 4, 3, [0, 1, 0, 1, e, e, 0, 2, 0, 2, e, e, 0, 3, 0, 3, e, e]),
            ("a face in three cells, two of them paired", 1, 4, 3, [0, 1, 0, 1, 1, e, 1, 1, 0, 2, 0, e, 1, 3, 0, 3, e, e]),
            ("equal signs at a shared face", 2, 4, 2, [0, 0, 0, 1, 2, 1, e, e, 0, 9, 1, 2, 3, e, e, 0]),
            ("equal signs, and no wings", 2, 4, 2, [0, 0, 0, 1, 2, e, e, e, 0, 9, 1, 2, 3, e, e, e]),
            ("two materials, and no wings", 2, 4, 2, [0, 0, 0, 1, 2, e, e, e, 1, 9, 1, 2, 3, e, e, e]),
            ("wings at the wrong faces", 2, 4, 2, [0, 0, 0, 1, 2, e, 1, e, 1, 0, 1, 2, 3, e, 0, e]),
            ("one wing of a pair", 2, 4, 2, [0, 0, 0, 1, 2, 1, e, e, 1, 0, 1, 2, 3, e, e, e]),
            ("cells of no common face with wings", 2, 6, 2, [0, 0, 0, 1, 2, 1, e, e, 0, 0, 3, 4, 5, e, e, 0])):
        yield case(name, d, 1, v, s, table, plain(v), row=14)


def rooms():
    """Row 15 on both sides, and nothing behind the text."""
    for d, n, version in itertools.product(range(8), (1, 3, 8), (1, 2)):
        v, cells = d + 5, strip(d, 4)
        table, points = table_of(d, v, cells), plain(v * n)
        need = reference.list_key(version, d, n, v, 4, table, points, ANY_ROOM).count
        for room in (0, 1, need - 1, need, need + 1, need + 40):
            yield case(f"d {d} n {n} room {room} of {need}", d, n, v, 4, table, points, room, 15 if room < need else 0, version)
    ring = [Cell(1, (p, p + 1), p % 1000) for p in range(4095)] + [Cell(-1, (0, 4095))]
    for d, n, v, cells in ((1, 8, 4096, ring), (7, 8, 1007, strip(7, 1000)), (0, 1, 4096, strip(0, 4096))):
        table, points = table_of(d, v, cells), [0.5] * (v * n)
        need = reference.list_key(2, d, n, v, len(cells), table, points, ANY_ROOM).count
        for room in (need - 1, need):
            yield case(f"d {d} room {room} of {need}", d, n, v, len(cells), table, points, room, 15 if room < need else 0)
    table, points = table_of(7, 4096, strip(7, 4089)), [-INSIDE] * 32768
    yield case("a text of over a million bytes, and 400,000 of them lent", 7, 8, 4096, 4089, table, points, 400000, 15)


def good(**changes):
    """What list takes of five triangles in a row, and room for it."""
    told = {"d": 2, "n": 3, "v": 7, "s": 5, "table": table_of(2, 7, strip(2, 5)), "points": plain(21), "room": 400}
    return {**told, **changes}


def put(field, place, x):
    return lambda f: f[field].__setitem__(place, x)


# a row and what makes it apply to five triangles in a row
FAULTS = [
    (2, lambda f: f.update(d=8)), (2, lambda f: f.update(n=0)), (2, lambda f: f.update(n=9)),
    (2, lambda f: f.update(v=4097)), (2, lambda f: f.update(v=0)), (2, lambda f: f.update(version=3)),
    (3, lambda f: f["table"].append(0)), (3, lambda f: f["table"].pop(1)),
    (3, lambda f: f["points"].append(0.0)), (3, lambda f: f["points"].pop(1)),
    (4, put("points", 0, math.nan)), (4, put("points", 10, -BIG)), (4, put("points", -1, math.inf)),
    (14, put("table", 0, 2)), (14, put("table", 5, 0)), (14, put("table", -1, 0)), (14, put("table", -4, 7)),
    (14, put("table", 1, 1000)), (14, put("table", -7, 65535)),
    (15, lambda f: f.update(room=0)), (15, lambda f: f.update(room=100)),
]


def two_faults():
    """The first row that applies, wherever the faults stand; each fault alone; and all rows at once."""
    yield case("no fault", **good(), row=0)
    singles = [(fault,) for fault in FAULTS]
    pairs = [pair for pair in itertools.combinations(FAULTS, 2) if pair[0][0] != pair[1][0]]
    all_rows = [next(fault for fault in FAULTS if fault[0] == row) for row in (2, 3, 4, 14, 15)]
    for chosen in singles + pairs + [tuple(all_rows[k:]) for k in range(5)]:
        f = good()
        for _, fault in chosen:
            fault(f)
        rows = [row for row, _ in chosen]
        yield case(f"faults of rows {rows}", **f, row=min(rows))


def random_table(d, rng):
    """A sound table of any manner: (v, s, words)."""
    if d > 0 and rng.random() < 0.3:  # a sweep's
        v, cells = solids.small_solid(d - 1, rng)
        h = rng.choice((1, 1, 2, 3))
        swept = reference.sweep(d - 1, v, len(cells), h, table_of(d - 1, v, cells), ANY_ROOM)
        return (h + 1) * v, h * d * len(cells), swept.written
    v, cells = solids.small_solid(d, rng)
    if rng.random() < 0.05:
        v = rng.choice((60, 200))
        cells = solids.random_solid(d, v, rng.choice((30, 90)), rng)
    return v, len(cells), table_of(d, v, cells)


def random_cases(rng, count):
    """Random tables and points of every dimension, most of them sound."""
    for k in range(count):
        d, n = k % 8, rng.randint(1, 8)
        v, s, table = random_table(d, rng)
        points = solids.random_points(v, n, rng)
        chance = rng.random()
        if chance < 0.3:
            table = solids.damaged_table(table, d, v, s, rng)
        elif chance < 0.4:
            points[rng.randrange(len(points))] = solids.edge_float(rng)
        version = rng.choice((1, 2, 2))
        answer = reference.list_key(version, d, n, v, s, table, points, ANY_ROOM)
        need = 40 if isinstance(answer, reference.Refused) else answer.count
        row = 0 if chance >= 0.5 else None
        room = need + rng.choice((0, 0, 1, 5, 30) if row == 0 else (0, 5, -1, -need))
        yield case(f"random {k}", d, n, v, s, table, points, room, row, version)


def cases(rng):
    for part in (limits, versions, no_cells, lengths, floats_at_edges, unsound, rooms, two_faults):
        yield from part()
    yield from many_floats(rng)
    yield from random_cases(rng, 3000)
