"""Checks the reference: the marked keys, the refusal table, wings in uploaded order, the third term, materials, steps in
the solid's own plane, random files."""

import itertools
import math
import os
import random
import struct
import subprocess
import sys
from collections import Counter
from decimal import ROUND_HALF_EVEN, Decimal
from fractions import Fraction

sys.dont_write_bytecode = True
import material_laws
import own_plane
import solids
import winged_reference as ref
from winged_reference import EMPTY, Answer, Cell, Refused, Slant, Slide, Turn, WingAnswer

ROOM = 10**6
BIG = 1048576.0
K1_TEXT = b"key 1 1 2 2\nv 0 0.500\nv 1 1.500\n+ 1\n- 0\n"

passed = 0
failed = 0

def check(name, got, wanted=True):
    """Counts one comparison and prints it if it fails."""
    global passed, failed
    if got == wanted:
        passed += 1
    else:
        failed += 1
        print(f"{name}: got {str(got)[:300]}, wanted {str(wanted)[:300]}")

# Short writing of cells, as in the marked keys.
def cells_from(text):
    """+012 -123 as cells of one-digit vertices, of material 0 or of that behind a colon."""
    found = []
    for word in text.split():
        cell, _, material = word.partition(":")
        found.append(Cell(1 if cell[0] == "+" else -1, tuple(map(int, cell[1:])), int(material or 0)))
    return found

def text_from(cells):
    """Cells of one-digit vertices as +012 -123, without their materials."""
    return " ".join("-+"[cell.sign > 0] + "".join(map(str, cell.vertices)) for cell in cells)

def wing_of(d, v, cells, room=ROOM, uploaded_room=ROOM):
    """Wing over cells."""
    return ref.wing(d, v, len(cells), solids.cell_words(cells), room, uploaded_room)

def wing_text(v, text, room=ROOM, uploaded_room=ROOM):
    """Wing over cells written short."""
    cells = cells_from(text)
    return wing_of(len(cells[0].vertices) - 1, v, cells, room, uploaded_room)

def records_of(d, answer):
    """The faces that faces wrote."""
    return [Cell(1 if row[0] == 0 else -1, tuple(row[1:-1]), row[-1]) for row in ref.split(answer.written, d + 2)]

def swept_of(v, h, text):
    """The swept table and the records of its faces, of cells written short."""
    cells = cells_from(text)
    d, s = len(cells[0].vertices) - 1, len(cells)
    swept = ref.sweep(d, v, s, h, wing_text(v, text).written, ROOM)
    found = ref.faces(d + 1, (h + 1) * v, h * s * (d + 1), swept.written, ROOM)
    return d + 1, swept.written, records_of(d + 1, found)

def one_file(d=0, n=1, v=1, h=1, step=Slide(0, 1.0), points=(0.5,), cells="+0", version=1):
    """A small file, that of K1 unless told otherwise; its cells written short."""
    return solids.file_bytes(d, n, v, h, step, points, cells_from(cells), version)

def triangle_file(n=3, v=3, **changes):
    """A file of one triangle."""
    told = dict(d=2, n=n, v=v, points=[0.0] * (n * v), cells="+012")
    return one_file(**{**told, **changes})

def patched(data, place, form, *values):
    """The file with some bytes replaced."""
    data = bytearray(data)
    struct.pack_into("<" + form, data, place, *values)
    return bytes(data)

def read_number(data, cells_room=ROOM, points_room=ROOM):
    """The refusal number of read, 0 if accepted."""
    return number(ref.read(data, cells_room, points_room))

def number(answer):
    """The refusal number of an answer, 0 if accepted."""
    return answer.number if isinstance(answer, Refused) else 0

# The marked keys.
def check_keys():
    """K1 to K10."""
    check("K1", ref.key(one_file()), K1_TEXT)
    d, swept, found = swept_of(4, 1, "+012 -123")
    check("K2 cells", text_from(ref.table_cells(d, swept)), "+0124 +1245 +2456 -1235 -2356 -3567")
    wings = "; ".join("".join("." if w == EMPTY else str(w) for w in row)
                      for row in ref.table_wings(d, swept))
    check("K2 wings", wings, "1...; 2.30; .4.1; 4.1.; 52.3; ...4")
    check("K2 faces", text_from(found),
          "-024 +014 -012 -145 +456 +246 +135 +123 -236 -567 +367 -357")
    d, swept, found = swept_of(1, 3, "+0")
    check("K3", (text_from(ref.table_cells(d, swept)), text_from(found)), ("+01 +12 +23", "-0 +3"))
    check("K4", wing_text(3, "+210").written[:5], [1, 0, 0, 1, 2])
    d, swept, found = swept_of(2, 1, "+01")
    check("K5", (text_from(ref.table_cells(d, swept)), text_from(found)),
          ("+012 -123", "-02 +01 -23 +13"))
    check("K6", [ref.coordinate(x) for x in (0.0625, -0.0625, -0.0001)],
          ["0.062", "-0.062", "0.000"])
    check("K7", ref.side_pairs(2, 0), [(1, 2), (2, 1)])
    d, swept, _ = swept_of(6, 3, "+01234 -01235")
    wings = ref.table_wings(d, swept)
    check("K8", (wings[4][0], wings[10][5]), (10, 4))
    check_k9()
    check("K10", wing_text(4, "+012 +123"), Refused(11))

def check_k9():
    """The edges of row 12, in sweep and in move."""
    point = [0, 0, 0, EMPTY]
    for v, h, wanted in ((2048, 1, 0), (1366, 2, 12), (1365, 2, 0), (2049, 1, 12)):
        check(f"K9 sweep {v} {h}", number(ref.sweep(0, v, 1, h, point, ROOM)), wanted)
        check(f"K9 move {v} {h}", number(ref.move(1, v, h, Slide(0, 1.0), [0.0] * v, ROOM)), wanted)

# The refusal table, row by row and call by call.
def check_read_rows():
    """The rows of read."""
    good = triangle_file()
    check("read accepts", read_number(good), 0)
    check("row 1 empty file", ref.key(b""), b"refused 1\n")
    for name, data in (("39 bytes", good[:39]), ("mark", b"WNH" + good[3:]),
                       *((f"version {x}", patched(good, 3, "H", x)) for x in (0, 3, 256, 257, 258, 65535))):
        check(f"row 1 {name}", read_number(data), 1)
    for name, place, form, value in (
            ("d 7", 5, "B", 7), ("n 0", 6, "B", 0), ("n 9", 6, "B", 9), ("n under d+1", 6, "B", 2),
            ("V 0", 7, "H", 0), ("V 4097", 7, "H", 4097), ("S 4097", 9, "H", 4097), ("h 0", 11, "H", 0), ("h 65", 11, "H", 65),
            ("kind 0", 13, "B", 0), ("kind 4", 13, "B", 4)):
        check(f"row 2 {name}", read_number(patched(good, place, form, value)), 2)
    for name, data in (("too many", good + b"\0"), ("too few", good[:-1]), ("header", good[:40]),
                       ("S 0", patched(good, 9, "H", 0)), ("V and S 0", patched(good, 7, "HH", 0, 0))):
        check(f"row 3 read {name}", read_number(data), 3)
    for place in (16, 24, 32, 40, 104):
        for value in (BIG, -BIG, math.inf, -math.inf, math.nan):
            check(f"row 4 read {place} {value}", read_number(patched(good, place, "d", value)), 4)
    below = math.nextafter(BIG, 0.0)
    check("row 4 read below", read_number(patched(good, 40, "d", -below)), 0)
    check_read_steps(good)
    check("row 6 byte 42", read_number(patched(good, 112, "B", 42)), 6)
    check("row 7 read", read_number(triangle_file(cells="+013")), 7)
    check("row 8 read", read_number(triangle_file(cells="+011")), 8)
    for material, wanted in ((0, 0), (1, 0), (256, 0), (999, 0), (1000, 18), (1024, 18), (65535, 18)):
        named = triangle_file(cells=f"+012:{material}", version=2)
        check(f"row 18 read {material}", read_number(named), wanted)
        check(f"row 18 key {material}", ref.key(named).startswith(b"refused 18\n"), wanted == 18)
    worst = triangle_file(step=Slide(3, 1.0), cells="+011 +013 +012:1000", version=2)
    worst = patched(patched(worst, 130, "B", 42), 104, "d", BIG)
    mends = ((104, "d", 0.0), (14, "B", 0), (130, "B", 43), (128, "H", 2), (119, "H", 2), (131, "H", 999))
    first = [read_number(worst, 0, 0)]
    for mend in mends:
        worst = patched(worst, *mend)
        first.append(read_number(worst, 0, 0))
    check("read in order", first, [4, 5, 6, 7, 8, 18, 15])
    check("row 15 cells", read_number(good, 4, 9), 15)
    check("row 15 points", read_number(good, 5, 8), 15)
    check("row 15 enough", read_number(good, 5, 9), 0)

def check_read_steps(good):
    """Row 5 in read."""
    check("row 5 axis 3", read_number(triangle_file(step=Slide(3, 1.0))), 5)
    check("row 5 axis 2", read_number(triangle_file(step=Slide(2, 1.0))), 0)
    check("row 5 slant 3", read_number(triangle_file(step=Slant(0, 1.0, 3, 1.0))), 5)
    check("row 5 slant equal", read_number(triangle_file(step=Slant(1, 1.0, 1, 1.0))), 5)
    check("row 5 slant", read_number(triangle_file(step=Slant(1, 1.0, 0, 1.0))), 0)
    check("row 5 slide second axis", read_number(patched(good, 15, "B", 1)), 5)
    for place in (24, 32):
        for value in (1.0, -0.0, 5e-324):
            check("row 5 slide unused", read_number(patched(good, place, "d", value)), 5)
    slant = triangle_file(step=Slant(1, 1.0, 0, 1.0))
    check("row 5 slant unused", read_number(patched(slant, 32, "d", -0.0)), 5)
    turn = triangle_file(step=Turn(0.6, 0.8, 1.0))
    check("row 5 turn", read_number(turn), 0)
    check("row 5 turn axes", [read_number(patched(turn, p, "B", 1)) for p in (14, 15)], [5, 5])
    flat = one_file(d=0, n=2, step=Turn(1.0, 0.0, 0.0), points=[0.0, 0.0])
    check("row 5 turn n 2", read_number(flat), 5)

def check_wing_rows():
    """The rows of wing."""
    lone = [0, 0, 0, 1, 2]
    check("wing accepts", ref.wing(2, 3, 1, lone, 8, 3), WingAnswer(8, lone + [EMPTY] * 3, [EMPTY] * 3))
    for d, v, s in ((8, 3, 1), (2, 0, 1), (2, 4097, 1), (2, 4097, 0), (2, 3, 4097), (10**9, 3, 1), (8, 0, 0)):
        check(f"row 2 wing {d} {v} {s}", ref.wing(d, v, s, lone, ROOM, ROOM), Refused(2))
    check("row 3 wing", [number(ref.wing(2, 3, 1, c, ROOM, ROOM)) for c in ([], lone[1:], lone + [0])],
          [3, 3, 3])
    check("row 6 wing", ref.wing(2, 3, 1, [2, 0, 0, 1, 2], ROOM, ROOM), Refused(6))
    check("row 7 wing", wing_text(3, "+013"), Refused(7))
    check("row 8 wing", wing_text(3, "+011"), Refused(8))
    check("row 9", [wing_text(3, "+012 " + c) for c in ("-210", "+210", "+012")], [Refused(9)] * 3)
    check("row 9 points", wing_text(3, "+0 -1 +0"), Refused(9))
    check("row 10", wing_text(5, "+012 +013 +014"), Refused(10))
    check("row 11", wing_text(4, "+012 +123"), Refused(11))
    check("row 11 not", number(wing_text(4, "+012 -123")), 0)
    for material, wanted in ((0, 0), (999, 0), (1000, 18), (65535, 18)):
        check(f"row 18 wing {material}", number(wing_text(3, f"+012:{material}")), wanted)
    rooms = ((8, 3), (9, 4), (7, 3), (8, 2), (7, 2), (0, 3), (8, 0), (0, 0), (ROOM, 2), (7, ROOM))
    check("row 15 wing", [number(ref.wing(2, 3, 1, lone, *both)) for both in rooms], [0, 0] + [15] * 8)
    faults = ("+013 +011 +012 +012:1000", "+011 +012:1000 +012 +012", "+012:1000 +012 +013 +014", "+012 +013 +014 +014:1000",
              "+012 +013 +014:1000 +234", "+012 +123:1000", "+012 +012 +013 +014", "+012 +013 +014 +234")
    check("wing in order", [number(wing_text(n, f, *both)) for n, f in zip((3, 4, 5, 5, 5, 4, 5, 5), faults)
                            for both in ((0, ROOM), (ROOM, 0))], [x for x in (7, 8, 18, 18, 18, 18, 9, 10) for _ in "ab"])

# Wings in uploaded order.
def uploaded_by_definition(rows):
    """The wings in the order of each row, by looking for all its vertices but one in every other row."""
    def neighbour(p, face):
        return next((q for q, other in enumerate(rows) if q != p and face <= set(other)), EMPTY)
    return [[neighbour(p, set(row) - {x}) if len(row) > 1 else EMPTY for x in row] for p, row in enumerate(rows)]

def places_of(row):
    """Where the vertices, taken in ascending order, stand in a row."""
    return [row.index(x) for x in sorted(row)]

def check_uploaded(name, d, cells, answer):
    """The wings in uploaded order by definition, and at the places of the ascending vertices: those of the table."""
    rows, uploaded = [cell.vertices for cell in cells], ref.split(answer.uploaded, d + 1)
    check(name + " uploaded", uploaded, uploaded_by_definition(rows))
    at_places = [[wings[place] for place in places_of(row)] for row, wings in zip(rows, uploaded)]
    check(name + " places", at_places, ref.table_wings(d, answer.written))

def star(d):
    """A cell on the vertices 0 to d, and at the face without vertex i cell i + 1; in dimension 0 two points."""
    rests = [tuple(x for x in range(d + 1) if x != i) for i in range(d + 1)]
    others = [Cell((-1) ** (d + i + 1), rest + (d + 1 + i,), 111 * i) for i, rest in enumerate(rests)]
    return [Cell(1, tuple(range(d + 1)), 999)] + others

def check_orders():
    """The first cell of a star in every order of its vertices; its sign must follow."""
    check("places", places_of((2, 0, 1)), [1, 2, 0])
    answer = wing_text(6, "+201 -013 -124 +025")
    check("four triangles", (ref.table_wings(2, answer.written)[0], answer.uploaded),
          ([2, 3, 1], [1, 2, 3] + [EMPTY, EMPTY, 0] * 3))
    for text, wanted in (("+012", [2, 3, 1]), ("-021", [2, 1, 3]), ("-102", [3, 2, 1]),
                         ("+120", [3, 1, 2]), ("+201", [1, 2, 3]), ("-210", [1, 3, 2])):
        answer = wing_text(6, text + " -013 -124 +025")
        check(f"triangle {text}", (answer.written[:8], answer.uploaded[:3]), ([0, 0, 0, 1, 2, 2, 3, 1], wanted))
    for d in range(6):
        for order in itertools.permutations(range(d + 1)):
            name, sign = f"order {order}", ref.ascending(1, order)[0]
            cells = [Cell(sign, order, 999)] + star(d)[1:]
            answer = wing_of(d, 2 * d + 2, cells)
            check(name, answer.uploaded[:d + 1], [x + 1 for x in order] if d else [EMPTY])
            check_uploaded(name, d, cells, answer)
            check(name + " turned", number(wing_of(d, 2 * d + 2, [Cell(-sign, order)] + cells[1:])), 11 if d else 0)

def check_table_rows():
    """The rows of sweep, faces and list over tables."""
    lone = [0, 0, 0, 1, 2, EMPTY, EMPTY, EMPTY]
    for d, v, s, h in ((7, 3, 1, 1), (2, 0, 1, 1), (7, 0, 0, 1), (2, 4097, 1, 1), (2, 3, 4097, 1),
                       (2, 3, 1, 0), (2, 3, 1, 65)):
        check(f"row 2 sweep {d} {v} {s} {h}", ref.sweep(d, v, s, h, lone, ROOM), Refused(2))
    for d, v, s in ((8, 3, 1), (2, 0, 1), (8, 0, 0), (2, 4097, 1), (2, 3, 4097)):
        check(f"row 2 faces {d} {v} {s}", ref.faces(d, v, s, lone, ROOM), Refused(2))
        check(f"row 2 list {d} {v} {s}", ref.list_key(1, d, 1, v, s, lone, [0.0] * 3, ROOM), Refused(2))
    check("row 2 list n", [number(ref.list_key(2, 2, n, 3, 1, lone, [0.0] * 3, ROOM)) for n in (0, 9)],
          [2, 2])
    check("row 2 list version", [number(ref.list_key(version, 2, 1, 3, 1, lone, [0.0] * 3, ROOM))
                                 for version in (0, 1, 2, 3, 255, 256, 257, 2**32)], [2, 0, 0, 2, 2, 2, 2, 2])
    check("row 2 list version, before all", ref.list_key(3, 2, 1, 3, 1, [], [], 0), Refused(2))
    for table in (lone + [0], lone[:-1], []):
        check("row 3 sweep", ref.sweep(2, 3, 1, 1, table, ROOM), Refused(3))
        check("row 3 faces", ref.faces(2, 3, 1, table, ROOM), Refused(3))
        check("row 3 list table", ref.list_key(1, 2, 1, 3, 1, table, [0.0] * 3, ROOM), Refused(3))
    check("row 3 list points", ref.list_key(1, 2, 1, 3, 1, lone, [0.0] * 4, ROOM), Refused(3))
    check("row 4 list", [number(ref.list_key(1, 2, 1, 3, 1, lone, [0.0, x, 0.0], ROOM))
                         for x in (BIG, -BIG, math.nan, math.inf, BIG - 1)], [4, 4, 4, 4, 0])
    check("row 12 sweep", ref.sweep(2, 3, 1000, 2, [0] * 8000, 0), Refused(12))
    check("row 15 sweep", ref.sweep(0, 1, 1, 1, [0, 0, 0, EMPTY], 5), Refused(15))
    check("row 15 sweep enough", number(ref.sweep(0, 1, 1, 1, [0, 0, 0, EMPTY], 6)), 0)
    check("row 15 faces", [number(ref.faces(2, 3, 1, lone, room)) for room in (11, 12)], [15, 0])
    text = b"key 2 1 3 3\nv 0 0.000\nv 1 0.000\nv 2 0.000\n+ 1 2\n- 0 2\n+ 0 1\n"
    for version, text in ((1, text), (2, text.replace(b" 2\n", b" 2 0\n").replace(b"0 1\n", b"0 1 0\n"))):
        rooms = [ref.list_key(version, 2, 1, 3, 1, lone, [0.0] * 3, len(text) - less) for less in (0, 1)]
        check(f"row 15 list, version {version}", rooms, [Answer(len(text), text), Refused(15)])
    for version in (1, 2):
        check("dimension 0", (ref.faces(0, 2, 1, [1, 999, 1, EMPTY], 0),
                              ref.list_key(version, 0, 1, 2, 1, [1, 999, 1, EMPTY], [0.0, -1.0], ROOM).written),
              (Answer(0, []), b"key 0 1 2 0\nv 0 0.000\nv 1 -1.000\n"))

def check_unsound():
    """Row 14: tables with one thing wrong each."""
    e = EMPTY
    pair = [0, 7, 0, 1, 2, 1, e, e, 1, 999, 1, 2, 3, e, e, 0]
    tables = [
        (2, 3, 1, [0, 0, 0, 1, 2, 0, e, e]), (2, 3, 1, [0, 0, 0, 1, 2, e, 0, e]),
        (2, 3, 1, [0, 0, 0, 1, 2, e, e, 0]), (2, 3, 1, [0, 0, 0, 1, 2, 0, 0, 0]),
        (2, 3, 1, [2, 0, 0, 1, 2, e, e, e]), (2, 3, 1, [0, 0, 0, 2, 1, e, e, e]),
        (2, 3, 1, [0, 0, 0, 1, 1, e, e, e]), (2, 3, 1, [0, 0, 0, 1, 1, e, 0, 0]),
        (2, 3, 1, [0, 0, 0, 1, 3, e, e, e]), (2, 4, 1, [0, 0, 1, 0, 2, e, e, e]),
        (2, 4, 2, pair[:5] + [e] + pair[6:]), (2, 4, 2, pair[:15] + [e]),
        (2, 4, 2, pair[:5] + [e] + pair[6:15] + [e]), (2, 4, 2, [1] + pair[1:]),
        (2, 4, 2, [0, 0, 0, 1, 2, e, e, e] * 2), (2, 4, 2, [0, 0, 0, 1, 2, e, e, e, 1, 0, 0, 1, 2, e, e, e]),
        (2, 4, 2, [0, 5, 0, 1, 2, e, e, e, 1, 6, 0, 1, 2, e, e, e]),
        (0, 2, 2, [0, 0, 1, e, 1, 0, 1, e]), (0, 2, 2, [0, 0, 0, 1, 1, 0, 1, 0]), (0, 2, 1, [0, 0, 0, 0]),
        (1, 4, 3, [0, 0, 0, 1, e, e, 0, 0, 0, 2, e, e, 0, 0, 0, 3, e, e]),
    ]
    tables += [(2, 4, 2, pair[:at] + [bad] + pair[at + 1:]) for at in (1, 9) for bad in (1000, 1001, 65535)]
    tables += [(0, 1, 1, [1, 1000, 0, e]), (2, 4, 2, pair[:5] + [e] + pair[6:9] + [1000] + pair[10:])]
    check("row 14 not", ref.faces(2, 4, 2, pair, ROOM).count, 4)
    for d, v, s, table in tables:
        name = f"row 14 {d} {table}"
        check(name + " sweep", ref.sweep(d, v, s, 1, table, 0), Refused(14))
        check(name + " faces", ref.faces(d, v, s, table, 0), Refused(14))
        for version in (1, 2):
            check(f"{name} list {version}", ref.list_key(version, d, 1, v, s, table, [0.0] * v, 0), Refused(14))

def check_move_rows():
    """The rows of move, and moved points."""
    def moved(n, v, h, step, points, room=ROOM):
        return number(ref.move(n, v, h, step, points, room))
    slide = Slide(0, 1.0)
    for n, v, h in ((0, 1, 1), (9, 1, 1), (9, 0, 1), (1, 4097, 1), (1, 1, 0), (1, 0, 0), (1, 1, 65)):
        check(f"row 2 move {n} {v} {h}", moved(n, v, h, slide, [0.0]), 2)
    check("row 3 move", [moved(1, 1, 1, slide, p) for p in ([], [0.0] * 2)], [3, 3])
    check("row 4 move", [moved(1, 1, 1, Slide(0, x), [y]) for x, y in
                         ((BIG, 0.0), (math.nan, 0.0), (0.0, -BIG), (0.0, math.inf))], [4] * 4)
    check("row 4 before 5", moved(3, 1, 1, Turn(math.inf, 0.0, 0.0), [0.0] * 3), 4)
    check("row 5 move", [moved(3, 1, 1, s, [0.0] * 3) for s in
                         (Slide(3, 1.0), Slant(0, 1.0, 3, 1.0), Slant(3, 1.0, 0, 1.0),
                          Slant(2, 1.0, 2, 1.0), Turn(0.5, 0.5, 0.0))], [5] * 5)
    check("row 5 move turn n 2", moved(2, 1, 1, Turn(1.0, 0.0, 0.0), [0.0] * 2), 5)
    check("row 12 before 13", moved(1, 2049, 1, slide, [BIG - 1.0] * 2049), 12)
    check("row 13", moved(1, 1, 1, slide, [BIG - 1.0]), 13)
    check("row 13 late, before 15", moved(1, 1, 3, slide, [BIG - 3.0], 0), 13)
    check("row 13 not", moved(1, 1, 2, slide, [BIG - 3.0]), 0)
    check("row 15 move", [moved(1, 1, 1, slide, [0.0], room) for room in (1, 2)], [15, 0])
    edge = [math.sqrt(1.0 + k * 2.0**-40) + j * 2.0**-52 for k in (-1, 1) for j in (-4, 0, 4)]
    check("row 5 circle", [moved(3, 1, 1, Turn(c, 0.0, 0.5), [0.0] * 3) for c in edge],
          [0 if 1 - 2.0**-40 <= c * c <= 1 + 2.0**-40 else 5 for c in edge])
    turned = ref.move(4, 1, 2, Turn(0.0, 1.0, 0.5), [2.0, 3.0, -0.0, 1.0], ROOM).written
    wanted = [2.0, 3.0, -0.0, 1.0, -3.0, 2.0, -0.0, 1.5, -2.0, -3.0, -0.0, 2.0]
    check("turn", struct.pack("<12d", *turned), struct.pack("<12d", *wanted))
    check("slant", ref.move(2, 1, 1, Slant(1, 0.5, 0, -1.0), [2.0, 3.0], ROOM).written,
          [2.0, 3.0, 1.0, 3.5])

def check_no_cells():
    """Solids without cells: each call takes them, and the key is a first line and the vertices."""
    for d, v in ((d, v) for d in range(8) for v in (0, 1, 5, 4096)):
        name = f"no cells, d {d} v {v}"
        check(name + " wing", ref.wing(d, v, 0, [], 0, 0), WingAnswer(0, [], []))
        check(name + " faces", ref.faces(d, v, 0, [], 0), Answer(0, []))
        for version in (1, 2):
            check(f"{name} list {version}", ref.list_key(version, d, 1, v, 0, [], [0.5] * v, ROOM).written.decode().splitlines(),
                  [f"key {d} 1 {v} 0"] + [f"v {k} 0.500" for k in range(v)])
        check(name + " a word", (ref.wing(d, v, 0, [0], ROOM, ROOM), ref.faces(d, v, 0, [0], ROOM)), (Refused(3),) * 2)
    for d, h in ((d, h) for d in range(7) for h in (1, 2, 64)):
        check(f"no cells, sweep {d} {h}", ref.sweep(d, 0, 0, h, [], 0), Answer(0, []))
        check(f"no cells, sweep too large {d} {h}", ref.sweep(d, 4096, 0, h, [], 0), Refused(12))
    check("no vertices, move", [ref.move(n, 0, h, Slide(0, 1.0), [], 0) for n in (1, 8) for h in (1, 64)], [Answer(0, [])] * 4)
    check("no vertices, a point", number(ref.move(1, 0, 1, Slide(0, 1.0), [0.0], 0)), 3)
    for d, n, v, h, data in solids.empty_files():
        lines, floats = ref.key(data).decode().splitlines(), (h + 1) * v * n
        if len(data) > 65536 or (h + 1) * v > 4096:
            check(f"no cells, file of {len(data)} bytes", lines, ["refused 3" if len(data) > 65536 else "refused 12"])
        elif floats > 4096:  # more than the program has room for, as floats or as text
            check(f"no cells, {floats} floats", lines, ["refused 15"])
        else:
            check(f"no cells, {floats} floats", (lines[0], len(lines)), (f"key {d + 1} {n} {(h + 1) * v} 0", 1 + (h + 1) * v))
    check("no vertices, a cell", ref.key(one_file(v=0, points=[])), b"refused 2\n")

def check_program_and_c():
    """The program's limits, its command line, and the calls as C has them."""
    check("program 65,537", ref.key(bytes(65537)), b"refused 3\n")
    for version, ends in ((1, ("", "")), (2, (" 999", " 999"))):
        text = "key 1 1 2 2\nv 0 0.500\nv 1 1.500\n+ 1{}\n- 0{}\n".format(*ends).encode()
        check(f"program, version {version}", ref.key(one_file(cells="+0:999", version=version)), text)
    check("program 65,536", ref.key(bytes(65536)), b"refused 1\n")
    many = one_file(v=4096, points=[0.0] * 4096)
    check("program row 12", ref.key(many), b"refused 12\n")
    wide = one_file(n=3, v=2000, points=[0.0] * 6000)
    check("program row 15", ref.key(wide), b"refused 15\n")
    for wanted, data in solids.limit_files():
        text = ref.key(data).decode().splitlines()[0]
        check(f"program, {len(data)} bytes", text if wanted else text.split()[0], f"refused {wanted}" if wanted else "key")
    script = os.path.join(os.path.dirname(os.path.abspath(__file__)), "winged_reference.py")
    run = subprocess.run([sys.executable, script, "key"], input=one_file(), capture_output=True)
    check("command line", (run.returncode, run.stdout), (0, K1_TEXT))
    cells = struct.pack("<5H", 1, 258, 2, 0, 1)
    table = struct.pack("<8H", 1, 258, 0, 1, 2, EMPTY, EMPTY, EMPTY)
    check("c wing", ref.c_wing(2, 3, 1, cells, 16, 6), (8, table, table[10:]))
    check("c wing odd room", [ref.c_wing(2, 3, 1, cells, *both) for both in ((15, 6), (16, 5))],
          [(-15, b"", b"")] * 2)
    check("c wing odd room over", ref.c_wing(2, 3, 1, cells, 17, 7), (8, table, table[10:]))
    check("c wing odd input", [ref.c_wing(d, 3, 1, cells + b"\0", 16, 6)[0] for d in (2, 8)], [-3, -2])
    four = struct.pack("<20H", 0, 9, 2, 0, 1, 1, 8, 0, 1, 3, 1, 7, 1, 2, 4, 0, 6, 0, 2, 5)
    check("c wing, four triangles", ref.c_wing(2, 6, 4, four, 64, 24)[2][:6], struct.pack("<3H", 1, 2, 3))
    calls = ((ref.c_wing, b"\0", 16, 6), (ref.c_sweep, 1, b"\0", 16), (ref.c_faces, b"\0", 16))
    check("c odd input, no cells", [call(2, 3, 0, *more)[0] for call, *more in calls], [-3, -3, -3])
    check("c faces", ref.c_faces(2, 3, 1, table, 24)[0], 12)
    check("c sweep", ref.c_sweep(2, 3, 1, 1, table, 60)[0], 30)
    check("c sweep short", ref.c_sweep(2, 3, 1, 1, table, 59), (-15, b""))

def check_printing(rng):
    """Printed coordinates against decimal arithmetic, which is exact here too; ties are the odd sixteenths."""
    for k in range(6000):
        x = solids.near_tie(rng) if k % 2 else solids.random_float(rng, rng.choice((1.0, 1000.0, BIG - 1.0)))
        wanted = str(Decimal(x).quantize(Decimal("0.001"), ROUND_HALF_EVEN))
        check(f"print {x!r}", ref.coordinate(x), "0.000" if wanted == "-0.000" else wanted)
        check(f"tie {x!r}", Fraction(x) * 2000 % 2 == 1, abs(x) * 16 % 2 == 1)

def check_side_pairs():
    """112 pairs, in bounds, none twice in a dimension; those of the closed rule, which the library follows."""
    total = 0
    for d in range(1, 7):
        pairs = [pair for a in range(d + 1) for pair in ref.side_pairs(d, a)]
        total += len(pairs)
        places = {(k, j) for k in range(d + 1) for j in range(1, d + 1)}
        check(f"side pairs {d}", set(pairs), places)
    check("side pairs in all", total, 112)
    for d in range(1, 31):
        for a in range(d + 1):
            closed = [(l, a - l) if l < a else (l + 1, d + a - l) for l in range(d)]
            check(f"the closed rule {d} {a}", closed, ref.side_pairs(d, a))

# Random solids: wings by definition, and the third term.
def third_term_lists(d, cells, v, h):
    """The cells that the third term asks of the swept boundary, each of the material of the cell that it comes from."""
    turned = (-1) ** d
    top = [cell._replace(sign=turned * cell.sign) for cell in ref.top_copy(cells, v, h)]
    bottom = [cell._replace(sign=-turned * cell.sign) for cell in cells]
    return top + bottom + ref.sweep_plain(ref.own_boundary(cells), v, h)

def check_third_term(name, d, cells, v, h, boundary, rng):
    """Equal lists both ways, distinct faces, and the coefficients at sampled rows."""
    wanted = third_term_lists(d, cells, v, h)
    check(name + " faces wanted", all(boundary.count(c) == wanted.count(c) for c in wanted))
    check(name + " faces given", all(boundary.count(c) == wanted.count(c) for c in boundary))
    check(name + " distinct", len({face.vertices for face in boundary}), len(boundary))
    most = (h + 1) * v
    rows = [face.vertices for face in boundary + wanted]
    rows = rng.sample(rows, min(len(rows), 20))
    rows += [tuple(sorted(rng.sample(range(most), d + 1))) for _ in range(10) if most > d]
    sides, top = ref.sweep_plain(ref.own_boundary(cells), v, h), ref.top_copy(cells, v, h)
    for row in rows:
        ends = ref.coefficient(top, row) - ref.coefficient(cells, row)
        check(f"{name} at {row}", ref.coefficient(boundary, row),
              (-1) ** d * ends + ref.coefficient(sides, row))

def check_solid(name, d, v, cells, h, rng):
    """One accepted solid through wing, sweep and faces."""
    s = len(cells)
    uploaded = solids.shuffled(cells, rng)
    table = wing_of(d, v, uploaded)
    check(name + " accepted", number(table), 0)
    check_uploaded(name, d, uploaded, table)
    check(name + " cells", ref.table_cells(d, table.written), cells)
    check(name + " wings", ref.table_wings(d, table.written), ref.neighbours_by_definition(cells))
    swept = ref.sweep(d, v, s, h, table.written, ROOM)
    check(name + " swept", number(swept), 0)
    sizes = (d + 1, (h + 1) * v, h * s * (d + 1))
    swept_cells = ref.table_cells(d + 1, swept.written)
    check(name + " swept wings", ref.table_wings(d + 1, swept.written),
          ref.neighbours_by_definition(swept_cells))
    uploaded = solids.shuffled(swept_cells, rng)
    again = wing_of(*sizes[:2], uploaded)
    check(name + " swept winged", Answer(again.count, again.written), swept)
    check_uploaded(name + " swept", d + 1, uploaded, again)
    found = ref.faces(*sizes, swept.written, ROOM)
    boundary = records_of(d + 1, found)
    check(name + " face count", found.count, sum(w == EMPTY for row in
          ref.table_wings(d + 1, swept.written) for w in row))
    check(name + " faces alone", Counter(boundary), Counter(ref.own_boundary(swept_cells)))
    check_third_term(name, d, cells, v, h, boundary, rng)
    return table.written

def check_solids(rng):
    """Some hundreds of random solids of dimension 0 to 4, a few of 5 and 6."""
    closed = 0
    for trial in range(400):
        d = trial % 5 if trial < 380 else 5 + trial % 2
        v, cells = solids.small_solid(d, rng)
        table = check_solid(f"solid {trial}", d, v, cells, rng.choice((1, 1, 2, 3)), rng)
        closed += d > 0 and not ref.own_boundary(cells)
        worse = solids.damaged_table(table, d, v, len(cells), rng)
        answer = ref.faces(d, v, len(cells), worse, ROOM)
        if worse == table:
            check(f"damage {trial} none", number(answer), 0)
        elif answer == Refused(14):
            check(f"damage {trial} found", True)
        else:
            again = wing_of(d, v, ref.table_cells(d, worse))
            check(f"damage {trial} still sound", again.written, worse)
    check("closed solids among them", closed >= 10)
    for d, v in ((d, v) for d in range(7) for v in (0, 1, 9)):
        check_solid(f"no cells, d {d} v {v}", d, v, [], 2, rng)

def check_files(rng):
    """Random files are read back; damaged ones print a key or a refusal; all rows occur."""
    seen = Counter()
    for trial in range(1500):
        data = solids.random_file(rng)
        if trial % 3:
            data = solids.damaged(data, rng)
        else:
            f = ref.read(data, ROOM, ROOM)
            if number(f) != 5:
                cells = [Cell(-1 if r[0] else 1, r[2:], r[1]) for r in ref.split(f.cells, f.d + 3)]
                again = solids.file_bytes(f.d, f.n, f.v, f.h, f.step, f.points, cells, f.version)
                check(f"file {trial} read back", again, data)
        text = ref.key(data)
        words = text.split()
        seen[int(words[1]) if words[0] == b"refused" else 0] += 1
        if words[0] == b"key":
            check(f"file {trial} lines", text.count(b"\n"), 1 + int(words[3]) + int(words[4]))
    check("all outcomes seen", sorted(seen), [0, 1, 2, 3, 4, 5, 6, 7, 8, 9, 10, 11, 12, 13, 15, 17, 18])

def check_materials(rng):
    """The laws of materials, on random solids and by hand."""
    for name, got, wanted in material_laws.laws(rng):
        check(name, got, wanted)

def check_own_plane(rng):
    """Row 17, by hand and on random moves."""
    for name, got, wanted in own_plane.checks(rng):
        check(f"row 17, {name}", got, wanted)

def main():
    """All checks, with a fixed seed; a check that breaks off is a failure too."""
    groups = (check_keys, check_read_rows, check_wing_rows, check_orders, check_table_rows, check_unsound,
              check_move_rows, check_no_cells, check_program_and_c, check_side_pairs,
              lambda: check_printing(random.Random(1)), lambda: check_solids(random.Random(2)),
              lambda: check_files(random.Random(3)), lambda: check_materials(random.Random(4)),
              lambda: check_own_plane(random.Random(5)))
    for place, group in enumerate(groups):
        try:
            group()
        except Exception as broken:
            check(f"group {place} of checks", repr(broken), "no exception")
    print(f"{passed} passed, {failed} failed")
    return 1 if failed else 0

if __name__ == "__main__":
    sys.exit(main())
