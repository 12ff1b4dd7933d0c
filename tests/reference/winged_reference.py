"""A brute-force reference for winged solids, written from the rules of the paper alone, apart from the engine.

A cell is a sign, +1 or -1, a tuple of ascending vertices, and a material; so is a face, with the material of its cell.
Every call returns Refused(number), or an answer with a count and what is written.
"""

import math
import struct
import sys
from collections import namedtuple
from fractions import Fraction

EMPTY = 65535
SIGNS = (1, -1)  # by sign word
MOST = 4096
MOST_MATERIAL = 999
VERSIONS = (1, 2)  # of files; from the second on a cell has a material there
PROGRAM_BYTES = 65536

Cell = namedtuple("Cell", "sign vertices material", defaults=(0,))

# Answers: a count of words (wing, sweep), records (faces), floats (move) or bytes (list).
# Wing writes a table, whose words it counts, and the wings in uploaded order.
Refused = namedtuple("Refused", "number")
Answer = namedtuple("Answer", "count written")
WingAnswer = namedtuple("WingAnswer", "count written uploaded")
ReadAnswer = namedtuple("ReadAnswer", "version d n v s h step cells points")

# The three kinds of step.
Slide = namedtuple("Slide", "axis amount")
Slant = namedtuple("Slant", "axis amount other_axis other_amount")
Turn = namedtuple("Turn", "c s rise")

# Signed cells and their faces.
def ascending(sign, vertices):
    """The signed cell with its vertices in order; an odd reordering turns the sign."""
    size = len(vertices)
    crossed = sum(vertices[i] > vertices[j] for i in range(size) for j in range(i + 1, size))
    return (-sign if crossed % 2 else sign), tuple(sorted(vertices))

def faces_of(cell):
    """All faces of a cell by position, with their signs and its material; in dimension 0 none."""
    sign, vertices, material = cell
    if len(vertices) == 1:
        return []
    return [Cell(sign * (-1) ** i, vertices[:i] + vertices[i + 1:], material) for i in range(len(vertices))]

def owners(cells):
    """For the vertices of every face: the list of (cell number, position, sign)."""
    found = {}
    for p, cell in enumerate(cells):
        for i, face in enumerate(faces_of(cell)):
            found.setdefault(face.vertices, []).append((p, i, face.sign))
    return found

def wings_of(cells):
    """The wings of cells in which no face belongs to more than two."""
    wings = [[EMPTY] * len(cell.vertices) for cell in cells]
    for owned in owners(cells).values():
        if len(owned) == 2:
            (p, i, _), (q, j, _) = owned
            wings[p][i] = q
            wings[q][j] = p
    return wings

def neighbours_by_definition(cells):
    """The wings again, by comparing every face with every face of every other cell."""
    every = [(q, face.vertices) for q, cell in enumerate(cells) for face in faces_of(cell)]
    wings = []
    for p, cell in enumerate(cells):
        row = []
        for mine in faces_of(cell):
            others = [q for q, vertices in every if vertices == mine.vertices and q != p]
            row.append(others[0] if others else EMPTY)
        wings.append(row or [EMPTY])
    return wings

def uploaded_wings(rows):
    """The wings in the order of each row of vertices: for each vertex the other cell that has all the rest."""
    rests = [[frozenset(vertices) - {x} for x in vertices] for vertices in rows]
    having = {}  # the cells that have all vertices of a face
    for p, row in enumerate(rests):
        for face in row:
            having.setdefault(face, []).append(p)

    def neighbour(p, face):
        others = [q for q in having[face] if q != p]
        return others[0] if face and others else EMPTY  # in dimension 0 there is no face

    return [[neighbour(p, face) for face in row] for p, row in enumerate(rests)]

# Lists of signed cells.
def coefficient(cells, row):
    """Plus cells less minus cells on an ascending row of vertices, whatever their materials."""
    return sum(cell.sign for cell in cells if cell.vertices == tuple(row))

def own_boundary(cells):
    """The faces that belong to one cell only, told from the cells alone."""
    found = owners(cells)
    return [face for cell in cells for face in faces_of(cell) if len(found[face.vertices]) == 1]

def top_copy(cells, v, h):
    """The cells with hV added to each vertex."""
    return [cell._replace(vertices=tuple(x + h * v for x in cell.vertices)) for cell in cells]

def swept_cell(cell, k, i, v):
    """Cell k of the d+1 that a cell gives at level i, of its material."""
    sign, vertices, material = cell
    d = len(vertices) - 1
    lower = [x + i * v for x in vertices[k:]]
    upper = [x + (i + 1) * v for x in vertices[:k + 1]]
    return Cell(sign * (-1) ** (k * d), tuple(lower + upper), material)

def sweep_plain(cells, v, h):
    """The swept cells without wings, in the order of their numbers."""
    return [swept_cell(cell, k, i, v)
            for i in range(h) for cell in cells for k in range(len(cell.vertices))]

# Words: how many a cell of a list, a record of a table and a face have.
def list_size(d):
    """Sign, material, d + 1 vertices."""
    return d + 3

def record_size(d):
    """Sign, material, d + 1 vertices, d + 1 wings."""
    return 2 * d + 4

def face_size(d):
    """Sign, d vertices, material."""
    return d + 2

def split(words, size):
    """The list cut into rows of the given size."""
    return [list(words[i:i + size]) for i in range(0, len(words), size)]

# Tables.
def join_table(cells, wings):
    """The words of a table."""
    return [word for cell, row in zip(cells, wings)
            for word in (SIGNS.index(cell.sign), cell.material, *cell.vertices, *row)]

def table_cells(d, table):
    """The cells of a table."""
    return [Cell(SIGNS[row[0]], tuple(row[2:d + 3]), row[1]) for row in split(table, record_size(d))]

def table_wings(d, table):
    """The wings of a table, a row per cell."""
    return [row[d + 3:] for row in split(table, record_size(d))]

def row_in_order(row, d, v):
    """Sign 0 or 1, material up to 999, vertices different, ascending and below V."""
    vertices = row[2:d + 3]
    in_order = vertices == sorted(set(vertices)) and max(vertices) < v
    return row[0] in (0, 1) and row[1] <= MOST_MATERIAL and in_order

def sound(d, v, table):
    """Soundness of a table whose numbers and length are right already."""
    if not all(row_in_order(row, d, v) for row in split(table, record_size(d))):
        return False
    cells = table_cells(d, table)
    if len({cell.vertices for cell in cells}) != len(cells):
        return False
    for owned in owners(cells).values():
        if len(owned) > 2 or len(owned) == 2 and owned[0][2] == owned[1][2]:
            return False
    return table_wings(d, table) == wings_of(cells)

def table_boundary(d, table):
    """One face per empty wing, by cell and then position; none in dimension 0."""
    return [face for cell, wings in zip(table_cells(d, table), table_wings(d, table))
            for face, neighbour in zip(faces_of(cell), wings) if neighbour == EMPTY]

def sizes_fit(v, s):
    """Vertices and cells, up to 4,096 each; without vertices there are no cells."""
    return v <= MOST and s <= MOST and (v >= 1 or s == 0)

def rows_refusal(rows, signs, v):
    """Rows 6, 7, 8 and 18, in this order, over rows of a sign, a material and vertices, or None."""
    if any(row[0] not in signs for row in rows):
        return Refused(6)
    if any(x >= v for row in rows for x in row[2:]):
        return Refused(7)
    if any(len(set(row[2:])) != len(row) - 2 for row in rows):
        return Refused(8)
    if any(row[1] > MOST_MATERIAL for row in rows):
        return Refused(18)

def wing(d, v, s, cells, room, uploaded_room):
    """The table of a list of cells, and their wings in uploaded order."""
    if not (0 <= d <= 7 and sizes_fit(v, s)):
        return Refused(2)
    if len(cells) != s * list_size(d):
        return Refused(3)
    rows = split(cells, list_size(d))
    if refusal := rows_refusal(rows, (0, 1), v):
        return refusal
    ordered = [Cell(*ascending(SIGNS[row[0]], row[2:]), row[1]) for row in rows]
    if len({cell.vertices for cell in ordered}) != s:
        return Refused(9)
    shared = list(owners(ordered).values())
    if any(len(owned) > 2 for owned in shared):
        return Refused(10)
    if any(len(owned) == 2 and owned[0][2] == owned[1][2] for owned in shared):
        return Refused(11)
    if room < s * record_size(d) or uploaded_room < s * (d + 1):
        return Refused(15)
    table = join_table(ordered, wings_of(ordered))
    uploaded = [word for wings in uploaded_wings([row[2:] for row in rows]) for word in wings]
    return WingAnswer(len(table), table, uploaded)

def side_pairs(d, a):
    """The side pairs (cell, position) over wing a, first to d-th."""
    pairs = [(1, d) if a == 0 else (0, a)]
    while len(pairs) < d:
        k, j = pairs[-1]
        pairs.append((k + 2, d) if j == 1 else (k + 1, j - 1))
    return pairs

def swept_wings(d, s, h, wings):
    """The wings of the swept table, by the rule of the paper, section 4."""
    def number(k, p, i):
        return k + p * (d + 1) + i * s * (d + 1)

    swept = [[EMPTY] * (d + 2) for _ in range(h * s * (d + 1))]
    for i in range(h):
        for p in range(s):
            for k in range(d):
                swept[number(k, p, i)][0] = number(k + 1, p, i)
                swept[number(k + 1, p, i)][d + 1] = number(k, p, i)
            for a, q in enumerate(wings[p]):
                if q != EMPTY:
                    b = wings[q].index(p)
                    for (k, j), (m, _) in zip(side_pairs(d, a), side_pairs(d, b)):
                        swept[number(k, p, i)][j] = number(m, q, i)
            if i + 1 < h:
                swept[number(d, p, i)][0] = number(0, p, i + 1)
                swept[number(0, p, i + 1)][d + 1] = number(d, p, i)
    return swept

def sweep(d, v, s, h, table, room):
    """The table of the swept solid, one dimension higher."""
    if not (0 <= d <= 6 and sizes_fit(v, s) and 1 <= h <= 64):
        return Refused(2)
    if len(table) != s * record_size(d):
        return Refused(3)
    if (h + 1) * v > MOST or h * s * (d + 1) > MOST:
        return Refused(12)
    if not sound(d, v, table):
        return Refused(14)
    if room < h * s * (d + 1) * record_size(d + 1):
        return Refused(15)
    cells = sweep_plain(table_cells(d, table), v, h)
    swept = join_table(cells, swept_wings(d, s, h, table_wings(d, table)))
    return Answer(len(swept), swept)

def faces(d, v, s, table, room):
    """The records of the boundary faces, and how many."""
    if not (0 <= d <= 7 and sizes_fit(v, s)):
        return Refused(2)
    if len(table) != s * record_size(d):
        return Refused(3)
    if not sound(d, v, table):
        return Refused(14)
    records = table_boundary(d, table)
    if room < len(records) * face_size(d):
        return Refused(15)
    words = [word for face in records for word in (SIGNS.index(face.sign), *face.vertices, face.material)]
    return Answer(len(records), words)

# Points.
def float_fits(x):
    """Rule 4: finite, and of magnitude below 1,048,576."""
    return math.isfinite(x) and abs(x) < 1048576

def step_floats(step):
    """The floats that a step holds: all of a turn, else those after each axis."""
    return list(step) if isinstance(step, Turn) else list(step[1::2])

def step_fits(step, n):
    """Rule 5, but for the unused parts of a file."""
    if isinstance(step, Slide):
        return step.axis < n
    if isinstance(step, Slant):
        return step.axis < n and step.other_axis < n and step.axis != step.other_axis
    circle = step.c * step.c + step.s * step.s
    return n >= 3 and 1.0 - 2.0**-40 <= circle <= 1.0 + 2.0**-40

def moved_point(step, point):
    """The step applied to one point."""
    moved = list(point)
    if isinstance(step, Slide):
        moved[step.axis] = point[step.axis] + step.amount
    elif isinstance(step, Slant):
        moved[step.axis] = point[step.axis] + step.amount
        moved[step.other_axis] = point[step.other_axis] + step.other_amount
    else:
        moved[0] = point[0] * step.c - point[1] * step.s
        moved[1] = point[0] * step.s + point[1] * step.c
        moved[-1] = point[-1] + step.rise
    return moved

def moved_axes(step, n):
    """The axes that may carry a step: those that a slide or slant moves, or the last one for a turn."""
    if isinstance(step, Slide):
        return [step.axis]
    if isinstance(step, Slant):
        return [step.axis, step.other_axis]
    return [n - 1]

def carries(axis, levels):
    """Whether an axis carries the step: on it all vertices of a level have equal values, by value, so that -0 is 0; and at
    every level they are strictly above those of the level before, or at every level strictly below."""
    values = [[point[axis] for point in level] for level in levels]
    flat = all(x == level[0] for level in values for x in level)
    rises = all(x < y for below, level in zip(values, values[1:]) for x, y in zip(below, level))
    falls = all(x > y for below, level in zip(values, values[1:]) for x, y in zip(below, level))
    return flat and (rises or falls)

def move(n, v, h, step, points, room):
    """The points of levels 0 to h."""
    if not (1 <= n <= 8 and v <= MOST and 1 <= h <= 64):
        return Refused(2)
    if len(points) != v * n:
        return Refused(3)
    if not all(float_fits(x) for x in step_floats(step) + list(points)):
        return Refused(4)
    if not step_fits(step, n):
        return Refused(5)
    if (h + 1) * v > MOST:
        return Refused(12)
    levels = [split(points, n)]
    for _ in range(h):
        levels.append([moved_point(step, point) for point in levels[-1]])
    written = [x for level in levels for point in level for x in point]
    if not all(float_fits(x) for x in written):
        return Refused(13)
    if v > 0 and not any(carries(axis, levels) for axis in moved_axes(step, n)):
        return Refused(17)
    if room < len(written):
        return Refused(15)
    return Answer(len(written), written)

# File and key.
def read_step(kind, axes, floats, data):
    """The step of a file's header, and the bytes that it leaves unused."""
    if kind == 1:
        return Slide(axes[0], floats[0]), data[15:16] + data[24:40]
    if kind == 2:
        return Slant(axes[0], floats[0], axes[1], floats[1]), data[32:40]
    return Turn(*floats), data[14:16]

def file_cell_size(version, d):
    """The bytes of a cell in a file: sign, in version 2 a material, d + 1 vertices."""
    return (3 if version == 2 else 1) + 2 * (d + 1)

def file_rows(version, d, data):
    """Rows of a sign byte, a material and vertices; in version 1 all materials are 0."""
    if version == 2:
        return list(struct.iter_unpack(f"<BH{d + 1}H", data))
    return [(sign, 0, *vertices) for sign, *vertices in struct.iter_unpack(f"<B{d + 1}H", data)]

def read(data, cells_room, points_room):
    """The version, numbers, step, cells and points of a file."""
    if len(data) < 40 or data[0:3] != b"WNG":
        return Refused(1)
    version, d, n, v, s, h, kind, *axes = struct.unpack_from("<HBBHHHBBB", data, 3)
    if version not in VERSIONS:
        return Refused(1)
    floats = struct.unpack_from("<3d", data, 16)
    in_limits = d <= 6 and 1 <= n <= 8 and n >= d + 1 and sizes_fit(v, s) and 1 <= h <= 64
    if not (in_limits and kind in (1, 2, 3)):
        return Refused(2)
    cells_start = 40 + 8 * v * n
    if len(data) != cells_start + s * file_cell_size(version, d):
        return Refused(3)
    points = list(struct.unpack_from(f"<{v * n}d", data, 40))
    if not all(float_fits(x) for x in [*floats, *points]):
        return Refused(4)
    step, unused = read_step(kind, axes, floats, data)
    if any(unused) or not step_fits(step, n):
        return Refused(5)
    rows = file_rows(version, d, data[cells_start:])
    if refusal := rows_refusal(rows, (43, 45), v):
        return refusal
    if cells_room < s * list_size(d) or points_room < v * n:
        return Refused(15)
    cells = [word for row in rows for word in (0 if row[0] == 43 else 1, *row[1:])]
    return ReadAnswer(version, d, n, v, s, h, step, cells, points)

def coordinate(x):
    """Three decimals of the exact float, a half to the even thousandth, no minus on zero."""
    thousandths = round(abs(Fraction(x)) * 1000)  # of a fraction: to the nearest, a half to the even one
    minus = "-" if x < 0 and thousandths > 0 else ""
    return f"{minus}{thousandths // 1000}.{thousandths % 1000:03d}"

def list_key(version, d, n, v, s, table, points, room):
    """The text of the key of a table and its points; from version 2 on a face's line ends with its material."""
    if not (version in VERSIONS and 0 <= d <= 7 and 1 <= n <= 8 and sizes_fit(v, s)):
        return Refused(2)
    if len(table) != s * record_size(d) or len(points) != v * n:
        return Refused(3)
    if not all(float_fits(x) for x in points):
        return Refused(4)
    if not sound(d, v, table):
        return Refused(14)
    records = table_boundary(d, table)
    lines = [["key", d, n, v, len(records)]]
    for number, point in enumerate(split(points, n)):
        lines.append(["v", number, *map(coordinate, point)])
    for face in records:
        lines.append(["+" if face.sign == 1 else "-", *face.vertices] + [face.material] * (version == 2))
    text = "".join(" ".join(map(str, line)) + "\n" for line in lines).encode()
    if room < len(text):
        return Refused(15)
    return Answer(len(text), text)

def run_key(data):
    """The calls of the program in order; the first refusal ends it."""
    if len(data) > PROGRAM_BYTES:
        return Refused(3)
    words, floats = PROGRAM_BYTES // 2, PROGRAM_BYTES // 8
    f = read(data, words, floats)
    if isinstance(f, Refused):
        return f
    table = wing(f.d, f.v, f.s, f.cells, words, words)
    if isinstance(table, Refused):
        return table
    swept = sweep(f.d, f.v, f.s, f.h, table.written, words)
    if isinstance(swept, Refused):
        return swept
    points = move(f.n, f.v, f.h, f.step, f.points, floats)
    if isinstance(points, Refused):
        return points
    return list_key(f.version, f.d + 1, f.n, (f.h + 1) * f.v, f.h * f.s * (f.d + 1),
                    swept.written, points.written, PROGRAM_BYTES)

def key(data):
    """What the program prints for any input."""
    answer = run_key(data)
    return b"refused %d\n" % answer.number if isinstance(answer, Refused) else answer.written

# The calls as C has them.
def words_of(data):
    """Little-endian words; an odd length gives more words than any list or table has, so that row 3 refuses them."""
    return list(struct.unpack(f"<{len(data) // 2}H", data)) if len(data) % 2 == 0 else range(2**20)

def bytes_of(words):
    """Little-endian bytes of words."""
    return struct.pack(f"<{len(words)}H", *words)

def c_result(answer):
    """The count of words and their bytes, or minus the refusal and no bytes."""
    if isinstance(answer, Refused):
        return -answer.number, b""
    return len(answer.written), bytes_of(answer.written)

def c_wing(d, v, s, cells_bytes, table_len, uploaded_len):
    """Wing over bytes: the result, and the bytes of both buffers."""
    answer = wing(d, v, s, words_of(cells_bytes), table_len // 2, uploaded_len // 2)
    return *c_result(answer), b"" if isinstance(answer, Refused) else bytes_of(answer.uploaded)

def c_sweep(d, v, s, h, table_bytes, swept_len):
    """Sweep over bytes."""
    return c_result(sweep(d, v, s, h, words_of(table_bytes), swept_len // 2))

def c_faces(d, v, s, table_bytes, faces_len):
    """Faces over bytes."""
    return c_result(faces(d, v, s, words_of(table_bytes), faces_len // 2))

if __name__ == "__main__":
    if sys.argv[1:] != ["key"]:
        sys.exit("usage: winged_reference.py key < FILE")
    sys.stdout.buffer.write(key(sys.stdin.buffer.read()))
