"""Laws of materials, each a name, what the reference gives, and what is wanted.

Solids are random, with materials of every kind. That a swept cell or a face has the material of the cell that it comes
from is told by vertices alone: below, at level 0, they are vertices of that cell and of no other.
"""

from collections import Counter

import solids
import winged_reference as ref
from winged_reference import EMPTY, Cell, Refused, Slide

ROOM = 10**6

def table_of(d, v, cells):
    """Wing of accepted cells."""
    return ref.wing(d, v, len(cells), solids.cell_words(cells), ROOM, ROOM)

def swept_table(d, v, h, cells):
    """The table of their sweep."""
    return ref.sweep(d, v, len(cells), h, table_of(d, v, cells).written, ROOM).written

def boundary(d, v, s, table):
    """The faces that faces writes."""
    rows = ref.split(ref.faces(d, v, s, table, ROOM).written, ref.face_size(d))
    return [Cell(1 if row[0] == 0 else -1, tuple(row[1:-1]), row[-1]) for row in rows]

def swept_boundary(d, v, h, cells):
    """The boundary of their sweep."""
    return boundary(d + 1, (h + 1) * v, h * len(cells) * (d + 1), swept_table(d, v, h, cells))

def below(vertices, v):
    """Vertices of a sweep at level 0."""
    return {x % v for x in vertices}

def materials_on(cells, vertices):
    """The materials of the cells that have all these vertices."""
    return [cell.material for cell in cells if vertices <= set(cell.vertices)]

def struck(cells):
    """The cells without their materials."""
    return [cell._replace(material=0) for cell in cells]

def other_materials(cells, rng):
    """The cells with a material changed in some of them, in one at least."""
    chosen = set(rng.sample(range(len(cells)), rng.randint(1, len(cells))))
    return [cell._replace(material=(cell.material + rng.randrange(1, 1000)) % 1000) if p in chosen else cell
            for p, cell in enumerate(cells)]

def carried(name, d, v, h, cells):
    """Swept cells and faces have the material of the cell that they come from; sweeping once more keeps it."""
    table = table_of(d, v, cells).written
    yield f"{name}: in the table", [cell.material for cell in ref.table_cells(d, table)], [cell.material for cell in cells]
    swept = ref.table_cells(d + 1, swept_table(d, v, h, cells))
    yield (f"{name}: in the sweep", [[cell.material] for cell in swept],
           [materials_on(cells, below(cell.vertices, v)) for cell in swept])
    for what, faces in (("boundary", boundary(d, v, len(cells), table)), ("swept boundary", swept_boundary(d, v, h, cells))):
        yield (f"{name}: in the {what}", [[face.material] for face in faces],
               [materials_on(cells, below(face.vertices, v)) for face in faces])
    if d < 6:
        twice = ref.table_cells(d + 2, swept_table(d + 1, (h + 1) * v, 1, swept))
        yield (f"{name}: swept again", [cell.material for cell in twice],
               [cell.material for cell in swept for _ in range(d + 2)])

def left_out(name, d, v, h, cells, rng):
    """Wings, and which faces are boundary, are the same whatever the materials."""
    others = other_materials(cells, rng)
    one, two = table_of(d, v, cells), table_of(d, v, others)
    yield f"{name}: wings", ref.table_wings(d, two.written), ref.table_wings(d, one.written)
    yield f"{name}: uploaded wings", two.uploaded, one.uploaded
    yield (f"{name}: swept wings", ref.table_wings(d + 1, swept_table(d, v, h, others)),
           ref.table_wings(d + 1, swept_table(d, v, h, cells)))
    yield (f"{name}: boundary", struck(boundary(d, v, len(cells), two.written)),
           struck(boundary(d, v, len(cells), one.written)))
    one, two = swept_boundary(d, v, h, cells), swept_boundary(d, v, h, others)
    yield f"{name}: swept boundary", struck(two), struck(one)
    rows = rng.sample([face.vertices for face in one], min(len(one), 5))
    yield f"{name}: coefficients", [ref.coefficient(two, r) for r in rows], [ref.coefficient(one, r) for r in rows]

def told_apart(name, d, v, h, cells, rng):
    """Two solids that differ in materials only have different swept boundaries, list order aside."""
    others = other_materials(cells, rng)
    mixed = rng.sample(cells, len(cells))
    one = Counter(swept_boundary(d, v, h, cells))
    yield f"{name}: another material is seen", Counter(swept_boundary(d, v, h, others)) != one, True
    yield f"{name}: another order is not", Counter(swept_boundary(d, v, h, mixed)), one

def without_last_field(text):
    """The text with the last field of each face's line struck."""
    lines = text.decode().splitlines(keepends=True)
    return "".join(x.rsplit(" ", 1)[0] + "\n" if x[0] in "+-" else x for x in lines).encode()

def in_both_forms(name, d, v, h, cells, rng):
    """Version 1's text is version 2's with the last field of face lines struck; so with files."""
    n = rng.randint(d + 1, 8)
    points = [0.5] * (n * v)
    table = table_of(d, v, cells).written
    texts = [ref.list_key(version, d, n, v, len(cells), table, points, ROOM).written for version in (1, 2)]
    yield f"{name}: listed", texts[0], without_last_field(texts[1])
    faces = boundary(d, v, len(cells), table)
    fields = [line.split() for line in texts[1].decode().splitlines()[1 + v:]]
    yield (f"{name}: face lines", fields,
           [["+" if face.sign == 1 else "-", *map(str, (*face.vertices, face.material))] for face in faces])
    step = Slide(n - 1, 1.0)
    files = [solids.file_bytes(d, n, v, h, step, points, cells, version) for version in (1, 2)]
    plain = solids.file_bytes(d, n, v, h, step, points, struck(cells), 2)
    yield f"{name}: files differ by two bytes a cell", len(files[1]) - len(files[0]), 2 * len(cells)
    read = [ref.read(data, ROOM, ROOM) for data in (*files, plain)]
    yield f"{name}: versions", [answer.version for answer in read], [1, 2, 2]
    yield f"{name}: version 1 has material 0", read[0]._replace(version=2), read[2]
    yield f"{name}: version 2 has its own", read[1].cells, solids.cell_words(cells)
    keys = [ref.key(data) for data in (*files, plain)]
    if keys[1].startswith(b"key"):
        yield f"{name}: keys", [without_last_field(key) for key in keys[1:]], [keys[0]] * 2
        yield f"{name}: the form is by version", keys[2] != keys[0], any(line[:1] in b"+-" for line in keys[0].splitlines())

def by_hand():
    """Two triangles of two materials; row 18 behind row 8 and before row 9."""
    e = EMPTY
    pair = [0, 7, 0, 1, 2, 1, 999, 1, 2, 3]
    table = [0, 7, 0, 1, 2, 1, e, e, 1, 999, 1, 2, 3, e, e, 0]
    answer = ref.wing(2, 4, 2, pair, 16, 6)
    yield "two materials: table", answer, ref.WingAnswer(16, table, [1, e, e, e, e, 0])
    yield ("two materials: the face between is no boundary", ref.faces(2, 4, 2, table, 16),
           ref.Answer(4, [1, 0, 2, 7, 0, 0, 1, 7, 1, 2, 3, 999, 0, 1, 3, 999]))
    yield "two materials: room", ref.faces(2, 4, 2, table, 15), Refused(15)
    text = "key 2 1 4 4\nv 0 0.000\nv 1 0.000\nv 2 0.000\nv 3 0.000\n- 0 2{}\n+ 0 1{}\n- 2 3{}\n+ 1 3{}\n"
    for version, ends in ((1, [""] * 4), (2, [" 7", " 7", " 999", " 999"])):
        got = ref.list_key(version, 2, 1, 4, 2, table, [0.0] * 4, ROOM).written
        yield f"two materials: version {version}", got, text.format(*ends).encode()
    swept = ref.sweep(0, 2, 2, 2, [0, 3, 0, e, 1, 4, 1, e], 24).written
    yield ("two points swept", swept,
           [0, 3, 0, 2, 2, e, 1, 4, 1, 3, 3, e, 0, 3, 2, 4, e, 0, 1, 4, 3, 5, e, 1])
    for name, words, wanted in (
            ("8 and 18 in one cell", [0, 1000, 0, 1, 1], 8), ("8 behind 18", [0, 1000, 0, 1, 2, 0, 0, 3, 3, 4], 8),
            ("18 behind 9", [0, 0, 0, 1, 2, 1, 0, 2, 1, 0, 0, 1000, 0, 1, 3], 18), ("9", [0, 5, 0, 1, 2, 1, 6, 2, 1, 0], 9),
            ("18 and 11", [0, 0, 0, 1, 2, 0, 65535, 1, 2, 3], 18), ("11", [0, 0, 0, 1, 2, 0, 999, 1, 2, 3], 11),
            ("10", [0, 1, 0, 1, 2, 0, 2, 0, 1, 3, 0, 3, 0, 1, 4], 10), ("6 and 18", [2, 1000, 0, 1, 2], 6),
            ("7 and 18", [0, 1000, 0, 1, 5], 7)):
        yield f"rows {name}", ref.wing(2, 5, len(words) // 5, words, 0, 0), Refused(wanted)

def laws(rng):
    """All of them."""
    yield from by_hand()
    for trial in range(210):
        d, h = trial % 7, rng.choice((1, 1, 2, 3))
        v, cells = solids.small_solid(d, rng)
        name = f"materials {trial}"
        yield from carried(name, d, v, h, cells)
        yield from left_out(name, d, v, h, cells, rng)
        yield from told_apart(name, d, v, h, cells, rng)
        yield from in_both_forms(name, d, v, h, cells, rng)
