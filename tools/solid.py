#!/usr/bin/env python3
"""Solids written by hand: text to file and back, refusals explained, random solids.

usage: solid.py pack [TEXT [FILE]]     text to file (default: standard input and output)
       solid.py unpack [FILE [TEXT]]   file to text
       solid.py explain N              what refusal N means
       solid.py random D V S SEED [M]  a random accepted solid as text: dimension, vertices, cells (or 0), seed; where M
                                       is given, each cell of a material 0 to M - 1
       solid.py --help

The text, with anything after # a comment:

    steps 2
    slide 2 1.0              # axis and amount; or: slant 0 0.5 2 1.0; or: turn COSINE SINE RISE
    v 0 0 0                  # one line a vertex, numbered from 0: its coordinates
    v 1 0 0                  # all have one value on axis 2, and so the slide leaves their plane
    v 0 1 0
    + 0 1 2                  # one line a cell: its sign and its vertices

A cell may have a material, 0 to 999, behind its vertices; the file is then of version 2, and a cell without one has
material 0. Where no cell has one the file is of version 1:

    + 0 1 2 : 7              # a cell of material 7

A text may have no cells, and no vertices. Then these lines say what those would have told, the dimension, the count of
coordinates and the version; beside cells and vertices they may stand, and must agree with them:

    dimension 2              # of the cells
    axes 3                   # of the vertices
    version 2                # of the file, 1 or 2

Exit status: 0 done; 1 bad text or file, with its line; 2 wrong usage.
"""

import pathlib
import random
import struct
import sys

REASONS = pathlib.Path(__file__).resolve().parents[1] / "docs" / "refusals.txt"
KINDS = {"slide": 1, "slant": 2, "turn": 3}
NUMBERS = {"slide": "an axis and an amount", "slant": "an axis and an amount, twice", "turn": "cosine, sine and rise"}
SAID = {"dimension": ("D", "cell"), "axes": ("N", "vertex")}  # what a line says where there is no such part


class Bad(Exception):
    """Bad text or file: a message, and the line where it is."""

    def __init__(self, message, line=None):
        super().__init__(message if line is None else f"line {line}: {message}")


def reasons():
    """What each refusal means, by its number as a word."""
    return dict(line.split("\t") for line in REASONS.read_text().splitlines())


def refused(number, where=""):
    """Bad by the refusal of that number."""
    return Bad(f"{where}refused {number}: {reasons()[number]}")


def whole(word, line, most=65535):
    if not word.isdecimal() or int(word) > most:
        raise Bad(f"{word!r} is no whole number from 0 to {most}", line)
    return int(word)


def decimal(word, line):
    try:
        return float.fromhex(word) if "0x" in word.lower() else float(word)
    except ValueError:
        raise Bad(f"{word!r} is no number", line) from None


def parse_step(words, line):
    """The step's kind, its two axis bytes and its three floats."""
    kind, rest = words[0], words[1:]
    wanted = {"slide": 2, "slant": 4, "turn": 3}[kind]
    if len(rest) != wanted:
        raise Bad(f"{kind} takes {NUMBERS[kind]}", line)
    if kind == "turn":
        return 3, (0, 0), tuple(decimal(w, line) for w in rest)
    axes = tuple(whole(w, line, 255) for w in rest[::2])
    amounts = tuple(decimal(w, line) for w in rest[1::2])
    return KINDS[kind], axes + (0,) * (2 - len(axes)), amounts + (0.0,) * (3 - len(amounts))


def agreed(name, said, found):
    """A number that a line of its own says, or the first cell or vertex shows, each with its line: equal where both are."""
    letter, part = SAID[name]
    if said is None and found is None:
        raise Bad(f"no {part} in the text, and no line '{name} {letter}' in its place")
    if said is not None and found is not None and said[0] != found[0]:
        raise Bad(f"{name} {said[0]}, but the {part} in line {found[1]} makes it {found[0]}", said[1])
    return (said or found)[0]


def parse_cell(words, line):
    """A cell's sign, its vertices, and its material or None."""
    end = words.index(":") if ":" in words else len(words)
    if end == 1:
        raise Bad("a cell takes at least one vertex", line)
    if len(words) not in (end, end + 2):
        raise Bad("one material is wanted behind ':'", line)
    return words[0], [whole(w, line) for w in words[1:end]], whole(words[-1], line) if end < len(words) else None


def version_of(said, cells, lines):
    """The file's version: 2 if a cell has a material, or a line says so."""
    named = next((line for (_, _, material), line in zip(cells, lines) if material is not None), None)
    if said is None:
        return 1 if named is None else 2
    if said[0] == 1 and named is not None:
        raise Bad(f"version 1, but the cell in line {named} has a material", said[1])
    return said[0]


def parse(text):
    """Version, steps, step, dimension, axes, points and cells of a text."""
    steps = step = version = None
    said, found, lines = {}, {}, []  # dimension and axes, with their lines; the lines of cells
    points, cells = [], []
    for line, content in enumerate(text.splitlines(), 1):
        words = content.split("#")[0].split()
        if not words:
            continue
        head = words[0]
        if head == "steps":
            if steps is not None or len(words) != 2:
                raise Bad("one line 'steps COUNT' is wanted", line)
            steps = whole(words[1], line)
        elif head == "version":
            if version is not None or words[1:] not in (["1"], ["2"]):
                raise Bad("one line 'version 1' or 'version 2' is wanted", line)
            version = int(words[1]), line
        elif head in SAID:
            if head in said or len(words) != 2:
                raise Bad(f"one line '{head} {SAID[head][0]}' is wanted", line)
            said[head] = whole(words[1], line, 255), line
        elif head in KINDS:
            if step is not None:
                raise Bad("a second step", line)
            step = parse_step(words, line)
        elif head == "v":
            points.append([decimal(w, line) for w in words[1:]])
            if not points[-1]:
                raise Bad("a vertex takes at least one coordinate", line)
            if len(points[-1]) != len(points[0]):
                raise Bad(f"a vertex takes as many coordinates as the first, {len(points[0])}", line)
            found.setdefault("axes", (len(points[0]), line))
        elif head in "+-" and len(head) == 1:
            cells.append(parse_cell(words, line))
            lines.append(line)
            if len(cells[-1][1]) != len(cells[0][1]):
                raise Bad(f"a cell takes as many vertices as the first, {len(cells[0][1])}", line)
            found.setdefault("dimension", (len(cells[0][1]) - 1, line))
        else:
            raise Bad(f"{head!r} begins no line: steps, slide, slant, turn, dimension, axes, version, v, + or -", line)
    for name, part in (("steps", steps), ("step (slide, slant or turn)", step)):
        if part is None:
            raise Bad(f"no {name} in the text")
    d, n = (agreed(name, said.get(name), found.get(name)) for name in SAID)
    return version_of(version, cells, lines), steps, step, d, n, points, cells


def pack(text):
    """The file of a text. What the text says is kept, also where the program will refuse it."""
    version, steps, (kind, axes, floats), d, n, points, cells = parse(text)
    if d > 255 or n > 255 or len(points) > 65535 or len(cells) > 65535:
        raise Bad("too many vertices, cells or coordinates for a file")
    data = b"WNG" + struct.pack("<HBBHHHBBB3d", version, d, n, len(points), len(cells), steps, kind, *axes, *floats)
    data += b"".join(struct.pack(f"<{n}d", *p) for p in points)
    for sign, vertices, material in cells:
        words = [material or 0] * (version == 2) + vertices
        data += sign.encode() + struct.pack(f"<{len(words)}H", *words)
    return data


def unpack(data):
    """The text of a file."""
    if len(data) < 40 or data[:3] != b"WNG":
        raise refused("1")
    version, d, n, v, s, h, kind, a, b, x, y, z = struct.unpack_from("<HBBHHHBBB3d", data, 3)
    if version not in (1, 2):
        raise refused("1")
    words = d + version  # those of a cell: in version 2 a material, and its vertices
    size = 1 + 2 * words
    if kind not in (1, 2, 3):
        raise refused("2")
    if len(data) != 40 + 8 * v * n + s * size:
        raise refused("3")
    step = {1: f"slide {a} {x!r}", 2: f"slant {a} {x!r} {b} {y!r}", 3: f"turn {x!r} {y!r} {z!r}"}[kind]
    lines = [f"steps {h}", step] + [f"dimension {d}"] * (s == 0) + [f"axes {n}"] * (v == 0) + ["version 2"] * (s == 0 and version == 2)
    for p in range(v):
        lines.append("v " + " ".join(repr(c) for c in struct.unpack_from(f"<{n}d", data, 40 + 8 * n * p)))
    for p in range(s):
        at = 40 + 8 * v * n + p * size
        if data[at] not in b"+-":
            raise refused("6", f"cell {p}: ")
        found = struct.unpack_from(f"<{words}H", data, at + 1)
        lines.append(cell_line(data[at] == ord("+"), found[-d - 1:], found[0] if version == 2 else None))
    return "\n".join(lines) + "\n"


def cell_line(plus, vertices, material):
    """The line of a cell, with its material if it has one."""
    line = " ".join(["+" if plus else "-", *map(str, vertices)])
    return line if material is None else f"{line} : {material}"


def faces(sign, row):
    """The signed faces of an ascending cell; none in dimension 0."""
    return [((-1) ** i * sign, row[:i] + row[i + 1:]) for i in range(len(row))] if len(row) > 1 else []


def random_cells(d, v, s, rng):
    """Up to s cells of dimension d, grown face by face so that wing accepts them."""
    cells, taken, open_faces = [], set(), {}
    for _ in range(60 * s):
        if len(cells) == s:
            break
        row = sorted(rng.sample(range(v), d + 1))
        if cells and d and rng.random() < 0.8:
            _, near = rng.choice(cells)
            row = sorted(set(near[:-1]) | {rng.randrange(v)}) if rng.random() < 0.5 else sorted(set(near[1:]) | {rng.randrange(v)})
        row = tuple(row)
        if len(row) != d + 1 or row in taken:
            continue
        for sign in rng.sample((1, -1), 2):
            found = faces(sign, row)
            if all(open_faces.get(f, -t) == -t for t, f in found):
                cells.append((sign, row))
                taken.add(row)
                for t, f in found:
                    open_faces[f] = "full" if f in open_faces else t
                break
    return cells


def random_text(d, v, s, seed, materials=None):
    if not (d <= 6 and v <= 4096 and s <= 4096 and (s == 0 or d < v)):
        raise Bad("wanted: dimension 0 to 6, vertices and cells up to 4,096, and more vertices than the dimension where there are cells")
    if materials is not None and not 1 <= materials <= 1000:
        raise Bad("wanted: 1 to 1000 materials")
    rng = random.Random(seed)
    n = max(2, d + 1)  # flat on the last axis, which carries the slide
    named = "" if materials is None else f", {materials} materials"
    lines = [f"# dimension {d}, {v} vertices, up to {s} cells, seed {seed}{named}", "steps 1", f"slide {n - 1} 1.0"]
    lines += [f"dimension {d}"] * (s == 0) + [f"axes {n}"] * (v == 0) + ["version 2"] * (s == 0 and materials is not None)
    lines += ["v " + " ".join(str(rng.randrange(-999, 1000) / 8) for _ in range(n - 1)) + " 0.0" for _ in range(v)]
    cells = random_cells(d, v, s, rng)
    lines += [cell_line(sign > 0, row, None if materials is None else rng.randrange(materials)) for sign, row in cells]
    return "\n".join(lines) + "\n"


def load(path):
    if path is None or path == "-":
        return sys.stdin.buffer.read()
    with open(path, "rb") as file:
        return file.read()


def save(path, data):
    if path is None or path == "-":
        sys.stdout.buffer.write(data)
    else:
        with open(path, "wb") as file:
            file.write(data)


def main(words):
    path = lambda k: words[k] if len(words) > k else None
    if words == ["--help"]:
        print(__doc__.strip())
    elif words[:1] == ["pack"] and len(words) <= 3:
        try:
            text = load(path(1)).decode()
        except UnicodeDecodeError:
            raise Bad("the text is not UTF-8") from None
        save(path(2), pack(text))
    elif words[:1] == ["unpack"] and len(words) <= 3:
        save(path(2), unpack(load(path(1))).encode())
    elif words[:1] == ["explain"] and len(words) == 2 and words[1] in reasons():
        print(refused(words[1]))
    elif words[:1] == ["random"] and len(words) in (5, 6) and all(w.isdecimal() for w in words[1:]):
        save(None, random_text(*map(int, words[1:])).encode())
    else:
        print("solid.py: wrong usage; try solid.py --help", file=sys.stderr)
        return 2
    return 0


if __name__ == "__main__":
    try:
        sys.exit(main(sys.argv[1:]))
    except (Bad, OSError) as fault:
        print(f"solid.py: {fault}", file=sys.stderr)
        sys.exit(1)
