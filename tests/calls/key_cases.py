"""Cases for the key from C: files, good and damaged and at the limit of their length, with text enough and too little."""

import itertools
import struct

import solids
import winged_reference as reference
from byte_cases import said
from files import Case

KEY = 9
LIMIT = 65536  # bytes of the longest file, and of the longest text


def case(name, data, room):
    text = reference.key(data)
    row = 15 if room < len(text) else 0
    sent = struct.pack("<3Q", KEY, len(data), room) + data
    return Case(name, sent, said("printed", row or len(text), None if row else text, room, "buffer "), row)


def files(rng):
    good = solids.random_file(rng, 2)
    yield from (("no bytes", b""), ("a good file", good))
    cells = [reference.Cell(1, (0, 1), 0), reference.Cell(1, (1, 2), 999)]
    for version, material in itertools.product((1, 2), solids.MATERIALS + solids.BAD_MATERIALS):
        cells[0] = cells[0]._replace(material=material)
        data = solids.file_bytes(1, 2, 3, 2, reference.Slide(1, 0.5), [0.0, 0.0, 1.0, 0.0, 2.0, 0.0], cells, version)
        yield f"version {version}, material {material}", data
    square = [x for corner in ((0, 0), (1, 0), (0, 1), (1, 1)) for x in (*map(float, corner), -2.5)]
    triangles = [reference.Cell(1, (0, 1, 2), 7), reference.Cell(-1, (1, 2, 3), 42)]
    for version, (axis, amount) in itertools.product((1, 2), ((0, 1.0), (1, -1.0), (2, 0.0), (2, 2.0**-60), (2, 1.0), (2, -1.0))):
        data = solids.file_bytes(2, 3, 4, 2, reference.Slide(axis, amount), square, triangles, version)
        yield f"version {version}, a square slid by {amount} along axis {axis}", data
    for length in (39, 40, LIMIT - 1, LIMIT, LIMIT + 1, 3 * LIMIT):
        yield f"{length} bytes", good[:length] + b"\0" * (length - len(good))
    for row, data in solids.limit_files():
        yield f"row {row} of {len(data)} bytes", data
    for d, n, v, h, data in solids.empty_files():
        yield f"no cells: d {d} n {n} v {v} h {h}", data
    for number in range(400):
        data = solids.random_file(rng)
        yield f"random {number}", solids.damaged(data, rng) if rng.random() < 0.5 else data


def cases(rng):
    for name, data in files(rng):
        count = len(reference.key(data))
        for room in {0, count - 1, count, count + 3} | ({LIMIT} if name == "a good file" else set()):
            yield case(f"{name}, {room} bytes lent", data, room)
