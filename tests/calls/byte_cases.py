"""Cases by bytes: lengths that are no whole number of words or floats, a short header, the version behind it, and a step
told by numbers that the other cases do not send."""

import itertools
import struct

import winged_reference as reference
from files import MINUS_ZERO, Case, Solid, bits_of
from list_cases import plain, strip, table_of
from winged_reference import Slant, Slide, Turn

MOVE, READ, LIST = 6, 7, 8
MARK = b"\xa5"
ONE = bits_of(1.0)


def said(word, answer, written, room, last):
    """The answer's line, and a buffer after the call."""
    first = f"refused {answer}" if written is None else f"{word} {answer}"
    written = written or b""
    return f"{first}\n{last}{(written + MARK * (room - len(written))).hex()}"


def as_floats(floats):
    return struct.pack(f"<{len(floats)}d", *floats)


STEPS = {1: (Slide(1, 1.0), (1, 0), (ONE, 0, 0)), 2: (Slant(2, 1.0, 0, -1.0), (2, 0), (ONE, bits_of(-1.0), 0)),
         3: (Turn(0.6, 0.8, 1.0), (0, 0), (bits_of(0.6), bits_of(0.8), ONE))}


def move(name, kind, row, axes=None, bits=None, more=b"", room=48 * 3):
    """Two points of three axes, flat on the last two, moved twice. Those whose row is not 0 are refused for it alone."""
    step, its_axes, its_bits = STEPS.get(kind, STEPS[1])
    points = [0.5, -1.25, 3.0, 0.0, -1.25, 3.0]
    data = as_floats(points) + more
    if more.startswith(b"-"):
        data = data[:48 - len(more)]
    sent = struct.pack("<12Q", MOVE, kind, *(axes or its_axes), *(bits or its_bits), 3, 2, 2, len(data), room) + data
    if row:
        return Case(name, sent, said("moved", row, None, room, "buffer "), row)
    answer = reference.move(3, 2, 2, step, points, room // 8)
    return Case(name, sent, said("moved", answer.count, as_floats(answer.written), room, "buffer "), 0)


def moves():
    for kind in STEPS:
        yield move(f"kind {kind} by bytes", kind, 0)
        yield move(f"kind {kind}, a byte of room too few", kind, 15, room=143)
        yield move(f"kind {kind}, seven bytes of room over", kind, 0, room=151)
        for more in (b"\0", b"\0" * 7, b"\0" * 8, b"-", b"-------"):
            yield move(f"kind {kind}, points and {more}", kind, 3, more=more)
    for kind in (0, 4, 255, 2**32 - 1, 2**64 - 1):
        yield move(f"kind {kind}", kind, 2)
    for bit in (1, MINUS_ZERO, ONE, 0x7FF8000000000000):
        yield move(f"slide, second float {bit:x}", 1, 5, bits=(ONE, bit, 0))
        yield move(f"slide, third float {bit:x}", 1, 5, bits=(ONE, 0, bit))
        yield move(f"slant, third float {bit:x}", 2, 5, bits=(ONE, ONE, bit))
    rise = STEPS[3][2][:2]
    for bit, room in itertools.product((0, MINUS_ZERO, 1), (143, 144)):
        yield move(f"slide by {bit:x}, {room} bytes", 1, 17, bits=(bit, 0, 0), room=room)
        yield move(f"slant by {bit:x} on a flat axis, {room} bytes", 2, 17, bits=(bit, ONE, 0), room=room)
        yield move(f"turn with rise {bit:x}, {room} bytes", 3, 17, bits=(*rise, bit), room=room)
    yield move("slide on an axis that is not flat", 1, 17, axes=(0, 0))
    yield move("slant, its flat axis by 0", 2, 17, axes=(0, 1), bits=(ONE, 0, 0))
    for axis in (1, 2, 255, 2**32 - 1):
        yield move(f"slide, second axis {axis}", 1, 5, axes=(1, axis))
        yield move(f"turn, first axis {axis}", 3, 5, axes=(axis, 0))
        yield move(f"turn, second axis {axis}", 3, 5, axes=(0, axis))


def read(name, header, cells, points, row, solid=None):
    """A small file read to buffers of so many bytes more than it needs."""
    solid = solid or Solid()
    data = solid.data()
    rooms = (42 + header, 2 * solid.s * (solid.d + 3) + cells, 8 * solid.v * solid.n + points)
    sent = struct.pack("<5Q", READ, len(data), *rooms) + data
    if row:
        lines = [f"refused {row}", *((MARK * room).hex() for room in rooms)]
    else:
        a = reference.read(data, 1 << 20, 1 << 20)
        numbers = struct.pack("<8H3QH", a.d, a.n, a.v, a.s, a.h, solid.kind, *solid.axes, *solid.floats, solid.version)
        parts = (numbers, struct.pack(f"<{len(a.cells)}H", *a.cells), struct.pack(f"<{len(solid.points)}Q", *solid.points))
        lines = [f"read {len(a.cells)}", *((part + MARK * (room - len(part))).hex() for part, room in zip(parts, rooms))]
    lines[3] = "behind " + lines[3]
    return Case(name, sent, "\n".join(lines), row)


def reads():
    for version, header in itertools.product((1, 2), (-42, -2, -1, 0, 1, 2, 24)):
        for cells in (-2, -1, 0, 1, 2):
            for points in (-8, -1, 0, 1, 7, 8):
                row = 15 if min(header, cells, points) < 0 else 0
                solid = Solid(version=version)
                yield read(f"version {version}: {header}, {cells}, {points} bytes over", header, cells, points, row, solid)
    for version, (kind, (_, axes, bits)) in itertools.product((1, 2), STEPS.items()):
        solid = Solid(version=version, kind=kind, axes=axes).set(floats=list(bits))
        solid.points[0] = MINUS_ZERO
        yield read(f"kind {kind} of version {version} by bytes", 0, 0, 0, 0, solid)
    for version, d, v in itertools.product((1, 2), range(7), (0, 2)):
        solid = Solid(version=version, d=d, n=d + 1, v=v, s=0)
        for header, cells, points in ((0, 0, 0), (0, 1, 7), (-1, 0, 0), (-2, 0, 0), (-42, 0, 0), *[(0, 0, -1)] * (v > 0)):
            row = 15 if min(header, points) < 0 else 0
            name = f"no cells: version {version} d {d} v {v}, {header}, {cells}, {points} bytes over"
            yield read(name, header, cells, points, row, solid)
    yield read("no header's room, and a vertex too high", -1, 0, 0, 7, with_cell_word(2, 5))
    yield read("no header's room, and a material too great", -1, 0, 0, 18, with_cell_word(1, 1000))


def with_cell_word(place, word):
    solid = Solid()
    solid.cells[1][place] = word
    return solid


def lists():
    words, floats = table_of(2, 5, strip(2, 3)), plain(15)
    table, points = struct.pack("<24H", *words), as_floats(floats)
    for version, (name, t, p, row) in itertools.product((1, 2), (
            ("whole", table, points, 0), ("a byte over", table + b"\0", points, 3), ("a byte short", table[:-1], points, 3),
            ("points and a byte", table, points + b"\0", 3), ("points, a byte short", table, points[:-1], 3),
            ("points and seven bytes", table, points + b"\0" * 7, 3), ("no bytes", b"", b"", 3))):
        answer = reference.list_key(version, 2, 3, 5, 3, words, floats, 1 << 20)
        room = answer.count + 3
        sent = struct.pack("<9Q", LIST, version, 2, 3, 5, 3, len(t), len(p), room) + t + p
        wanted = said("listed", row or answer.count, None if row else answer.written, room, "buffer ")
        yield Case(f"version {version}, {name}", sent, wanted, row)
