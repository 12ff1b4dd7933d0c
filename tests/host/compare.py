"""Compares wing, sweep and faces, called from C, with the unrelated reference.

usage: compare.py DRIVER [SEED]

DRIVER is tests/host/driver.c linked with the library. Random solids and tables of dimension 0 to 7, damaged ones,
both sides of every limit, cells in every order of their vertices, materials, and two faults at once. Every buffer is
compared byte for byte, wing's further one too, also after a refusal.
Last line: 'N passed, M failed'.
"""

import collections
import itertools
import math
import os
import random
import struct
import subprocess
import sys

TESTS = os.path.dirname(os.path.dirname(os.path.abspath(__file__)))
sys.path[:0] = [TESTS, os.path.join(TESTS, "reference")]
import solids  # noqa: E402
import winged_reference as reference  # noqa: E402
from tally import Tally, rows  # noqa: E402
from winged_reference import EMPTY, Cell  # noqa: E402

FRESH = b"\xa5"
WING, SWEEP, FACES = 1, 2, 3
NAMES = {WING: "wing", SWEEP: "sweep", FACES: "faces"}
ROWS = {WING: {2, 3, 6, 7, 8, 18, 9, 10, 11, 15}, SWEEP: {2, 3, 12, 14, 15}, FACES: {2, 3, 14, 15}}
ORDER = (2, 3, 6, 7, 8, 18, 9, 10, 11, 12, 14, 15)  # in which they are tried

# What is lent: the room for the answer, and for wing that of the further buffer. The row that a request is made for, 0 for
# accepted, or None where only the reference tells.
Request = collections.namedtuple("Request", "call d v s h data room further row", defaults=(0, None))


def as_bytes(words):
    return struct.pack(f"<{len(words)}H", *words)


def expected(r):
    """The reference's result, and both output buffers after the call."""
    further = b""
    if r.call == WING:
        result, written, further = reference.c_wing(r.d, r.v, r.s, r.data, r.room, r.further)
    elif r.call == SWEEP:
        result, written = reference.c_sweep(r.d, r.v, r.s, r.h, r.data, r.room)
    else:
        result, written = reference.c_faces(r.d, r.v, r.s, r.data, r.room)
    return result, written + FRESH * (r.room - len(written)), further + FRESH * (r.further - len(further))


def table_of(d, v, s, words):
    """The table of a list of cells, or None."""
    answer = reference.wing(d, v, s, words, 1 << 17, 1 << 17)
    return None if isinstance(answer, reference.Refused) else answer.written


def damaged_list(words, d, v, s, rng):
    """A list of cells with one or two faults, of the same length."""
    words, size = list(words), reference.list_size(d)
    for _ in range(rng.randint(1, 2)):
        place = rng.randrange(len(words))
        if place % size == 0:
            words[place] = rng.choice((0, 1, 2, 43, 65535))
        elif place % size == 1:
            words[place] = rng.choice(solids.MATERIALS + solids.BAD_MATERIALS)
        else:
            words[place] = rng.choice((0, v - 1, v, 65535, rng.randrange(v), words[place - 1]))
        if rng.random() < 0.2:
            p, q = rng.randrange(s) * size, rng.randrange(s) * size
            words[p:p + size] = words[q:q + size]
    return words


def with_numbers(r, rng):
    """The request with one number at the edge of its limits."""
    field, values = rng.choice((
        ("d", (7, 8, 6, 255, 2**32 - 1)), ("v", (0, 1, 4096, 4097, 65536, 2**32 - 1)),
        ("s", (0, 1, 4096, 4097, 65536, 2**32 - 1)), ("h", (0, 64, 65, 2**32 - 1))))
    return r._replace(**{field: rng.choice(values)})


def with_length(r, rng):
    """The request with an input of another length."""
    return r._replace(data=rng.choice((r.data[:-2], r.data[:-1], r.data + b"\0", r.data + b"\0\0", b"")))


def needs(d, s):
    """The bytes of a table, and of the wings in uploaded order."""
    return 2 * s * reference.record_size(d), 2 * s * (d + 1)


def with_room(r, rng):
    """The request with the room that its answer needs, a little more or a little less, in each buffer."""
    def about(need):
        return max(0, need + rng.choice((0, 0, 1, 2, 7, -1, -2, -need)))
    result, _, _ = expected(r._replace(room=1 << 18, further=1 << 18))
    room, further = (2 * result, needs(r.d, r.s)[1]) if result > 0 else (64, 64)
    return r._replace(room=about(room), further=about(further) if r.call == WING else 0)


def faulty(r, rng):
    """The request with no, one or two faults of its frame."""
    for change in rng.choice(((), (), (with_numbers,), (with_length,), (with_numbers, with_length), (with_length, with_room))):
        r = change(r, rng)
    return r


def requests_for(d, v, cells, rng):
    """Wing, sweep and faces of one solid, good and damaged."""
    s = len(cells)
    words = solids.cell_words(solids.shuffled(cells, rng, rng.random() < 0.9))
    if rng.random() < 0.4:
        words = damaged_list(words, d, v, s, rng)
    yield with_room(Request(WING, d, v, s, 1, as_bytes(words), 0), rng)
    yield faulty(with_room(Request(WING, d, v, s, 1, as_bytes(words), 0), rng), rng)
    table = table_of(d, v, s, solids.cell_words(cells))
    if table is None:
        return
    bad = solids.damaged_table(table, d, v, s, rng)
    h = rng.choice((1, 1, 2, 3, 5, 64))
    for t in (table, bad):
        yield faulty(with_room(Request(SWEEP, d, v, s, h, as_bytes(t), 0), rng), rng)
        yield faulty(with_room(Request(FACES, d, v, s, h, as_bytes(t), 0), rng), rng)


def wing_request(d, v, cells, more=0, further=0, row=None):
    """Wing of cells, lent so many bytes more than it needs in each buffer, or fewer."""
    lent = [max(0, need + extra) for need, extra in zip(needs(d, len(cells)), (more, further))]
    return Request(WING, d, v, len(cells), 1, as_bytes(solids.cell_words(cells)), *lent, row)


def edge_requests(rng):
    """Requests at the limits: as many vertices and cells as there may be."""
    for d in range(8):
        v = 4096
        cells = [Cell(1, tuple(range(p, p + d + 1)), p % 1000) for p in range(0, 4096 - d, max(1, 2 * d))]
        yield wing_request(d, v, cells)
        table = table_of(d, v, len(cells), solids.cell_words(cells))
        yield Request(FACES, d, v, len(cells), 1, as_bytes(table), 1 << 19)
        yield Request(SWEEP, d, v, len(cells), 1, as_bytes(table), 1 << 19)
    yield wing_request(0, 4096, [Cell(1, (p,), 999 - p % 1000) for p in range(4096)], 1 << 18, 1 << 18)
    for v, h in ((2048, 1), (2049, 1), (1366, 2), (1365, 2), (63, 64), (64, 64)):
        yield Request(SWEEP, 0, v, 1, h, as_bytes([0, 999, 0, EMPTY]), 1 << 19)
    for d, equal in itertools.product(range(1, 8), (0, 1)):
        cells = strip(d, 4096 - d, d + 1 + equal)
        yield wing_request(d, 4096, solids.shuffled(cells, rng), 1 << 18, 1 << 18, row=11 * equal)


def strip(d, s, turns=None):
    """Cells in a row, each the next one's neighbour, of many materials; the signs alternate by so many turns a cell: where
    these are not d + 1, they are equal where two meet."""
    turns = d + 1 if turns is None else turns
    return [Cell((-1) ** (p * turns), tuple(range(p, p + d + 1)), p * 37 % 1000) for p in range(s)]


def spheres(d, count):
    """Surfaces of simplices side by side: a cell has a neighbour at each face, each another. In dimension 0 points."""
    return [Cell((-1) ** i, tuple(first + x for x in range(d + 2) if x != i), (first * 7 + i * 111) % 1000)
            for first in range(0, count * (d + 2), d + 2) for i in range(d + 2)]


def every_order():
    """Spheres whose cells take turns through all orders of their vertices, the signs following."""
    for d in range(8):
        orders, left = itertools.cycle(itertools.permutations(range(d + 1))), math.factorial(d + 1)
        while left > 0:
            cells = []
            for cell in spheres(d, min(4096 // (d + 2), 1 + left // (d + 2))):
                order = [cell.vertices[i] for i in next(orders)]
                cells.append(Cell(reference.ascending(cell.sign, order)[0], order, cell.material))
            left -= len(cells)
            yield wing_request(d, 4096, cells)


def rooms(rng):
    """Both buffers of wing just long enough, longer and shorter, by bytes and by words, each with each."""
    for d in range(8):
        cells = solids.shuffled(spheres(d, 2), rng)
        for more, further in itertools.product((-(1 << 18), -3, -2, -1, 0, 1, 2, 7), repeat=2):
            yield wing_request(d, 2 * d + 4, cells, more, further)


def with_word(words, place, word):
    return words[:place] + [word] + words[place + 1:]


def materials():
    """A material on both sides of its limit in the first, a middle or the last cell: of a list, 18 where it is too great;
    of a table, 14."""
    for d, p, material in itertools.product(range(8), (0, 2, 4), (*solids.MATERIALS, *solids.BAD_MATERIALS, 100, 65534)):
        cells, v, good = strip(d, 5), d + 5, material <= 999
        table = table_of(d, v, 5, solids.cell_words(cells))
        cells[p] = cells[p]._replace(material=material)
        yield wing_request(d, v, cells, row=0 if good else 18)
        data = as_bytes(with_word(table, p * reference.record_size(d) + 1, material))
        yield Request(FACES, d, v, 5, 1, data, 4096, row=0 if good else 14)
        if d < 7:
            yield Request(SWEEP, d, v, 5, 2, data, 4096, row=0 if good else 14)


# A row, and the words that make it apply to 14 triangles apart from one another, by cell and place. No two faults are at
# the same word.
FAULTS = [
    (6, {(0, 0): 2}), (6, {(13, 0): 65535}), (7, {(1, 2): 60}), (7, {(13, 4): 65535}), (8, {(2, 4): 6}), (8, {(12, 2): 37}),
    (18, {(0, 1): 65535}), (18, {(3, 1): 1000}), (18, {(13, 1): 1001}), (9, {(4, 2): 17, (4, 3): 16, (4, 4): 15}),
    (10, {(p, 2 + k): 50 + k for p in (6, 7, 8) for k in (0, 1)}), (11, {(p, 2 + k): 53 + k for p in (9, 10) for k in (0, 1)}),
]


def two_faults():
    """The first row that applies in their order, which is not that of their numbers: no fault, one, two and three; with room
    and without."""
    size = reference.list_size(2)
    for chosen in itertools.chain.from_iterable(itertools.combinations(FAULTS, count) for count in range(4)):
        words = solids.cell_words([Cell(1, (3 * p, 3 * p + 1, 3 * p + 2), 71 * p) for p in range(14)])
        for (p, k), word in itertools.chain.from_iterable(places.items() for _, places in chosen):
            words[p * size + k] = word
        found = sorted((row for row, _ in chosen), key=ORDER.index)
        table, uploaded = needs(2, 14)
        for lent in ((table, uploaded), (table - 1, uploaded), (table, uploaded - 1)):
            row = (found + [15] * (lent != (table, uploaded)) + [0])[0]
            yield Request(WING, 2, 60, 14, 1, as_bytes(words), *lent, row)


def no_cells():
    """Solids without cells, lent no room and some; a word too many; and a cell without a vertex."""
    for d, (v, h) in itertools.product(range(8), solids.empty_sizes()):
        for call, data, room in itertools.product(NAMES, (b"", b"\0", b"\0\0"), (0, 1, 2, 7)):
            for further in (0, 1, 8) if call == WING else (0,):
                yield Request(call, d, v, 0, h, data, room, further)
    for call, d, data in itertools.product(NAMES, range(8), (b"", bytes(6))):
        yield Request(call, d, 0, 1, 1, data, 64, 64 if call == WING else 0)


def all_requests(rng):
    yield from edge_requests(rng)
    yield from every_order()
    yield from rooms(rng)
    yield from materials()
    yield from two_faults()
    yield from no_cells()
    for _ in range(1500):
        d = rng.choice((0, 1, 1, 2, 2, 3, 3, 4, 5, 6, 7))
        v, cells = solids.small_solid(d, rng)
        yield from requests_for(d, v, cells, rng)


def ask(driver, requests):
    """The driver's answers: (result, output buffer, further buffer) for each request."""
    sent = b"".join(
        struct.pack("<8I", r.call, r.d, r.v, r.s, r.h, len(r.data), r.room, r.further) + r.data for r in requests)
    done = subprocess.run([driver], input=sent, stdout=subprocess.PIPE, check=False)
    if done.returncode != 0:
        print(f"driver: exit status {done.returncode}")
        return None
    answers, at = [], 0
    for r in requests:
        (result,) = struct.unpack_from("<q", done.stdout, at)
        out, further = at + 8, at + 8 + r.room
        at = further + r.further
        answers.append((result, done.stdout[out:further], done.stdout[further:at]))
    return answers


def main():
    rng = random.Random(int(sys.argv[2]) if len(sys.argv) > 2 else 20260)
    requests = list(all_requests(rng))
    answers = ask(sys.argv[1], requests)
    tally = Tally(shown=10)
    if answers is None:
        tally.check("the host answers", False)
        return tally.finish()
    hit = {call: collections.Counter() for call in NAMES}
    for r, got in zip(requests, answers):
        want = expected(r)
        hit[r.call][-want[0] if want[0] < 0 else 0] += 1
        lent = f"room {r.room}, {r.further}" if r.call == WING else f"room {r.room}"
        tally.check(f"{NAMES[r.call]} d {r.d} v {r.v} s {r.s} h {r.h} input {len(r.data)} {lent}: "
                    f"got {got[0]}, want {want[0]}{'' if got[0] != want[0] else ', other bytes'}", got == want)
        if r.row is not None:
            tally.check(f"{NAMES[r.call]}: made for {r.row}, and the reference says {want[0]}", -min(want[0], 0) == r.row)
    for call, wanted in ROWS.items():
        missing = (wanted | {0}) - set(hit[call])
        tally.check(f"{NAMES[call]}: no request for {sorted(missing)}", not missing)
        print(f"{NAMES[call]}: {rows(hit[call])}")
    return tally.finish()


if __name__ == "__main__":
    sys.exit(main())
