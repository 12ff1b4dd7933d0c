"""Runs the program key on the samples in examples/, in small pieces, on inputs that fail, and with little stack.

usage: samples.py [PROGRAM]

Each sample's key must be the stored one, and the reference's; each text must pack to its file.
Last line: 'N passed, M failed'.
"""

import itertools
import math
import os
import random
import resource
import struct
import subprocess
import sys

from common import K1, PROGRAM, ROOT, check, key_of, reference, run, tally
from compare import edge_files

TOOL = [sys.executable, "-B", str(ROOT / "tools" / "solid.py")]
FILES = sorted((ROOT / "examples").glob("*/*.wng"))
STACK = 1 << 20  # bytes, as docs/man/key.1 says
ENVIRONMENT = 1 << 16  # bytes, which the system puts on that stack too
ROOM = 10**6
UNREAD = b"key: the input could not be read\n"
UNWRITTEN = b"key: the text could not be written\n"


def in_pieces(data, size):
    """What the program prints when its input comes in small pieces. It may stop reading before the end."""
    child = subprocess.Popen([PROGRAM], stdin=subprocess.PIPE, stdout=subprocess.PIPE)
    try:
        for at in range(0, len(data), size):
            child.stdin.write(data[at:at + size])
            child.stdin.flush()
        child.stdin.close()
    except BrokenPipeError:
        pass
    text = child.stdout.read()
    child.wait()
    return text


def check_samples():
    check("there are samples", len(FILES) >= 25)
    kinds, dimensions, versions, refusals = set(), set(), set(), set()
    for file in FILES:
        data, want = file.read_bytes(), key_of(file)
        check(f"{file}: the program's key", run([PROGRAM], data).stdout == want)
        check(f"{file}: the reference's key", reference.key(data) == want)
        if want.startswith(b"key"):
            kinds.add(data[13])
            dimensions.add(data[5])
            versions.add(data[3])
        else:
            refusals.add(int(want.split()[1]))
        text = file.with_suffix(".txt")
        if text.exists():
            check(f"{text}: packs to the file", run([*TOOL, "pack", text]).stdout == data)
            again = run([*TOOL, "unpack", file]).stdout
            check(f"{file}: its text packs to it again", run([*TOOL, "pack"], again).stdout == data)
    check("a sample for each kind of step", kinds == {1, 2, 3})
    check("a sample for each dimension", dimensions == set(range(7)))
    check("a sample for each version", versions == {1, 2})
    check("a sample for each refusal that reaches the program", refusals == {*range(1, 16), 17, 18} - {14})


def check_halves():
    """Among the samples are odd sixteenths that go up, and that go down, on both sides of zero, with both neighbours."""
    points = {x for file in FILES if file.parent.name == "halves" for x in reference.read(file.read_bytes(), ROOM, ROOM).points}
    ties = [x for x in points if abs(x) * 16 % 2 == 1 and {math.nextafter(x, -math.inf), math.nextafter(x, math.inf)} <= points]
    for side, lower in itertools.product((-1, 1), (0, 1)):
        some = [x for x in ties if x * side > 0 and math.floor(abs(x) * 1000) % 2 == lower]
        check(f"halves on side {side} above {('even', 'odd')[lower]} thousandths: {len(some)}", len(some) >= 4)


def check_empty():
    """Among the samples are nothing at all in each dimension, vertices alone, a cell without a vertex, and a lesson."""
    sizes = {file: struct.unpack_from("<BBHH", file.read_bytes(), 5) for file in FILES if len(file.read_bytes()) >= 40}
    accepted = {file: size for file, size in sizes.items() if key_of(file).startswith(b"key")}
    check("nothing at all in each dimension", {d for d, _, v, s in accepted.values() if v == s == 0} == set(range(7)))
    check("vertices without cells", any(v > 0 and s == 0 for _, _, v, s in accepted.values()))
    check("a cell without a vertex", [key_of(file) for file, (_, _, v, s) in sizes.items() if v == 0 < s] == [b"refused 2\n"])
    lesson = [size for file, size in sorted(sizes.items()) if file.name.startswith("lesson")]
    check("a lesson that begins with nothing", lesson[0][2:] == (0, 0) and lesson[1][2] > 0 == lesson[1][3])
    check("a lesson that adds to it", all(a[3] < b[3] for a, b in zip(lesson[1:], lesson[2:])) and len(lesson) >= 4)


def composite(f):
    """Whether a file read has two cells of different materials that share a face."""
    table = reference.wing(f.d, f.v, f.s, f.cells, ROOM, ROOM).written
    materials = [cell.material for cell in reference.table_cells(f.d, table)]
    wings = reference.table_wings(f.d, table)
    return any(materials[q] != materials[p] for p, row in enumerate(wings) for q in row if q != reference.EMPTY)


def check_materials():
    """Among the samples of version 2 are a composite one, one of material 0 alone, which prints materials all the same, and
    one without cells; the others are of version 1."""
    read = {file: reference.read(file.read_bytes(), ROOM, ROOM) for file in FILES if key_of(file).startswith(b"key")}
    named = {file: f for file, f in read.items() if f.version == 2}
    check("the folder of version 2", named and {file.parent.name for file in named} == {"materials"})
    check("a face between two materials", any(composite(f) for f in named.values() if f.s))
    check("no cells in version 2", any(f.s == 0 for f in named.values()))
    plain = [file for file, f in named.items() if f.s and not any(f.cells[1::reference.list_size(f.d)])]
    lines = [line.split() for file in plain for line in key_of(file).decode().splitlines() if line[0] in "+-"]
    check("material 0 alone, and printed", lines and all(line[-1] == "0" and len(line) == 2 + read[plain[0]].d + 1 for line in lines))


def check_own_plane():
    """Among the samples refused by 17 are a step along the solid and one that rounding swallows, and no other sample would be;
    of an accepted slant the second axis alone carries the step."""
    along, swallowed, second = [], [], []
    for file in FILES:
        f = reference.read(file.read_bytes(), ROOM, ROOM)
        if isinstance(f, reference.Refused):
            continue
        refused = reference.move(f.n, f.v, f.h, f.step, f.points, ROOM) == reference.Refused(17)
        check(f"{file}: a step that stays in its own plane is what it is for", refused == (file.stem[:2] == "17"))
        axes = reference.moved_axes(f.step, f.n)
        flat = [len(set(f.points[axis::f.n])) == 1 for axis in axes]
        if refused:
            along += [file] * (not any(flat))
            swallowed += [file] * (any(flat) and all(reference.step_floats(f.step)))
        elif f.v and len(axes) == 2:
            second += [file] * (flat == [False, True])
    check(f"along the solid {along}, swallowed {swallowed}, by a second axis {second}", along and swallowed and second)


def check_longer_records():
    """A sample of version 1 whose table fitted into the program's 65,536 bytes when its records had no material; all else of it
    fits. It is refused by 15; with a step less it is not."""
    file = ROOT / "examples" / "refused" / "15-longer-records.wng"
    f = reference.read(file.read_bytes(), ROOM, ROOM)
    cells, vertices = f.h * f.s * (f.d + 1), (f.h + 1) * f.v
    swept = reference.sweep(f.d, f.v, f.s, f.h, reference.wing(f.d, f.v, f.s, f.cells, ROOM, ROOM).written, ROOM).written
    levels = reference.move(f.n, f.v, f.h, f.step, f.points, ROOM).written
    text = reference.list_key(f.version, f.d + 1, f.n, vertices, cells, swept, levels, ROOM).written
    check("of version 1", f.version == 1)
    check("its table fitted, and fits no longer", 2 * (len(swept) - cells) <= 65536 < 2 * len(swept))
    check("its points and its text fit", 8 * len(levels) <= 65536 and len(text) <= 65536)
    less = bytearray(file.read_bytes())
    less[11] -= 1
    check("with a step less", run([PROGRAM], bytes(less)).stdout == reference.key(bytes(less)) != b"refused 15\n")


def check_pieces():
    check("a byte at a time", in_pieces(K1.read_bytes(), 1) == key_of(K1))
    long = ROOT / "examples" / "series" / "4-four-cube.wng"
    check("seven bytes at a time", in_pieces(long.read_bytes(), 7) == key_of(long))
    for length in (65536, 65537, 65538, 1000000):
        data = b"WNG" + bytes(length - 3)
        check(f"{length} bytes in pieces", in_pieces(data, 1000) == reference.key(data))


def check_endless():
    with open("/dev/zero", "rb") as zero:
        check("an endless file", run([PROGRAM], stdin=zero).stdout == b"refused 3\n")
    with subprocess.Popen(["cat", "/dev/zero"], stdout=subprocess.PIPE) as source:
        check("an endless pipe", run([PROGRAM], stdin=source.stdout).stdout == b"refused 3\n")
        source.stdout.close()


def check_failures():
    """A read that fails is not the end of the input, and prints no key; a write that fails is told."""
    folder = os.open("/", os.O_RDONLY)
    said = run([PROGRAM], stdin=folder)
    os.close(folder)
    check("a folder as input", (said.returncode, said.stdout, said.stderr) == (0, b"", UNREAD))
    said = run([PROGRAM], stdin=None, preexec_fn=lambda: os.close(0))
    check("a closed input", (said.returncode, said.stdout, said.stderr) == (0, b"", UNREAD))
    ends = os.pipe()
    os.set_blocking(ends[0], False)
    os.write(ends[1], K1.read_bytes())
    said = run([PROGRAM], stdin=ends[0])
    check("a pipe that does not wait, and is not closed", (said.returncode, said.stdout, said.stderr) == (0, b"", UNREAD))
    for end in ends:
        os.close(end)
    with open("/dev/full", "wb") as full:
        check("a full disk", run([PROGRAM], K1.read_bytes(), stdout=full).stderr == UNWRITTEN)
    said = run([PROGRAM], K1.read_bytes(), stdout=None, preexec_fn=lambda: os.close(1))
    check("a closed output", said.stderr == UNWRITTEN)


def check_stack():
    """The program keeps to the stack that it is said to take, at its limits and on every sample, beside a large environment."""
    limit = lambda: resource.setrlimit(resource.RLIMIT_STACK, (STACK, STACK))
    beside = {**os.environ, "PADDING": "x" * ENVIRONMENT}
    for data in [*edge_files(random.Random(1)), *(file.read_bytes() for file in FILES)]:
        said = run([PROGRAM], data, preexec_fn=limit, env=beside)
        check(f"{len(data)} bytes with {STACK} bytes of stack", (said.returncode, said.stdout) == (0, reference.key(data)))


def main():
    check_samples()
    check_halves()
    check_empty()
    check_materials()
    check_own_plane()
    check_longer_records()
    check_pieces()
    check_endless()
    check_failures()
    check_stack()
    return tally.finish()


if __name__ == "__main__":
    sys.exit(main())
