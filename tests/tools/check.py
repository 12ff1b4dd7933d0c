"""Checks the tutors' tool against the proved program.

usage: check.py [PROGRAM]

Random solids must be accepted, whatever their numbers; what the tool refuses it must explain with a line.
Last line: 'N passed, M failed'.
"""

import pathlib
import subprocess
import sys

sys.dont_write_bytecode = True
ROOT = pathlib.Path(__file__).resolve().parents[2]
sys.path[:0] = [str(ROOT / "tests"), str(ROOT / "tools")]
import solid  # noqa: E402
from tally import Tally  # noqa: E402

TOOL = [sys.executable, "-B", str(ROOT / "tools" / "solid.py")]
STEP = "steps 1\nslide 2 1.0\n"
EMPTY = STEP + "dimension 2\naxes 3\n"
GOOD = "steps 1\nslide 1 1.0\nv 0 0\nv 1 0\n+ 0 1\n"
NAMED = GOOD.replace("+ 0 1", "+ 0 1 : 7")
# a text, and what the tool must say of it
BAD = [
    ("", "no steps in the text"),
    (GOOD + "x 1\n", "line 6: 'x' begins no line"),
    (GOOD + "v 1\n", "line 6: a vertex takes as many coordinates as the first, 2"),
    (GOOD + "+ 1\n", "line 6: a cell takes as many vertices as the first, 2"),
    (GOOD + "v\n", "line 6: a vertex takes at least one coordinate"),
    (EMPTY + "+\n", "line 5: a cell takes at least one vertex"),
    (GOOD + "+ 1 b\n", "line 6: 'b' is no whole number"),
    (GOOD + "+ 1 65536\n", "line 6: '65536' is no whole number"),
    (GOOD + "steps 2\n", "line 6: one line 'steps COUNT'"),
    (GOOD + "slide 0 1\n", "line 6: a second step"),
    (GOOD.replace("slide 1 1.0", "slide 1"), "line 2: slide takes an axis and an amount"),
    (GOOD.replace("slide 1 1.0", "turn 1 0"), "line 2: turn takes cosine, sine and rise"),
    (GOOD.replace("v 1 0", "v 1 east"), "line 4: 'east' is no number"),
    (GOOD.replace("+ 0 1\n", ""), "no cell in the text, and no line 'dimension D' in its place"),
    (GOOD.replace("v 0 0\nv 1 0\n", ""), "no vertex in the text, and no line 'axes N' in its place"),
    (GOOD + "dimension 2\n", "line 6: dimension 2, but the cell in line 5 makes it 1"),
    ("axes 3\n" + GOOD, "line 1: axes 3, but the vertex in line 4 makes it 2"),
    (GOOD + "axes 2\naxes 2\n", "line 7: one line 'axes N' is wanted"),
    (GOOD + "dimension\n", "line 6: one line 'dimension D' is wanted"),
    (GOOD + "dimension 256\n", "line 6: '256' is no whole number from 0 to 255"),
    (EMPTY.replace("dimension 2\n", ""), "no cell in the text"),
    (EMPTY.replace("axes 3\n", ""), "no vertex in the text"),
    (NAMED.replace(": 7", ": seven"), "line 5: 'seven' is no whole number from 0 to 65535"),
    (NAMED.replace(": 7", ": -7"), "line 5: '-7' is no whole number from 0 to 65535"),
    (NAMED.replace(": 7", ": 65536"), "line 5: '65536' is no whole number from 0 to 65535"),
    (NAMED.replace(": 7", ":"), "line 5: one material is wanted behind ':'"),
    (NAMED.replace(": 7", ": 7 8"), "line 5: one material is wanted behind ':'"),
    (NAMED.replace(": 7", ": 7 : 8"), "line 5: one material is wanted behind ':'"),
    (NAMED.replace("+ 0 1 :", "+ :"), "line 5: a cell takes at least one vertex"),
    (NAMED + "+ 1 : 7\n", "line 6: a cell takes as many vertices as the first, 2"),
    (GOOD + "- 0 1 : 7\nversion 1\n", "line 7: version 1, but the cell in line 6 has a material"),
    (GOOD + "version 3\n", "line 6: one line 'version 1' or 'version 2' is wanted"),
    (GOOD + "version\n", "line 6: one line 'version 1' or 'version 2' is wanted"),
    (GOOD + "version 2\nversion 2\n", "line 7: one line 'version 1' or 'version 2' is wanted"),
]
# a text, and the lines that its file is unpacked to
SAID = [
    (EMPTY, "steps 1|slide 2 1.0|dimension 2|axes 3"),
    ("axes 3\ndimension 2\nv 0 1 2\n" + STEP, "steps 1|slide 2 1.0|dimension 2|v 0.0 1.0 2.0"),
    (EMPTY + "+ 0 1 2\n", "steps 1|slide 2 1.0|axes 3|+ 0 1 2"),
    (GOOD + "dimension 1\naxes 2\n", "steps 1|slide 1 1.0|v 0.0 0.0|v 1.0 0.0|+ 0 1"),
    (GOOD + "version 1\n", "steps 1|slide 1 1.0|v 0.0 0.0|v 1.0 0.0|+ 0 1"),
    (NAMED, "steps 1|slide 1 1.0|v 0.0 0.0|v 1.0 0.0|+ 0 1 : 7"),
    (NAMED + "- 1 0\n+ 0 1 : 999\n", "steps 1|slide 1 1.0|v 0.0 0.0|v 1.0 0.0|+ 0 1 : 7|- 1 0 : 0|+ 0 1 : 999"),
    (GOOD + "- 1 0 : 65535\n", "steps 1|slide 1 1.0|v 0.0 0.0|v 1.0 0.0|+ 0 1 : 0|- 1 0 : 65535"),
    (GOOD + "version 2\n", "steps 1|slide 1 1.0|v 0.0 0.0|v 1.0 0.0|+ 0 1 : 0"),
    (EMPTY + "version 2\n", "steps 1|slide 2 1.0|dimension 2|axes 3|version 2"),
    (EMPTY + "version 1\n", "steps 1|slide 2 1.0|dimension 2|axes 3"),
]
# a cell's line, and what its bytes are
BYTES = [("+ 0 1", b"+\0\0\1\0"), ("- 1 0 : 0", b"-\0\0\1\0\0\0"), ("+ 0 1 : 7", b"+\7\0\0\0\1\0"), ("+ 0 1 : 999", b"+\xe7\3\0\0\1\0")]
# a cell's line, and how what the program prints begins
PRINTED = [("+ 0 1", "key"), ("+ 0 1 : 999", "key"), ("+ 0 1 : 1000", "refused 18\n"), ("+ 0 1 : 65535", "refused 18\n")]
# a step, and how what the program prints begins: a step along the segment's own line, and one that rounding swallows, are 17
CARRIED = [("slide 1 1.0", "key"), ("slide 1 -1e-300", "key"), ("slide 0 1.0", "refused 17\n"), ("slide 1 0.0", "refused 17\n"),
           ("slant 0 1.0 1 0.5", "key"), ("slant 1 0.5 0 1.0", "key"), ("slant 0 1.0 1 -0.0", "refused 17\n")]
# a file that has no text, and the refusal that says why
HEAD = b"WNG\1\0\0\1\1\0\1\0\1\0"
HEAD2 = HEAD.replace(b"\1", b"\2", 1)
REFUSED = [(1, b""), (1, b"WNG"), (1, bytes(60)), (1, b"WNG\0" + bytes(60)), (1, b"WNG\3" + bytes(60)), (1, b"WNG\1\1" + bytes(60)),
           (2, HEAD + bytes(38)), (3, HEAD + b"\1" + bytes(36)), (6, HEAD + b"\1" + bytes(37)),
           (2, HEAD2 + bytes(40)), (3, HEAD2 + b"\1" + bytes(37)), (6, HEAD2 + b"\1" + bytes(39))]
USAGE = ([], ["pack", "a", "b", "c"], ["explain"], ["explain", "0"], ["explain", "16"], ["random", "1", "2", "3"],
         ["random", "a", "2", "3", "4"], ["random", "1", "2", "3", "4", "a"], ["random", "1", "2", "3", "4", "5", "6"])
RANDOM = [(d, v, s, seed) for d in range(7) for v, s in ((0, 0), (1, 0), (d + 1, 1), (d + 3, 6), (40, 30), (60, 20)) for seed in (1, 2)]
RANDOM += [(d, v, s, 3, m) for d in range(7) for v, s in ((0, 0), (40, 30)) for m in (3, 1000)]
MANY = [(d, v, s, seed) for seed in range(100, 106) for d in range(7) for v, s in ((2, 0), (d + 2, 2), (d + 5, 8), (50, 12))]
UNFIT = [(7, 0, 0, 1), (0, 4097, 0, 1), (0, 1, 4097, 1), (0, 0, 1, 1), (3, 3, 1, 1)]
UNFIT_MATERIALS = [(2, 9, 5, 1, 0), (2, 9, 5, 1, 1001)]

tally = Tally()
check = tally.check


def run(words, data=b""):
    return subprocess.run(words, input=data, stdout=subprocess.PIPE, stderr=subprocess.PIPE, check=False)


def check_random(program, numbers):
    """A random solid is accepted, the same each time, and of the version and materials that were asked for."""
    text = run([*TOOL, "random", *map(str, numbers)]).stdout
    file = run([*TOOL, "pack"], text).stdout
    check(f"random {numbers}: accepted", run([program], file).stdout.startswith(b"key "))
    check(f"random {numbers}: the same again", run([*TOOL, "random", *map(str, numbers)]).stdout == text)
    check(f"random {numbers}: there and back", run([*TOOL, "pack"], run([*TOOL, "unpack"], file).stdout).stdout == file)
    named = numbers[4:]
    check(f"random {numbers}: version", file[3] == (2 if named else 1))
    lines = [line for line in text.decode().splitlines() if line[0] in "+-"]
    materials = {int(line.split(" : ")[1]) for line in lines if ":" in line}
    check(f"random {numbers}: materials", bool(materials) == bool(named and lines) and all(m < named[0] for m in materials))
    if named:
        plain = run([*TOOL, "random", *map(str, numbers[:4])]).stdout.decode().splitlines()
        check(f"random {numbers}: the same cells", lines == [] or [x.split(" :")[0] for x in lines] == plain[-len(lines):])


def check_many(program):
    """Random solids leave their own plane: each is accepted, and flat on the axis that it is slid along, and on no other."""
    for numbers in MANY:
        text = solid.random_text(*numbers)
        said = run([program], solid.pack(text)).stdout
        check(f"random {numbers}: its step, {said[:20]}", said.startswith(b"key "))
        _, _, (_, (axis, _), _), _, n, points, _ = solid.parse(text)
        flat = [k for k in range(n) if len({point[k] for point in points}) == 1]
        check(f"random {numbers}: flat on {flat} and slid on {axis}", flat == [axis])


def main():
    program = sys.argv[1] if len(sys.argv) > 1 else str(ROOT / "target" / "bin" / "key")
    for numbers in RANDOM:
        check_random(program, numbers)
    check_many(program)
    for text, message in BAD:
        done = run([*TOOL, "pack"], text.encode())
        check(f"bad text: {message}", done.returncode == 1 and done.stdout == b"" and message in done.stderr.decode())
    for text, lines in SAID:
        file = run([*TOOL, "pack"], text.encode()).stdout
        check(f"said: {lines}", run([*TOOL, "unpack"], file).stdout.decode() == lines.replace("|", "\n") + "\n")
        check(f"said, and packed again: {lines}", run([*TOOL, "pack"], lines.replace("|", "\n").encode()).stdout == file)
    for line, data in BYTES:
        file = run([*TOOL, "pack"], GOOD.replace("+ 0 1", line).encode()).stdout
        check(f"bytes: {line}", file[72:] == data and file[3] == (2 if ":" in line else 1))
    for line, start in PRINTED:
        file = run([*TOOL, "pack"], GOOD.replace("+ 0 1", line).encode()).stdout
        check(f"printed: {line}", run([program], file).stdout.decode().startswith(start))
    for step, start in CARRIED:
        file = run([*TOOL, "pack"], GOOD.replace("slide 1 1.0", step).encode()).stdout
        check(f"printed: {step}", run([program], file).stdout.decode().startswith(start))
    for numbers, told in [(n, b"wanted: dimension") for n in UNFIT] + [(n, b"wanted: 1 to 1000 materials") for n in UNFIT_MATERIALS]:
        done = run([*TOOL, "random", *map(str, numbers)])
        check(f"random {numbers}: not to be had", done.returncode == 1 and done.stdout == b"" and told in done.stderr)
    for number, data in REFUSED:
        done = run([*TOOL, "unpack"], data)
        check(f"no file: {data[:14]!r}", done.returncode == 1 and done.stdout == b"" and f"refused {number}: ".encode() in done.stderr)
    for words in USAGE:
        done = run([*TOOL, *words])
        check(f"wrong usage: {words}", done.returncode == 2 and b"--help" in done.stderr)
    for line in (ROOT / "docs" / "refusals.txt").read_text().splitlines():
        number, reason = line.split("\t")
        done = run([*TOOL, "explain", number])
        check(f"explain {number}", (done.returncode, done.stdout) == (0, f"refused {number}: {reason}\n".encode()))
    check("--help", run([*TOOL, "--help"]).stdout.startswith(b"Solids written by hand"))
    return tally.finish()


if __name__ == "__main__":
    sys.exit(main())
