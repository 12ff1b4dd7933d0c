"""Compares the program key with the unrelated reference.

usage: compare.py [PROGRAM [SEED]]

Thousands of random files of both versions, good and damaged, files at the limits, and files without cells of every
dimension and step. Last line: 'N passed, M failed'.
"""

import collections
import random
import subprocess
import sys

from common import PROGRAM, reference, solids
from tally import Tally

FILES = 3000
# row 14 cannot come out of the program: it lists only tables that it made
OUTCOMES = {"key"} | {f"refused {n}" for n in (*range(1, 16), 17, 18) if n != 14}
LEAST = {"key": FILES // 2, "refused 17": FILES // 30}  # so that row 17 neither hides the rest nor is rare


def edge_files(rng):
    """Inputs at the program's limits: empty, 65,536 bytes and one more, long ones, and those with tables as long."""
    yield b""
    good = solids.random_file(rng, 2)
    for length in (39, 40, 65535, 65536, 65537, 200000):
        yield good[:length] + b"\0" * (length - len(good))
    # good files of 8 axes: one of just under 65,536 bytes, with too many points for a key, and one with nearly the longest key
    for v, s in ((1000, 300), (512, 400)):
        cells = [reference.Cell(1, (p,), p) for p in range(s)]
        points = solids.flat_on([rng.uniform(-9, 9) for _ in range(8 * v)], 8, 7, -8.125)
        for version in (1, 2):
            yield solids.file_bytes(0, 8, v, 1, reference.Slide(7, 1.0), points, cells, version)
    yield from (data for _, data in solids.limit_files())


def files(rng):
    yield from edge_files(rng)
    yield from (data for *_, data in solids.empty_files())
    for _ in range(FILES):
        data = solids.random_file(rng)
        yield solids.damaged(data, rng) if rng.random() < 0.6 else data


def outcome(text):
    return text.decode().strip() if text.startswith(b"refused") else "key"


def main():
    rng = random.Random(int(sys.argv[2]) if len(sys.argv) > 2 else 20261)
    tally = Tally(shown=10)
    seen = collections.Counter()
    for number, data in enumerate(files(rng)):
        want = reference.key(data)
        got = subprocess.run([PROGRAM], input=data, stdout=subprocess.PIPE, check=False).stdout
        seen[outcome(want)] += 1
        tally.check(f"file {number} of {len(data)} bytes: got {got[:60]!r}, want {want[:60]!r}", got == want)
    missing = OUTCOMES - set(seen)
    tally.check(f"no file for: {sorted(missing)}", not missing)
    for name, least in LEAST.items():
        tally.check(f"{name}: {seen[name]} files, and {least} are wanted", seen[name] >= least)
    print(", ".join(f"{name} {count}" for name, count in sorted(seen.items())))
    return tally.finish()


if __name__ == "__main__":
    sys.exit(main())
