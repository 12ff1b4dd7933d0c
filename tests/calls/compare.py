"""Compares the calls read, move, list and key, called from C, with the unrelated reference.

usage: compare.py DRIVER [SEED]

DRIVER is tests/calls/driver.c linked with the library; its first lines say what it takes and prints. A case gives the
number that it is made to be refused with, 0 for accepted, or None where only the reference tells.
Last line: 'N passed, M failed'.
"""

import collections
import os
import random
import subprocess
import sys
import tempfile

TESTS = os.path.dirname(os.path.dirname(os.path.abspath(__file__)))
sys.path[:0] = [TESTS, os.path.join(TESTS, "reference")]
import byte_cases  # noqa: E402
import key_cases  # noqa: E402
import list_cases  # noqa: E402
import move_cases  # noqa: E402
import plane_cases  # noqa: E402
import read_cases  # noqa: E402
from tally import Tally, rows  # noqa: E402

LEAST = {("move", 0): 8000, ("move", 17): 5000}  # so that row 17 neither hides the rest nor is rare


def answers(program, cases, last):
    """What the program prints for each case, whose last line begins with the word given."""
    with tempfile.TemporaryFile() as sent:
        for case in cases:
            sent.write(case.sent)
        sent.seek(0)
        done = subprocess.run([program], stdin=sent, stdout=subprocess.PIPE, check=False)
    texts, held = [], []
    for line in done.stdout.decode().splitlines():
        held.append(line)
        if line.startswith(last):
            texts.append("\n".join(held))
            held = []
    return done.returncode, texts, held


def number_of(text):
    """0 for an accepted case, else the refusal."""
    first = text.split("\n", 1)[0]
    return int(first.split()[1]) if first.startswith("refused") else 0


def compare(name, program, cases, last, wanted, tally):
    """All cases of one call: the program's text, the number meant, and every row, so often at least."""
    status, texts, rest = answers(program, cases, last)
    tally.check(f"{name}: exit status {status}, {len(texts)} answers for {len(cases)} cases",
                status == 0 and len(texts) == len(cases) and not rest)
    hit = collections.Counter()
    for case, got in zip(cases, texts):
        number = number_of(case.want)
        hit[number] += 1
        tally.check(f"{name} {case.name}: got {got[:90]!r}, want {case.want[:90]!r}", got == case.want)
        if case.row is not None:
            tally.check(f"{name} {case.name}: made for {case.row}, and the reference says {number}", number == case.row)
    missing = {row for row in wanted if hit[row] < LEAST.get((name, row), 1)}
    tally.check(f"{name}: no case, or too few, for {sorted(missing)}", not missing)
    print(f"{name}: {rows(hit)}")


def moves(rng):
    yield from move_cases.cases(rng)
    yield from plane_cases.cases(rng)


def main():
    program = sys.argv[1]
    seed = int(sys.argv[2]) if len(sys.argv) > 2 else 20262
    tally = Tally(shown=10)
    for name, cases, more, last, wanted in (
            ("read", read_cases.cases, byte_cases.reads, "behind", {0, 1, 2, 3, 4, 5, 6, 7, 8, 18, 15}),
            ("move", moves, byte_cases.moves, "buffer", {0, 2, 3, 4, 5, 12, 13, 17, 15}),
            ("list", list_cases.cases, byte_cases.lists, "buffer", {0, 2, 3, 4, 14, 15}),
            ("key", key_cases.cases, tuple, "buffer", {0, 15})):
        compare(name, program, [*cases(random.Random(seed)), *more()], last, wanted, tally)
    return tally.finish()


if __name__ == "__main__":
    sys.exit(main())
