"""What the tests of the program and of the command share."""

import pathlib
import subprocess
import sys

ROOT = pathlib.Path(__file__).resolve().parents[2]
sys.path[:0] = [str(ROOT / "tests"), str(ROOT / "tests" / "reference")]
import solids  # noqa: E402, F401
import winged_reference as reference  # noqa: E402, F401
from tally import Tally  # noqa: E402

PROGRAM = sys.argv[1] if len(sys.argv) > 1 else str(ROOT / "target" / "bin" / "key")
K1 = ROOT / "examples" / "marked" / "k1.wng"
NOTHING = ROOT / "examples" / "empty" / "dimension-0.wng"
SIX = ROOT / "examples" / "high" / "six.wng"
SQUARE = ROOT / "examples" / "materials" / "square.wng"

tally = Tally()
check = tally.check


def run(words, data=b"", **how):
    """Runs a command to its end, on the given data or stdin; one that takes 20 seconds is ended, with status 124."""
    if "stdin" not in how:
        how["input"] = data
    how.setdefault("stdout", subprocess.PIPE)
    return subprocess.run(["timeout", "20", *map(str, words)], stderr=subprocess.PIPE, check=False, **how)


def key_of(file):
    """The stored key of a sample."""
    return file.with_suffix(".key").read_bytes()
