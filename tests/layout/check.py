"""Checks that no file of Rattle and antt, and no line of one, is too long. That each is in the formatter's layout rt ci sees to.

Last line: 'N passed, M failed'.
"""

import pathlib
import sys

ROOT = pathlib.Path(__file__).resolve().parents[2]
sys.path.insert(0, str(ROOT / "tests"))
from tally import Tally  # noqa: E402

MOST_LINES = 300
LONGEST_LINE = 150


def main():
    tally = Tally()
    # what rt makes stands in out/
    files = sorted(p for p in (ROOT / "crates").glob("*/*/**/*") if p.suffix in (".rt", ".antt") and p.relative_to(ROOT / "crates").parts[1] != "out")
    tally.check("there are files", len(files) > 500)
    for file in files:
        name = str(file.relative_to(ROOT))
        lines = file.read_text().splitlines()
        tally.check(f"{name}: over {MOST_LINES} lines", len(lines) <= MOST_LINES)
        tally.check(f"{name}: a line of over {LONGEST_LINE} characters", all(len(line) <= LONGEST_LINE for line in lines))
    return tally.finish()


if __name__ == "__main__":
    sys.exit(main())
