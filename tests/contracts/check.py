"""Reads the contracts as a reviewer would: every function that says `pub`, whether or not its module is public, has a
contract that names its result and the lent buffers at the end; so has every `pub(crate)` function of a library.

A public call has no `requires`. Last line: 'N passed, M failed'.
"""

import pathlib
import re
import sys

ROOT = pathlib.Path(__file__).resolve().parents[2]
sys.path.insert(0, str(ROOT / "tests"))
from contracts.calls import CALLS  # noqa: E402
from tally import Tally  # noqa: E402

# An array of its caller's that a function works in, and that nobody reads afterwards.
SCRATCH = {("winged", "words")}
HEAD = re.compile(r'^ *pub(\(crate\))? (?:extern "C" )?fn (\w+)(?:<[^>]*>)?\((.*?)\)\s*(?:-> ([^\n{]+?))?\s*\n(.*?)^ *\{', re.M | re.S)
PUBLIC = re.compile(r'^ *pub(\(crate\))? (?:extern "C" )?fn ', re.M)
# A clause's text has braces in pairs.
ENSURES = re.compile(r"ensures(?: \w+)? (\{(?:[^{}]|\{[^{}]*\})*\})")

tally = Tally()
check = tally.check


def main():
    calls = set()
    for file in sorted((ROOT / "crates").glob("*/src/**/*.rt")):
        crate = file.relative_to(ROOT / "crates").parts[0]
        text = file.read_text()
        program = (file.parent / "main.rt").exists()
        public = [inner for inner in PUBLIC.findall(text) if not (inner and program)]
        heads = [head[1:] for head in HEAD.findall(text) if public]
        check(f"{file.relative_to(ROOT)}: every public function has a contract", len(heads) == len(public))
        for name, parameters, result, contract in heads:
            where = f"{crate}::{name}"
            ensured = ENSURES.findall(contract)
            check(f"{where}: it ensures something", ensured)
            if result:
                check(f"{where}: its contract names its result", any(re.search(r"\bresult\b", clause) for clause in ensured))
            for buffer in (b for b in re.findall(r"(\w+): &mut ", parameters) if (crate, b) not in SCRATCH):
                check(f"{where}: its contract names {buffer} at the end", any(re.search(rf"\b{buffer}\.new\b", clause) for clause in ensured))
            if (crate, name) in CALLS:
                calls.add((crate, name))
                check(f"{where}: no requires", "requires" not in contract)
    for crate, name in sorted(CALLS):
        check(f"{crate}::{name} is there", (crate, name) in calls)
    return tally.finish()


if __name__ == "__main__":
    sys.exit(main())
