"""Which definitions must be believed: those that the calls' contracts, the theorems and the laws of docs/PROMISES.md cite,
and what these rest on.

It follows the imports from there, and must never enter a folder `Inner`, which holds what serves contracts inside the
library and proofs alone; and a file of definitions that is never reached must stand there. A definition that nothing
names must not be at all, and a law that nothing cites must be promised, or be an example for an edit. With --list it
names the modules of definitions that are not reached, a crate and a module a line. Last line: 'N passed, M failed'.
"""

import pathlib
import re
import sys

ROOT = pathlib.Path(__file__).resolve().parents[2]
sys.path.insert(0, str(ROOT / "tests"))
from contracts.calls import CALLS  # noqa: E402
from tally import Tally  # noqa: E402

THEOREMS = {"third_term", "theorems"}
EXAMPLES = ("Examples.antt", "FirstOfTwo.antt")
IMPORT = re.compile(r"^(?:ghost )?use Rattle\.(\w+)\.specs\.([\w.]+?)(?:\.\{([^}]*)\}| as [\w-]+);?$", re.M)
FUNCTION = re.compile(r'^ *pub (?:extern "C" )?fn (\w+)(.*?)^ *\{', re.M | re.S)
ANY_IMPORT = re.compile(r"^(?:ghost )?use Rattle\.(\w+)\.(specs|proofs)\.([\w.]+?)\.\{([^}]*)\};?$", re.M)
# A definition or a law, up to the empty line behind it; a field of a record has no equation.
DECLARED = re.compile(r"^( *)(?:abbrev |unfoldable )?pub ([\w'-]+)[^\n]* :(?:(?!\n\n).)*?\n\1\2(?![\w'-])(?:(?!\n\n).)*", re.M | re.S)
# What a function's proof answers to a goal: the prover looks it up.
ANSWER = re.compile(r" *(?:abbrev )?pub (?:([\w'-]+) : goal\.\1(?![\w'-])|\w+_spec :)")
# In the promises: names, and the file that has them in brackets.
NAMED = re.compile(r"((?:`[^`]+`, )*`[^`]+`) \((\w+/proofs/\w+)\)")


def modules():
    """The files of definitions, by crate and module."""
    found = {}
    for file in sorted((ROOT / "crates").glob("*/specs/**/*.antt")):
        crate, _, *path = file.relative_to(ROOT / "crates").with_suffix("").parts
        found[crate, ".".join(path)] = file
    return found


def cited(crate, names):
    """The modules that the contracts of a crate's calls cite."""
    found = set()
    for file in (ROOT / "crates" / crate / "src").glob("**/*.rt"):
        text = file.read_text()
        words = set()
        for name, contract in FUNCTION.findall(text):
            if name in names:
                words |= set(re.findall(r"\w+", contract))
        for other, module, items in IMPORT.findall(text):
            if words & set(re.findall(r"\w+", items)):
                found.add((other, module))
    return found


def promised():
    """The modules that the laws cite which the promises name."""
    found = set()
    for names, path in NAMED.findall((ROOT / "docs" / "PROMISES.md").read_text()):
        text = (ROOT / "crates" / f"{path}.antt").read_text()
        words = set()
        for name in re.findall(r"`([^`]+)`", names):
            statement = re.search(rf"^ *pub {re.escape(name)} :(.*?)^ *(?:unfolding|{re.escape(name)}) ", text, re.M | re.S)
            words |= set(re.findall(r"\w+", statement.group(1)))
        for crate, module, items in IMPORT.findall(text):
            if words & set(re.findall(r"\w+", items)):
                found.add((crate, module))
    return found


def reached(specs):
    """The modules that calls, theorems and laws rest on."""
    todo = [key for key in specs if key[0] in THEOREMS] + list(promised())
    for crate in {crate for crate, _ in CALLS}:
        todo += cited(crate, {name for owner, name in CALLS if owner == crate})
    seen = set()
    while todo:
        key = todo.pop()
        if key in specs and key not in seen:
            seen.add(key)
            todo += [(crate, module) for crate, module, _ in IMPORT.findall(specs[key].read_text())]
    return seen


def written(pattern):
    """The files of the crates that fit a pattern, but for what rt makes, in out/."""
    return [file for file in (ROOT / "crates").glob(pattern) if file.relative_to(ROOT / "crates").parts[1] != "out"]


def names_in(text):
    return re.findall(r"[\w'-]+", text)


def imported():
    """What some file imports: crate, specs or proofs, module and name."""
    found = set()
    for file in written("*/*/**/*"):
        if file.suffix in (".antt", ".rt"):
            for *module, items in ANY_IMPORT.findall(file.read_text()):
                found |= {(*module, name) for name in names_in(items)}
    return found


def unnamed():
    """For each file the definitions or laws that nothing names, neither another file nor another declaration of it."""
    known = imported()
    for file in sorted(written("*/*/**/*.antt")):
        crate, kind, *path = file.relative_to(ROOT / "crates").with_suffix("").parts
        text = "\n".join(line for line in file.read_text().split("\n") if not line.lstrip().startswith("--"))
        yield file, kind, [
            own[2] for own in DECLARED.finditer(text)
            if not ANSWER.match(own[0]) and (crate, kind, ".".join(path), own[2]) not in known and names_in(text).count(own[2]) == names_in(own[0]).count(own[2])]


def main():
    specs = modules()
    seen = reached(specs)
    unreached = [(crate, module) for crate, module in specs if (crate, module) not in seen and module not in ("Lib", "Inner")]
    if "--list" in sys.argv:
        for crate, module in unreached:
            print(crate, module)
        return 0
    tally = Tally()
    for crate, module in sorted(seen):
        tally.check(f"{crate}/specs/{module}: a call, a theorem or a law rests on it, so it is not in Inner", not module.startswith("Inner."))
    for crate, module in sorted(unreached):
        tally.check(f"{crate}/specs/{module}: no call, theorem or law rests on it, so it is in Inner", module.startswith("Inner."))
    promises = set(re.findall(r"`([^`]+)`", (ROOT / "docs" / "PROMISES.md").read_text()))
    for file, kind, names in unnamed():
        if kind == "proofs" and file.name not in EXAMPLES:
            names = [name for name in names if name not in promises]
        if kind == "specs" or file.name not in EXAMPLES:
            tally.check(f"{file.relative_to(ROOT)}: nothing names {', '.join(names)}", not names)
    return tally.finish()


if __name__ == "__main__":
    sys.exit(main())
