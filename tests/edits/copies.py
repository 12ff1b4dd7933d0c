"""Copies of a crate in which an edit is tried: the whole crate, or its definitions alone."""
import contextlib
import os
import pathlib
import re
import shutil
import subprocess
import tempfile

from edit import ROOT, below, crates

PARTS = ("src", "specs", "proofs")
TYPE = re.compile(r"^(?:pub(?:\(\w+\))? )?(?:struct|enum|union|type|mod) ", re.MULTILINE)
USE = re.compile(r"^(?P<head>(?:pub(?:\(\w+\))? |ghost )?use (?P<path>[^{};]*))(?:\{(?P<names>[^}]*)\})?;", re.MULTILINE)


def linked(folder, to):
    """Copies a folder of checked files, by links where these can be made: a check replaces such a file, and changes none."""

    def copy(one, other):
        try:
            if one.endswith(".json"):
                raise OSError
            os.link(one, other)
        except OSError:
            shutil.copy2(one, other)

    if folder.is_dir():
        shutil.copytree(folder, to, copy_function=copy)


def renew(root, name):
    """Puts the files of the crate as they are into the copy."""
    for part in PARTS:
        shutil.rmtree(root / "crates" / name / part, ignore_errors=True)
        if (ROOT / "crates" / name / part).is_dir():
            shutil.copytree(ROOT / "crates" / name / part, root / "crates" / name / part)


@contextlib.contextmanager
def copy_of(name):
    """A copy of a crate and of those below it, with what the last check has proved of them."""
    every, lower = crates(), below(name)
    with tempfile.TemporaryDirectory(prefix="edits-") as folder:
        root = pathlib.Path(folder)
        # The top of a repository.
        (root / ".git").mkdir()
        (root / "crates.txt").write_text("".join(f"{one}: {' '.join(every[one])}\n" for one in [*lower, name]))
        for one in [*lower, name]:
            renew(root, one)
        for one in lower:
            linked(ROOT / "crates" / one / "out" / "rlib", root / "crates" / one / "out" / "rlib")
        linked(ROOT / "crates" / name / "out" / "incremental", root / "crates" / name / "out" / "incremental")
        yield root


def prove(root, name):
    """What the prover says of a crate of the copy."""
    run = subprocess.run(["rt", "check", "--jobs", "1"], cwd=root / "crates" / name, text=True, errors="replace", stdin=subprocess.DEVNULL, stdout=subprocess.PIPE, stderr=subprocess.STDOUT)
    return "\n" + run.stdout


def lemma_files(name, place):
    """A file of lemmas, and those of the crate that it cites, and so on; None if they cite a function's proof."""
    found, waiting = [], [pathlib.PurePath(place).stem]
    while waiting:
        one = waiting.pop()
        file = ROOT / "crates" / name / "proofs" / f"{one}.antt"
        if one in found:
            continue
        if not file.is_file():
            return None
        found.append(one)
        waiting += re.findall(rf"\bRattle\.{name}\.proofs\.(\w+)", file.read_text())
    return found


def stands_alone(edit):
    """Whether the example that an edit of a definition names needs the definitions alone, and files of lemmas."""
    crate = ROOT / "crates" / edit.crate
    if edit.of_code() or edit.refuted or edit.worthless or not (crate / edit.place).is_file() or not (crate / "src" / "lib.rt").is_file():
        return False
    return lemma_files(edit.crate, edit.place) is not None


def items(text):
    """The items of a file of code, each with the comments and attributes above it."""
    found, lines, inside = [], [], False
    for line in text.splitlines():
        lines.append(line)
        if not inside and (not line or line.startswith(("//", "#"))):
            continue
        inside = not re.match(r"[})].*[;}]$|\}$", line) if inside else not line.rstrip().endswith((";", "}"))
        if not inside:
            found.append("\n".join(lines))
            lines = []
    return found


def types_alone(text):
    """A file of code without its functions: the types that definitions name, and what these types name."""
    every = items(text)
    kept = [item.strip("\n") for item in every if TYPE.search(item)]
    body, uses = "\n".join(kept), []
    for found in filter(None, map(USE.search, every)):
        names = [name.strip() for name in (found["names"] or "").split(",") if name.strip()]
        named = [name for name in names or [re.split(r"::|\.", found["path"])[-1]] if re.search(rf"(?<!\w){re.escape(name.split(' as ')[-1])}(?!\w)", body)]
        if named:
            uses.append(f"{found['head']}{{{', '.join(named)}}};" if names else found[0])
    return "// Types alone.\n" + "\n".join([*uses, *kept]) + "\n"


def definitions_with(root, name, files):
    """What the prover says of a crate's definitions in the copy with these files of proofs, and no code but the types."""
    crate = root / "crates" / name
    for path in (crate / "src").rglob("*.rt"):
        path.write_text(types_alone(path.read_text()))
    shutil.rmtree(crate / "proofs", ignore_errors=True)
    (crate / "proofs").mkdir()
    (crate / "proofs" / "Lib.antt").write_text("-- Definitions alone.\n" + "".join(f"pub mod {file}\n" for file in files))
    for file, text in files.items():
        (crate / "proofs" / f"{file}.antt").write_text(text)
    log = prove(root, name)
    renew(root, name)
    return log
