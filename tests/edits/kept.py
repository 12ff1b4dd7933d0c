"""What earlier runs came to, kept outside the checkout, each under a sum of all that it stood on: nothing of it goes stale. The
folder is edits-tried in the one that XDG_CACHE_HOME names, or else in ~/.cache; where it cannot be used, nothing is kept."""
import functools
import hashlib
import os
import pathlib
import subprocess
import time

from edit import ROOT, below, crates
from trial import crates_of, parts

FOLDER = pathlib.Path(os.environ.get("XDG_CACHE_HOME") or pathlib.Path.home() / ".cache") / "edits-tried"
DAYS = 60


def sum_of(*words):
    return hashlib.sha256(repr(words).encode()).hexdigest()


@functools.cache
def tools():
    """A sum of the toolchain and of these scripts."""
    version = subprocess.run(["rt", "version"], text=True, stdout=subprocess.PIPE, stderr=subprocess.STDOUT).stdout
    here = pathlib.Path(__file__).resolve().parent
    return sum_of(version, [file.read_text() for file in sorted(here.glob("*.py"))])


@functools.cache
def text_of(name, *folders):
    """A sum of the files of these folders of a crate."""
    crate = ROOT / "crates" / name
    files = [file for folder in folders for file in sorted((crate / folder).rglob("*")) if file.is_file()]
    return sum_of([(str(file.relative_to(crate)), file.read_bytes()) for file in files])


def proof_of(edit):
    """What the prover's answer to an edit stands on: its crate and those below, what crates.txt says of them, and the cases that
    refute it."""
    names = [edit.crate, *below(edit.crate)]
    cases = pathlib.Path(__file__).resolve().parent / "refutations" / f"{edit.crate}.txt"
    shown = cases.read_text() if edit.refuted and cases.is_file() else None
    return sum_of("proof", tools(), edit.label, edit.path.read_text(), shown, [(name, crates()[name], text_of(name, "src", "specs", "proofs")) for name in names])


def refuting(edit, text):
    """The same of the proof that an edited sentence is false."""
    return sum_of("refuted", proof_of(edit), text)


def running(case, edit):
    """What a run of a case stands on: the code of the crates that it calls."""
    names = sorted(crates_of(case) | ({edit.crate} if edit else set()))
    program = case.removeprefix("program ")
    streams = [file.read_bytes() for file in sorted((ROOT / "crates" / program).glob("std*"))] if program != case else []
    part = parts().get(case.partition(": ")[0])
    said = (part and part[0], part and part[1].get(case.partition(": ")[2]), parts()["all"][0], streams)
    return sum_of("run", tools(), case, said, edit and (edit.label, edit.path.read_text()), [text_of(name, "src") for name in names])


def known(key):
    """What was kept under a sum, or None."""
    try:
        text = (FOLDER / key).read_text()
        os.utime(FOLDER / key)
        return text
    except OSError:
        return None


def keep(key, text):
    try:
        FOLDER.mkdir(mode=0o700, parents=True, exist_ok=True)
        new = FOLDER / f"new-{os.getpid()}-{key[:16]}"
        new.write_text(text)
        new.replace(FOLDER / key)
    except OSError:
        pass


def shrink():
    """Removes what no run has used for long."""
    for file in FOLDER.glob("*"):
        try:
            if file.stat().st_mtime < time.time() - DAYS * 86400:
                file.unlink()
        except OSError:
            pass
