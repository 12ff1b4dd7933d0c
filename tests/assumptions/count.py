"""Counts what the proofs assume, by what rt ci said of each crate, by what the programs were linked with, and by the code.

usage: count.py LOG

LOG is what rt ci printed. It refuses a crate with a hole, and one that declares functions of C. It says of a crate what its
proofs assume where it proves it, and nothing more where an earlier run has proved the same files; so that is looked up in
the linked programs too: a library may assume nothing, and a program only read and write of the C library, and what an error
of theirs is called.
Last line: 'N passed, M failed'.
"""

import pathlib
import re
import subprocess
import sys

ROOT = pathlib.Path(__file__).resolve().parents[2]
sys.path.insert(0, str(ROOT / "tests"))
from tally import Tally  # noqa: E402

ALLOWED = {"libc::read", "libc::write", "os::c::rattle_errno", "os::c::__xpg_strerror_r"}
# of the system: those four; what a compiler takes for copies; and the start of a program, which ignores a closed pipe
LINKED = {"read", "write", "__errno_location", "__xpg_strerror_r", "memcpy", "memmove", "memset", "memcmp", "bcmp", "__libc_start_main", "__sysv_signal", "__write",
          "__x86_get_cpuid_feature_leaf"}
# of the toolchain's library a library of this repository names arithmetic alone
PURE = re.compile(r"std::num::")
REACHING = re.compile(r"\b(?:std|core)::(?:\w+(?:::)?|\{)|\b(?:io|libc|os)::|\bHostRuntime\b|\bunsafe\b(?!\(no_mangle\))|\bextern\b(?! \"C\" fn winged_)|\bstatic\b")
COMMENT = re.compile(r"//.*")


def crates():
    for line in (ROOT / "crates.txt").read_text().splitlines():
        if line and not line.startswith("#"):
            yield line.split(":")[0].split()[0]


def told(log, name):
    """What the report of a crate says that it assumes: the names and the count; None where it has no report, and is not kept."""
    report = re.search(rf"^== {name}\n(.*?)^rt: {name} proved$", log, re.M | re.S)
    if not report:
        return (set(), 0) if re.search(rf"^rt: {name} is kept: ", log, re.M) else None
    proved = re.search(r"^logic=proved functions=\d+(.*)$", report[1], re.M)
    if not proved or "foreign=" in proved[1]:
        return None
    counted = re.search(r"axioms=(\d+)", proved[1])
    named = " ".join(re.findall(r"^axioms \w+: (?!none)(.*)$", report[1], re.M))
    return set(re.findall(r"\w+(?:::\w+)+", named)), int(counted[1] if counted else 0)


def linked(file):
    """What a linked program asks the system for."""
    said = subprocess.run(["nm", "-D", "--undefined-only", file], text=True, capture_output=True, check=False)
    return {line.split()[1].partition("@")[0] for line in said.stdout.splitlines() if line.split()[0] == "U"}


def reached(text):
    """What the code of a library names beyond itself, the repository's other crates and arithmetic."""
    return [found for found in REACHING.findall(COMMENT.sub("", text)) if not PURE.match(found)]


def check_itself(tally):
    good = "// unsafe\nuse words::copy;\nlet x = std::num::wrapping_add_u16(a, b);\n#[unsafe(no_mangle)]\npub extern \"C\" fn winged_key() {}\n"
    tally.check("code that reaches nothing", reached(good) == [])
    for bad in ("use std::io;", "let x = unsafe { *p };", "unsafe extern \"C\" {", "fn f(rt: &HostRuntime) {", "static X: u8 = 0;", "use std::fs::File;", "use std::{io, fs};", "let n = libc::read(0, b);", "io::count(n, b);"):
        tally.check(f"code that reaches further: {bad}", reached(good + bad) != [])
    log = "== a\naxioms libc: libc::read (1 of the 128 declared)\naxioms os: none reached of the 22 declared\nlogic=proved functions=2 axioms=1 x\nrt: a proved\n"
    tally.check("a report", told(log, "a") == ({"libc::read"}, 1))
    tally.check("a crate that is kept", told("rt: a is kept: an earlier run\n", "a") == (set(), 0))
    for bad in ("", log.replace("rt: a proved", "rt: a NOT PROVED"), log.replace("logic=proved", "logic=not-proved"), log.replace("axioms=1", "foreign=f axioms=1")):
        tally.check(f"a report that says nothing good: {bad!r}", told(bad, "a") is None)
    tally.check("another crate's report", told(log, "b") is None)


def main():
    tally = Tally()
    check_itself(tally)
    log = pathlib.Path(sys.argv[1]).read_text(errors="replace")
    assumed = set()
    for name in crates():
        folder = ROOT / "crates" / name
        program = (folder / "src" / "main.rt").exists()
        found = told(log, name)
        tally.check(f"{name}: a hole, or no proof", found is not None)
        named, count = found or (set(), 0)
        assumed |= named
        tally.check(f"{name} assumes: {', '.join(sorted(named)) or count}", named <= (ALLOWED if program else set()) and len(named) == count)
        if program:
            uses = linked(folder / "out" / name)
            tally.check(f"{name} is linked with {', '.join(sorted(uses)) or 'nothing'}", uses and uses <= LINKED)
        else:
            further = sorted({what for file in folder.glob("src/**/*.rt") for what in reached(file.read_text())})
            tally.check(f"{name} reaches further: {', '.join(further)}", not further)
    print(f"assumed of the C library: {', '.join(sorted(assumed & ALLOWED)) or 'none named in this run'}; of others: {', '.join(sorted(assumed - ALLOWED)) or 'none'}")
    return tally.finish()


if __name__ == "__main__":
    sys.exit(main())
