"""Checks that the documents name what is there: every path, and every name that stands before its file; that a section
of the paper that is referred to is there, in documents and in comments; and that README.md and docs/man/key.1 give the
reasons of docs/refusals.txt.

A path is CRATE/specs/Name, CRATE/proofs/Name or CRATE/src/name.rt, below crates/, or a path from the root.
Last line: 'N passed, M failed'.
"""

import pathlib
import re
import sys

ROOT = pathlib.Path(__file__).resolve().parents[2]
sys.path.insert(0, str(ROOT / "tests"))
from tally import Tally  # noqa: E402

DOCUMENTS = [ROOT / "README.md", ROOT / "examples" / "README.md", *sorted((ROOT / "docs").glob("*.md"))]
MADE = {".git", "target"}
CRATES = {p.name for p in (ROOT / "crates").iterdir()}
INSIDE = re.compile(r"(?:crates/)?([a-z_]+)/(specs|proofs|src|must-fail|slips)/([A-Za-z0-9_]+(?:/[A-Za-z0-9_]+)*)(\.antt|\.rt|\.edit)?")
OUTSIDE = re.compile(r"(?<![\w/.-])((?:docs|examples|include|rust|tests|tools|bench)/[\w./-]*[\w])")
NAMED = re.compile(r"((?:`[^`]+`(?:, | and )?)+) \(((?:[a-z_]+)/(?:specs|proofs|src)/[A-Za-z_/.]+)\)")

SECTIONS = re.compile(r"(?:[Pp]aper|PAPER\.md)\W{1,4}sections? (\d+)(?:(?:, \d+)* (?:and|to) (\d+))?")

tally = Tally()
check = tally.check


def file_of(crate, part, name, ending=None):
    base = ROOT / "crates" / crate / part / name
    endings = [ending] if ending else [".antt", ".rt", ".edit", ""]
    return next((p for p in (pathlib.Path(f"{base}{e}") for e in endings) if p.exists()), None)


def check_sections():
    """Each reference to the paper's sections, in any file of the repository, names sections that it has."""
    there = set(re.findall(r"^## (\d+)\. ", (ROOT / "docs" / "PAPER.md").read_text(), re.M))
    count = 0
    for file in (p for top in ROOT.iterdir() if top.name not in MADE for p in [top, *top.rglob("*")] if p.is_file()):
        for found in SECTIONS.finditer(file.read_text(errors="replace")):
            count += 1
            check(f"{file.name}: {found[0]}", {n for n in found.groups() if n} <= there)
    check("the paper is referred to", count > 30)


def check_reasons():
    """Each refusal is told in the same words, in the README's table and in the manual page's."""
    reasons = [tuple(line.split("\t")) for line in (ROOT / "docs" / "refusals.txt").read_text().splitlines()]
    check("refusals.txt: a line for each refusal", [number for number, _ in reasons] == [str(n) for n in (*range(1, 16), 17, 18)])
    table = (ROOT / "README.md").read_text().split("| N | when |\n|---|---|\n")[-1].split("\n\n")[0]
    check("README.md: the reasons", re.findall(r"^\| (\S+) \| (.*) \|$", table, re.M) == reasons)
    page = (ROOT / "docs" / "man" / "key.1").read_text().split(".SH REFUSALS")[-1].split(".SH")[0].replace("\\-", "-")
    check("key.1: the reasons", re.findall(r"^(\d+);T\{\n(.*)\nT\}$", page, re.M) == reasons)


def main():
    check_reasons()
    check_sections()
    for document in DOCUMENTS:
        text = document.read_text()
        for crate, part, name, ending in INSIDE.findall(text):
            if crate in CRATES:
                check(f"{document.name}: {crate}/{part}/{name}{ending}", file_of(crate, part, name, ending or None))
        for path in OUTSIDE.findall(text):
            check(f"{document.name}: {path}", (ROOT / path).exists())
        for names, path in NAMED.findall(text):
            crate, part, name = path.split("/", 2)
            file = file_of(crate, part, name.removesuffix(".rt").removesuffix(".antt"))
            content = file.read_text() if file and file.is_file() else ""
            for word in re.findall(r"`([^`]+)`", names):
                check(f"{document.name}: {word} in {path}", re.search(rf"(?<![\w-]){re.escape(word)}(?![\w-])", content))
    return tally.finish()


if __name__ == "__main__":
    sys.exit(main())
