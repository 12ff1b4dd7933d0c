"""Checks the manual pages as they are rendered: no warning; what EXAMPLES shows is what comes out; winged.3 has the
prototypes and the refusals of the header.

In EXAMPLES a line that begins with '$ ' is a command, and the lines up to an empty one are how its output begins; lines
from an #include to a lone brace are a program, example.c. A page must have a command there. They are run as README's are
(tests/readme/commands.py). Installs groff where it is missing.
Last line: 'N passed, M failed'.
"""

import pathlib
import re
import shutil
import subprocess
import sys
import textwrap

ROOT = pathlib.Path(__file__).resolve().parents[2]
sys.path[:0] = [str(ROOT / "tests"), str(ROOT / "tests" / "readme")]
from commands import fault, scratch  # noqa: E402
from tally import Tally  # noqa: E402

PROGRAM = re.compile(r"^#include .*?^}$", re.M | re.S)
COMMAND = re.compile(r"^\$ (.*)\n((?:(?!\$ ).+\n)*)", re.M)
PROTOTYPE = re.compile(r"\bint64_t winged_\w+\([^)]*\);")


def render(page):
    """The page as plain text, and the warnings; tables are made where the first line asks for it, as man does."""
    tables = ["-t"] if page.startswith("'\\\" t") else []
    done = subprocess.run(["groff", *tables, "-man", "-ww", "-Tascii", "-P-cbou", "-rLL=100n"], input=page, text=True,
                          capture_output=True, check=False)
    return done.stdout, done.stderr


def section(text, name):
    """The lines below a heading, without their indent."""
    found = re.search(rf"^{name}\n((?:[ ].*\n|\n)*)", text, re.M)
    return textwrap.dedent(found[1]) if found else ""


def faults(page):
    """What is checked of a page by itself: a name, and what is wrong or None."""
    text, warnings = render(page)
    yield "it renders without a warning", warnings or (None if text.strip() else "nothing")
    examples = section(text, "EXAMPLES")
    commands = COMMAND.findall(examples)
    yield "it has examples", None if commands else "no command"
    with scratch() as folder:
        for program in PROGRAM.findall(examples):
            (folder / "example.c").write_text(program + "\n")
        for command, output in commands:
            yield command, fault(command, output.splitlines(), folder)


def prototypes(text):
    """The functions that a text declares, on one line each."""
    return [" ".join(found.split()) for found in PROTOTYPE.findall(text)]


def same_interface(page, header):
    """Whether a page declares what the header does, and names its refusals."""
    text = render(page)[0]
    told = re.findall(r"^ *-(\d+)\s", section(text, "ERRORS"), re.M)
    enumerated = re.findall(r"WINGED_\w+ = (\d+)", header)
    return prototypes(section(text, "SYNOPSIS")) == prototypes(header) != [] and told == enumerated != []


GOOD = ".TH X 1\n.SH NAME\nx \\- y\n.SH EXAMPLES\n.nf\n$ echo one; echo two\none\ntwo\n\n$ cat key | head -n 1\n#!/usr/bin/env bash\n.fi\n"
BAD = (GOOD.replace("\none", "\nother"), GOOD.replace("\ntwo", "\ntwo\nthree"), GOOD.replace("\ntwo", ""), GOOD.replace(".nf", ".XX"), GOOD.replace("$ ", "% "),
       GOOD.replace("EXAMPLES", "EXAMPLE"), GOOD.replace("cat key", "cat nothing; false"))


def check_itself(tally, page, header):
    """A good page passes; each bad one fails."""
    tally.check("a good page passes", not any(wrong for _, wrong in faults(GOOD)))
    for bad in BAD:
        tally.check(f"a bad page fails: {bad!r}", any(wrong for _, wrong in faults(bad)))
    for old, new in (("uint32_t", "int"), ("faces_len", "length"), ("WINGED_BAD_SIGN = 6", "WINGED_BAD_SIGN = 16")):
        tally.check(f"a header with {new} is another", old in header and not same_interface(page, header.replace(old, new)))


def main():
    tally = Tally()
    if not shutil.which("groff"):
        subprocess.run(["apt-get", "install", "-y", "groff-base"], stdout=subprocess.DEVNULL, check=False)
    tally.check("groff is there", shutil.which("groff"))
    if tally.failed:
        return tally.finish()
    tally.check("the library is built", subprocess.run([ROOT / "tests" / "library"], check=False).returncode == 0)
    pages = {path.name: path.read_text() for path in sorted((ROOT / "docs" / "man").iterdir())}
    header = (ROOT / "include" / "winged.h").read_text()
    check_itself(tally, pages["winged.3"], header)
    for name, page in pages.items():
        for what, wrong in faults(page):
            tally.check(f"{name}: {what}: {wrong}", wrong is None)
    tally.check("winged.3 declares what winged.h does, and names its refusals", same_interface(pages["winged.3"], header))
    return tally.finish()


if __name__ == "__main__":
    sys.exit(main())
