"""Runs the commands of documents, and compares what they print.

usage: check.py DOCUMENT..

A fenced block marked sh is run by `bash -eu`, the blocks of a document in order and in one scratch folder (commands.py).
A block marked text is the output of the sh block before it; a last line '...' leaves the rest open. Other blocks are
left alone. A document must have a block to run, and no indented block: that would be a command that nobody runs.
Last line: 'N passed, M failed'.
"""

import pathlib
import re
import sys

sys.path[:0] = [str(pathlib.Path(__file__).resolve().parent), str(pathlib.Path(__file__).resolve().parents[1])]
from commands import fault, scratch  # noqa: E402
from tally import Tally  # noqa: E402

FENCED = re.compile(r"^```([^\n]*)\n(.*?)^```$", re.M | re.S)
INDENTED = re.compile(r"\n\n    \S")


def steps(text):
    """The scripts of a document with the lines that each must print; None for a text block without a script."""
    found = []
    for mark, body in FENCED.findall(text):
        if mark == "sh":
            found.append((body, []))
        elif mark == "text":
            script, wanted = found.pop() if found else (None, [])
            found.append((None if wanted else script, body.splitlines()))
    return found


def faults(text):
    """Of each block of a document, and of the document: a name, and what is wrong or None."""
    found = steps(text)
    yield "it has commands", None if any(script for script, _ in found) else "no block marked sh"
    yield "its commands are fenced", "an indented block" if INDENTED.search(FENCED.sub("", text)) else None
    with scratch() as folder:
        for script, wanted in found:
            if script is None:
                yield "text block", f"no command before {wanted[:1]}"
            else:
                yield script.splitlines()[0], fault(script, wanted, folder)


GOOD = "```sh\necho one > file; echo two\n```\n\nprints\n\n```text\ntwo\n```\n\n```sh\ncat file; ls key\n```\n\n```text\none\n...\n```\n"
BAD = (
    "", "No block.\n", "```c\nint x;\n```\n", "    ls\n",
    GOOD.replace("text\none", "text\nother"), GOOD.replace("one\n...", "one\nkey\nmore"), GOOD.replace("one\n...", "one"), GOOD.replace("ls key", "ls nothing"),
    GOOD.replace("echo one", "false; echo one"), GOOD.replace("cat file", "echo one $unset"), GOOD + "\n    ls\n",
    GOOD + "```text\nkey\n```\n", "```text\nalone\n```\n",
)


def check_itself(tally):
    """A good document passes; each bad one fails."""
    tally.check("a good document passes", not any(wrong for _, wrong in faults(GOOD)))
    for text in BAD:
        tally.check(f"a bad document fails: {text!r}", any(wrong for _, wrong in faults(text)))


def main():
    if len(sys.argv) < 2:
        sys.exit("usage: check.py DOCUMENT..")
    tally = Tally()
    check_itself(tally)
    for document in sys.argv[1:]:
        for name, wrong in faults(pathlib.Path(document).read_text()):
            tally.check(f"{document}: {name}: {wrong}", wrong is None)
    return tally.finish()


if __name__ == "__main__":
    sys.exit(main())
