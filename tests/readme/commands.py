"""Runs a document's commands in a scratch folder whose entries are links to the repository's, so that paths from its root
work, and what the commands write beside them does not land in it. What they build goes to its target/, as by hand."""

import contextlib
import pathlib
import subprocess
import tempfile

ROOT = pathlib.Path(__file__).resolve().parents[2]


@contextlib.contextmanager
def scratch():
    """A fresh folder of links to the entries of the repository."""
    with tempfile.TemporaryDirectory() as name:
        folder = pathlib.Path(name)
        (ROOT / "target").mkdir(exist_ok=True)
        for entry in ROOT.iterdir():
            if entry.name != ".git":
                (folder / entry.name).symlink_to(entry)
        yield folder


def fault(script, wanted, folder):
    """What is wrong with a script's run: None if it succeeds and prints the wanted lines, if there are any. Where the last
    of them is '...' there may be more."""
    done = subprocess.run(["bash", "-eu", "-c", script], cwd=folder, stdin=subprocess.DEVNULL, stdout=subprocess.PIPE,
                          stderr=subprocess.PIPE, text=True, check=False)
    lines = done.stdout.splitlines()
    if done.returncode != 0:
        return f"exit status {done.returncode}: {(lines + done.stderr.splitlines())[-3:]}"
    if wanted[-1:] == ["..."]:
        wanted, lines = wanted[:-1], lines[:len(wanted) - 1]
    if wanted and lines != wanted:
        return f"it prints {lines}, not {wanted}"
    return None
