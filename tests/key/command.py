"""Runs the command ./key as people use it: on files and pipes, where something fails, and while it builds.

usage: command.py

A copy of the command stands beside a program or a toolchain of the tests' own, to see that it hands out no cut key.
Last line: 'N passed, M failed'.
"""

import os
import pathlib
import re
import resource
import shutil
import subprocess
import sys
import tempfile
import time

from common import K1, NOTHING, ROOT, SIX, SQUARE, check, key_of, run, tally

COMMAND = ROOT / "key"
REASONS = dict(line.split("\t") for line in (ROOT / "docs" / "refusals.txt").read_text().splitlines())
# the list of crates beside a program of the tests' own, which needs three of the four
CRATES = "words:\nrules: words\nother: words rules\nkey: rules io\n"

# what a toolchain says and does: two crates proved, and, once the file 'go' is there, the program proved and built
RT = """#!/bin/sh
echo once >>../../runs
echo 'fn words::word: proved'
echo 'crate words: modules loaded=236 checked=3'
echo 'logic=proved functions=8'
echo 'a note of the prover'
echo 'library words: modules loaded=236 checked=0'
echo 'crate rules: modules loaded=0 checked=34'
echo 'logic=proved functions=9'
until [ -e ../../go ]; do sleep 0.1; done
mkdir -p out
printf '#!/bin/sh\\necho refused 9\\n' >out/key
chmod +x out/key
echo 'crate key: modules loaded=0 checked=54'
echo 'logic=proved functions=3'
"""
RT_FAILS = """#!/bin/sh
echo 'fn words::word: not proved'
echo 'rt: the library words did not build, so nothing above it was checked' >&2
exit 1
"""


def answers(what, said, status, text, *parts):
    """Checks the status, the whole of standard output, and that standard error has these parts, or nothing."""
    silent = parts or said.stderr == b""
    check(f"{what}: {said}", (said.returncode, said.stdout) == (status, text) and silent and all(p in said.stderr for p in parts))


def limited(what, size):
    """Sets a limit in a child."""
    return lambda: resource.setrlimit(what, (size, size))


def check_usage():
    answers("key FILE", run([COMMAND, K1]), 0, key_of(K1))
    answers("key FILE without cells", run([COMMAND, NOTHING]), 0, key_of(NOTHING))
    answers("key FILE with materials", run([COMMAND, SQUARE]), 0, key_of(SQUARE))
    answers("key -", run([COMMAND, "-"], K1.read_bytes()), 0, key_of(K1))
    for words in ([], ["a", "b"], ["--no-such-option"], ["no such file"], [ROOT]):
        answers(f"key {words}", run([COMMAND, *words]), 2, b"", b"try key --help")
    for word, start in (("--help", b"usage: key FILE"), ("--version", b"key 1.5")):
        said = run([COMMAND, word])
        check(f"key {word}", said.returncode == 0 and said.stdout.startswith(start) and said.stderr == b"")


def check_reasons():
    """A refusal is told in the words of docs/refusals.txt."""
    for file in sorted((ROOT / "examples" / "refused").glob("*.wng")):
        number = int(file.stem[:2])
        line = f"refused {number}"
        said = run([COMMAND, file])
        told = f"key: {file}: {line}: {REASONS[str(number)]}\n".encode()
        check(f"key on {line}: {said}", (said.returncode, said.stdout, said.stderr) == (1, f"{line}\n".encode(), told))


def check_pipes():
    """A pipe that is slow, does not wait or does not end is neither cut short nor waited for."""
    for waits in (True, False):
        ends = os.pipe()
        os.set_blocking(ends[0], waits)
        with subprocess.Popen([COMMAND, "-"], stdin=ends[0], stdout=subprocess.PIPE, stderr=subprocess.PIPE) as child:
            for at in range(0, len(K1.read_bytes()), 20):
                time.sleep(0.2)
                os.write(ends[1], K1.read_bytes()[at:at + 20])
            os.close(ends[1])
            said = child.communicate(timeout=20)
        os.close(ends[0])
        check(f"a slow pipe that {'waits' if waits else 'does not wait'}: {said}", said == (key_of(K1), b""))
    long = REASONS["3"].encode()
    answers("an endless file", run([COMMAND, "/dev/zero"]), 1, b"refused 3\n", long)
    with subprocess.Popen(["cat", "/dev/zero"], stdout=subprocess.PIPE) as source:
        said = run([COMMAND, "-"], stdin=source.stdout)
        source.stdout.close()
    answers("an endless pipe", said, 1, b"refused 3\n", long)
    check("an endless pipe: nothing else is said", said.stderr.count(b"\n") == 1)


def check_streams():
    folder = os.open("/", os.O_RDONLY)
    answers("a folder as input", run([COMMAND, "-"], stdin=folder), 3, b"", b"standard input could not be copied", b"directory")
    os.close(folder)
    closed = lambda number: {"stdin" if number == 0 else "stdout": None, "preexec_fn": lambda: os.close(number)}
    answers("a closed input", run([COMMAND, "-"], **closed(0)), 3, b"", b"standard input is closed")
    answers("a closed input beside a file", run([COMMAND, K1], **closed(0)), 0, key_of(K1))
    answers("a closed output", run([COMMAND, K1], **closed(1)), 3, None, b"standard output is closed")
    with open("/dev/full", "wb") as full:
        answers("a full disk", run([COMMAND, K1], stdout=full), 3, None, b"the text could not be written to standard output")
    ends = os.pipe()
    os.close(ends[0])
    answers("nobody reads the key", run([COMMAND, K1], stdout=ends[1]), 3, None, b"the text could not be written to standard output")
    os.close(ends[1])


def check_limits():
    for size, part in ((0, b"could not be copied"), (1024, b"the program did not print a key")):
        said = run([COMMAND, SIX], preexec_fn=limited(resource.RLIMIT_FSIZE, size))
        answers(f"files of {size} bytes at most", said, 3, b"", part, b"ulimit -f")
    said = run([COMMAND, SIX], preexec_fn=limited(resource.RLIMIT_STACK, 400 << 10))
    answers("too little stack", said, 3, b"", b"ended by signal SEGV", b"ulimit -s")
    for folder in ("/proc", "/no/such/folder"):
        said = run([COMMAND, K1], env={**os.environ, "TMPDIR": folder})
        answers(f"temporary files in {folder}", said, 3, b"", b"no folder for temporary files could be made in " + folder.encode())


def beside(folder, program=None):
    """A copy of the command with a program of the tests' own, or with none."""
    shutil.copy(COMMAND, folder)
    (folder / "docs").mkdir()
    shutil.copy(ROOT / "docs" / "refusals.txt", folder / "docs")
    (folder / "crates.txt").write_text(CRATES)
    (folder / "crates" / "key").mkdir(parents=True)
    for part in (folder / "target" / "bin", folder / "tools"):
        part.mkdir(parents=True)
    shutil.copy(ROOT / "tools" / "build", folder / "tools")
    if program:
        script(folder / "target" / "bin" / "key", program)
    return folder / "key"


def script(path, text):
    path.write_text(text)
    path.chmod(0o755)


def check_cut_keys(folder):
    """A program that stops half-way, or prints a key that lacks a part of it."""
    command = beside(folder, '#!/bin/sh\n. "$(dirname "$0")/does"\n')
    text, does = folder / "text", folder / "target" / "bin" / "does"
    whole, empty, composite = key_of(K1), key_of(NOTHING), key_of(SQUARE)
    does.write_text(f"cat '{text}'\n")
    cuts = {f"{len(key)} bytes cut to {n}": key[:n] for key in (whole, empty) for n in range(len(key))}
    others = {
        "a line more": whole + b"+ 1\n", "a vertex more": whole.replace(b"v 1", b"v 1 0.000\nv 2"), "no key": b"hello\n",
        "a face less": whole.replace(b"+ 1\n", b""), "a face first": b"key 1 1 2 2\n+ 1\n- 0\nv 0 0.500\nv 1 1.500\n",
        "nothing, and a face": empty + b"+ 1\n", "nothing, and a vertex": empty + b"v 0 0.500\n",
        "half a refusal": b"refused \n", "a refusal without an end": b"refused 9", "two refusals": b"refused 9\nrefused 9\n",
    }
    for name, cut in {**cuts, **others}.items():
        text.write_bytes(cut)
        answers(name, run([command, K1]), 3, b"", b"did not print a key with all its lines")
    for key in (empty, whole, composite):
        text.write_bytes(key)
        answers(f"a whole key of {len(key)} bytes", run([command, K1]), 0, key)
    ends = {"kill -KILL $$": b"signal KILL", "kill -SEGV $$": b"signal SEGV", "exit 1": b"exit status 1", "echo no >&2": b"text: no\n"}
    for end, part in ends.items():
        does.write_text(f"cat '{text}'\n{end}\n")
        answers(f"a whole key, and then {end}", run([command, K1]), 3, b"", part)


def started(command, env, said, part):
    """The command at work, once what it says has this part; its words go to the file `said`."""
    with open(said, "wb") as file:
        child = subprocess.Popen([command, K1], env=env, stdout=subprocess.PIPE, stderr=file)
    for _ in range(200):
        if part in said.read_text():
            break
        time.sleep(0.1)
    return child


def check_build(folder):
    command = beside(folder)
    script(folder / "rt", RT_FAILS)
    env = {**os.environ, "PATH": f"{folder}:{os.environ['PATH']}"}
    log = str(folder / "target" / "key.log").encode()
    answers("a build that fails", run([command, K1], env=env), 3, b"", b"the library words did not build", b"could not be built; " + log)
    script(folder / "rt", RT)
    first = started(command, env, folder / "first", "proved rules")
    second = started(command, env, folder / "second", "waiting for another key that builds")
    (folder / "go").touch()
    check("both print what the program prints", [child.communicate(timeout=20)[0] for child in (first, second)] == [b"refused 9\n"] * 2)
    lines = (folder / "first").read_text().splitlines()
    check(f"a build tells each crate that it proves: {lines}", [re.sub(r"\d+ s", "N s", line) for line in lines[:-2]] == [
        "key: building the program; its 3 crates are proved first, which takes some minutes, once",
        "key: proved words (N s)", "key: proved rules (N s)", "key: proved key (N s)"])
    check("and how long it took", lines[-2].startswith("key: built in 0 min "))
    check("they built once", (folder / "runs").read_text() == "once\n")
    check("the log has all that was said", "a note of the prover\n" in (folder / "target" / "key.log").read_text())
    said = run([command, K1], env=env)
    check("the next builds nothing", said.stderr.count(b"\n") == 1 and (folder / "runs").read_text() == "once\n")
    (folder / "crates" / "new").touch()
    check("a newer file is built in", b"built in" in run([command, K1], env=env).stderr)


def main():
    check_usage()
    check_reasons()
    check_pipes()
    check_streams()
    check_limits()
    for part in (check_cut_keys, check_build):
        with tempfile.TemporaryDirectory() as folder:
            part(pathlib.Path(folder))
    return tally.finish()


if __name__ == "__main__":
    sys.exit(main())
