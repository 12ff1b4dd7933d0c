"""The trial: what the code writes on small inputs. It is run and never proved, and shows which slips change anything.

trial/all.txt       Rattle that every case may use
trial/PART.txt      the functions of a part, and its cases: a line '// case NAME', statements, and what they write,
                    as lines that begin with '// >'

A case is called 'PART: NAME'. 'program NAME' is the repository's program NAME on its own input.

Most of the time of 'rt try' goes into the library, which every program reads. So many tries are made into one program, which
reads from its input which of them to run: each is a module with the text of its case, and has, under names of its own, a copy
of every crate between the edited one and what the case calls. 'rt try --cases' builds it once and runs it once for each try,
so that one which stops or does not end takes no other along.
"""
import functools
import pathlib
import re
import subprocess
import tempfile

from edit import ROOT, Bad, below, crates

FOLDER = pathlib.Path(__file__).resolve().parent / "trial"
MAIN = """// Runs the try whose number stands on standard input, in three digits.
#![tactic(auto)]

{modules}

fn main() {{
    let mut text = [48u8; 3];
    let _got = libc::read(0, &mut text);
    let which = (text[0] % 48) as usize * 100 + (text[1] % 48) as usize * 10 + (text[2] % 48) as usize;
{calls}
}}
"""
CASE = "\npub fn run() {{\n{}\n    say(b\"\\n\");\n}}\n"
# edits after which a program does not end: as it is, it does
ENDLESS = {"endless_read"}
TOLD = re.compile(r"^case=(\S+) run=(\S+).*$", re.MULTILINE)


@functools.cache
def parts():
    """For each part its functions and its cases: name, statements and what they write."""
    found = {}
    for file in sorted(FOLDER.glob("*.txt")):
        functions, *rest = re.split(r"^// case ", file.read_text(), flags=re.MULTILINE)
        cases = {}
        for text in rest:
            name, *lines = text.strip("\n").split("\n")
            cases[name] = (
                "\n".join(line for line in lines if not line.startswith("// >")),
                "".join(line[len("// >"):] + "\n" for line in lines if line.startswith("// >")),
            )
        found[file.stem] = (functions, cases)
    return found


def every_case():
    return [f"{part}: {name}" for part, (_, cases) in parts().items() for name in cases]


def known(case):
    part, _, name = case.partition(": ")
    return name in parts().get(part, ("", {}))[1] or case.removeprefix("program ") in crates()


def text_of(case):
    """The text of a case as a module, and what it writes."""
    part, name = case.split(": ", 1)
    body, written = parts()[part][1][name]
    return parts()["all"][0] + parts()[part][0] + CASE.format(body), written


def used_by(text):
    """The crates that a text of code names."""
    return [name for name in crates() if re.search(rf"(?<![:\w.]){name}::", text)]


def crates_of(case):
    """The crates that a case runs."""
    used = [case.removeprefix("program ")] if case.startswith("program ") else used_by(text_of(case)[0])
    return {one for name in used for one in [name, *below(name)]}


def between(edited, case):
    """The crates from the edited one up to those that a case calls."""
    return sorted(name for name in crates_of(case) if name == edited or edited in below(name))


def renamed(text, names, suffix):
    """A text of code in which these crates have names of their own, and nothing has a name for C."""
    for name in names:
        text = re.sub(rf"(?<![:\w.]){name}::", f"{name}{suffix}::", text)
    return text.replace("#[unsafe(no_mangle)]\n", "").replace("extern \"C\" ", "")


def code_of(name, edit):
    """The files of a crate's code, with the edit if it is of this crate."""
    folder = ROOT / "crates" / name
    code = {str(file.relative_to(folder)): file.read_text() for file in sorted((folder / "src").rglob("*.rt"))}
    return code | (edit.edited(folder) if edit and edit.crate == name else {})


def add(root, number, case, edit):
    """Adds a try to the program: the case over the crates with the edit, or as they are. The lines of its crates, and the crates
    that it calls."""
    text, written = text_of(case)
    copied, suffix, lines = between(edit.crate, case) if edit else [], f"_{number}", []
    named = lambda name: name + suffix if name in copied else name
    code = {name: code_of(name, edit) for name in copied}
    for name in copied:
        for file, words in code[name].items():
            path = root / "crates" / named(name) / file
            path.parent.mkdir(parents=True, exist_ok=True)
            path.write_text(renamed(words, copied, suffix))
        lines.append(f"{named(name)}: {' '.join(map(named, crates()[name]))}")
    crate = root / "crates" / "trial"
    (crate / "src" / f"t{number}.rt").write_text(renamed(text, copied, suffix))
    (crate / "cases" / f"{number:03}").write_text(f"{number:03}")
    (crate / "cases" / f"{number:03}.stdout").write_text(written)
    return lines, list(map(named, used_by(text)))


def ran(folder):
    """What 'rt try' says of the cases of a program, by their numbers."""
    run = subprocess.run(["rt", "try", "--cases", "cases"], cwd=folder, text=True, errors="replace", stdin=subprocess.DEVNULL, stdout=subprocess.PIPE, stderr=subprocess.STDOUT)
    return {int(one[1]): outcome(one[2], "output=expected" in one[0]) for one in TOLD.finditer(run.stdout)}, run.stdout


def outcome(ended, expected):
    """Whether a run comes out as its case says. One that stops at a fault comes out different: as it is, the code has none. One
    that gave no answer in its time says nothing."""
    return expected if ended == "ended" else False if ended.startswith("fault") else f"no answer: run={ended}"


@functools.cache
def every_code():
    """The code of all crates, as they are."""
    return {name: code_of(name, None) for name in crates()}


def write_crates(root):
    """Writes all crates, those of exports for C as plain libraries: a program can call no others."""
    (root / ".git").mkdir()
    (root / "crates.txt").write_text((ROOT / "crates.txt").read_text().replace(" staticlib:", ":"))
    for name, code in every_code().items():
        for file, words in code.items():
            path = root / "crates" / name / file
            path.parent.mkdir(parents=True, exist_ok=True)
            path.write_text(renamed(words, [], ""))


def run_program(case, edit):
    """Whether the repository's program comes out as its file says."""
    name = case.removeprefix("program ")
    with tempfile.TemporaryDirectory(prefix="trial-") as folder:
        root = pathlib.Path(folder)
        write_crates(root)
        crate = root / "crates" / name
        for file, words in (code_of(edit.crate, edit) if edit else {}).items():
            (root / "crates" / edit.crate / file).write_text(words)
        (crate / "cases").mkdir()
        given, wanted = ROOT / "crates" / name / "stdin", ROOT / "crates" / name / "stdout"
        (crate / "cases" / "000").write_bytes(given.read_bytes() if given.is_file() else b"")
        (crate / "cases" / "000.stdout").write_bytes(wanted.read_bytes() if wanted.is_file() else b"")
        found, said = ran(crate)
    came = found.get(0, said[-500:])
    return False if edit and edit.path.stem in ENDLESS and str(came).startswith("no answer") else came


def run(tries):
    """Runs tries, each a case and an edit, or None for the code as it is. For each, whether it comes out as the case says, or a
    text about what keeps it from being run."""
    found = {number: run_program(*one) for number, one in enumerate(tries) if one[0].startswith("program ")}
    with tempfile.TemporaryDirectory(prefix="trial-") as folder:
        root = pathlib.Path(folder)
        write_crates(root)
        crate, lines, used, tried = root / "crates" / "trial", [], {"io", "libc"}, []
        (crate / "src").mkdir(parents=True)
        (crate / "cases").mkdir()
        for number, (case, edit) in enumerate(tries):
            if number not in found:
                try:
                    more, named = add(root, number, case, edit)
                    lines, used, tried = lines + more, used | {*named}, [*tried, number]
                except Bad as bad:
                    found[number] = str(bad)
        modules = "\n".join(f"mod t{number};" for number in tried)
        calls = "\n".join(f"    if which == {number} {{\n        t{number}::run();\n    }}" for number in tried)
        (crate / "src" / "main.rt").write_text(MAIN.format(modules=modules, calls=calls))
        with (root / "crates.txt").open("a") as names:
            names.write("\n".join(["", *lines, f"trial: {' '.join(sorted(used))}"]) + "\n")
        told, said = ran(crate) if tried else ({}, "")
    if tried and not told and len(tried) > 1:
        # One of them is no program: the others are run without it.
        half = len(tried) // 2
        for some in (tried[:half], tried[half:]):
            found |= dict(zip(some, run([tries[number] for number in some])))
    else:
        found |= {number: told.get(number, said[-500:]) for number in tried}
    return [found[number] for number in range(len(tries))]
