"""An edit: a slip in code or in a definition, with what it must bring about. See check.py for its lines."""
import pathlib
import re

ROOT = pathlib.Path(__file__).resolve().parents[2]
NAMES = ("crate", "refused in", "fact", "refuted", "changes", "worthless")
FUNCTION = re.compile(r"^(?P<in> *)(?:pub(?:\([a-z]+\))? )?(?:extern \"C\" )?fn (?P<name>\w+)", re.MULTILINE)


class Bad(Exception):
    """An edit that cannot be tried as it is written."""


class Edit:
    def __init__(self, path):
        self.path = path
        self.pairs, self.renamed, said, file, old = [], {}, {}, None, None
        for line in path.read_text().splitlines():
            name, _, text = line.partition(":")
            text = text.removeprefix(" ")
            if name == "file":
                file = text
            elif name == "old":
                old = text
            elif name == "new":
                self.pairs.append((file, old, text))
            elif name == "renamed":
                self.renamed |= [text.split()]
            elif name in NAMES:
                said[name] = text
        self.crate = said.get("crate") or path.parents[1].name
        self.place = said.get("refused in") or "?"
        self.fact, self.refuted, self.case = said.get("fact"), said.get("refuted"), said.get("changes")
        self.worthless = said.get("worthless")
        self.kind = path.parent.name
        self.label = f"{self.crate}/{path.stem}"

    def of_code(self):
        return all(file.startswith("src/") for file, _, _ in self.pairs)

    def function(self):
        """The function whose proof must refuse an edit of code, as its folder in proofs/ is named."""
        return self.place.removeprefix("proofs/")

    def edited(self, crate):
        """The texts of the files that the edit changes, made by its replacements, one after the other."""
        texts = {}
        if not self.pairs:
            raise Bad("it has no 'old:' and 'new:' pair")
        for name, old, new in self.pairs:
            text = texts.get(name) or (crate / name).read_text()
            if text.count(old) != 1:
                raise Bad(f"{name} has its 'old:' text {text.count(old)} times")
            texts[name] = text.replace(old, new)
        return texts

    def apply(self, crate):
        """Makes the replacements in a copy of the crate, and brings names that change with the code into its function's proof."""
        for name, text in self.edited(crate).items():
            (crate / name).write_text(text)
        if self.renamed:
            names = re.compile("|".join(rf"{'(?<!' if name[0].isalpha() else '(?<='}\w){re.escape(name)}(?![\w'])" for name in self.renamed))
            for file in (crate / self.place).glob("*.antt"):
                file.write_text(names.sub(lambda found: self.renamed[found[0]], file.read_text()))


def edits_of(name):
    """The edits of a crate."""
    return [Edit(path) for kind in ("must-fail", "slips") for path in sorted((ROOT / "crates" / name / kind).glob("*.edit"))]


def crates(root=ROOT):
    """The crates, each with those that it names, lowest first."""
    lines = (line.partition(":") for line in (root / "crates.txt").read_text().splitlines() if ":" in line and not line.startswith("#"))
    return {name.split()[0]: names.split() for name, _, names in lines}


def below(name):
    """The crates of the repository below one, and so on, lowest first."""
    every, found, waiting = crates(), set(), [name]
    while waiting:
        more = {one for one in every[waiting.pop()] if one in every} - found
        found |= more
        waiting += more
    return [one for one in every if one in found]


def functions_in(file, text):
    """The functions of a file of code, each with where its text begins and ends, as their folders in proofs/ are named."""
    module = "/".join(pathlib.PurePath(file).with_suffix("").parts[1:])
    module = "" if module in ("lib", "main") else module + "/"
    found = list(FUNCTION.finditer(text))
    for one, other in zip(found, [*found[1:], None]):
        of = re.findall(r"^impl\b[^{]*?(\w+) *\{", text[:one.start()], re.MULTILINE)[-1:] if one["in"] else []
        yield "/".join([*of, one["name"]]), module, one.start(), other.start() if other else len(text)


def own_function(edit):
    """The function that an edit of code is all in, if it is the one whose proof must refuse it; else None."""
    found = set()
    for file, old, _ in edit.pairs if edit.of_code() else ():
        text = (ROOT / "crates" / edit.crate / file).read_text()
        at = text.find(old)
        found |= {module + name for name, module, begin, end in functions_in(file, text) if begin <= at < end} if at >= 0 else {None}
    return edit.function() if found == {edit.function()} else None
