#!/usr/bin/env python3
"""Brings the names of this repository's definitions and lemmas to today's spelling: words in snake case, with a dash
between two names. It was run once, in the commit that docs/PORT.md names, after the toolchain's own script.

usage: port_names.py [--list]      at the top of the repository
"""
import os
import re
import sys

NAME = r"[^\s(){}\[\];,.:λ⌜⌝\"`]+"
DECLARED = re.compile(r"^\s*(?:(?:abbrev|unfoldable|pub)\s+)*(?:record\s+|data\s+|module\s+)?(" + NAME + r")(?:\s+[({].*)?\s*:(?=\s|$)")
# Words of the library that lemmas are named after.
LIBRARY = set("length take drop append map set cond concat tabulate get_or sum reverse filter zip add mul sub".split())
# Names that Rattle makes: what a proof by hand declares under them is not ours to name.
MADE = re.compile(r"(?:-requires|-spec|_spec|-init|-preserved|-smaller|-result|^returns|^invariant|^decreases|^add-|^sub-|^mul-|^cast-|"
                  r"^bounds-|^overflow|^slice_|^array-|^element-)")


def files(ends, top="crates"):
    for folder, dirs, names in os.walk(top):
        dirs[:] = sorted(d for d in dirs if d not in ("out", ".git", "target"))
        for n in sorted(names):
            if n.endswith(ends):
                yield os.path.join(folder, n)


def text_of(path):
    with open(path, encoding="utf-8") as f:
        return f.read()


def snake(word):
    word = re.sub(r"(?<=[a-z0-9'])(?=[A-Z])", "_", word)
    return word.lower() if word[:1].islower() else word


def declared():
    """The names that specs/ and proofs/ declare, those of specs/ apart, and the names that come from a library."""
    ours, specs, library = set(), set(LIBRARY), set()
    for path in files(".antt"):
        text = text_of(path)
        for line in text.splitlines():
            if line.startswith(("use ", "pub use ")) and "Rattle." not in line:
                library |= set(re.findall(NAME, line.split("{", 1)[1])) if "{" in line else set()
            m = DECLARED.match(line)
            if m and not line.lstrip().startswith("--"):
                name = m.group(1)
                if path.endswith("Proof.antt") and (MADE.search(name) or "-" in name):
                    continue
                ours.add(name)
                if "/specs/" in path and "-" not in name:
                    specs.add(name)
                    specs.add(snake(name))
    return ours, specs, library


def spelled(name, words):
    if not name[:1].islower() and "-" not in name:
        return name
    parts = [p if p[:1].isupper() or not re.match(r"^[a-z]", p) else snake(p) for p in name.split("-")]
    out = parts[0]
    for left, right in zip(parts, parts[1:]):
        names = all(w in words or (w[:1].isupper() and len(w) > 1) for w in (left, right))
        out += ("-" if names else "_") + right
    return out


def seen_words():
    """Every word of the proofs and definitions, and of the sources."""
    antt, source = set(), set()
    for path in files((".antt", ".rt")):
        (antt if path.endswith(".antt") else source).update(TOKEN.findall(text_of(path)))
    return antt, source


def table():
    """The new name of each name: a definition's first, then what would fall together with it gets `_lem`."""
    ours, words, library = declared()
    antt, source = seen_words()
    turned = {}
    for name in sorted(ours):
        if re.match(r"^[a-z][\w']*$", name) and spelled(name, words) != name:
            turned[name] = spelled(name, words)
    for new in sorted(set(turned.values())):
        if new in ours and new not in source:
            turned[new] = new + "_lem"
        elif new in antt and new not in ours and new not in source:
            turned[new] = new + "_here"
    taken = antt | source | set(turned.values())
    for name in sorted(ours):
        if name in library or "-" not in name or not re.match(r"^[\w'-]+$", name):
            continue
        new = spelled(name, words)
        if new != name:
            new = new + "_lem" if new in taken else new
            taken.add(new)
            turned[name] = new
    return turned, ours


TOKEN = re.compile(r"[\w'·′-]+")


def turn(path, text, turned):
    by_hand, page = path.endswith("Proof.antt"), path.endswith((".md", ".py"))

    def one(m):
        word = m.group(0)
        if word not in turned:
            return word
        # In a page a dashed word may be prose.
        if page and "-" in word and text[m.start() - 1:m.start()] != "`":
            return word
        # A field of a generated record is not ours to name, nor is a part of a module's path.
        if text[m.start() - 1:m.start()] == "." and ("-" in word and by_hand or text[m.end():m.end() + 1] == "."):
            return word
        return turned[word]
    return TOKEN.sub(one, text)


def main():
    turned, ours = table()
    if "--list" in sys.argv:
        for name, new in turned.items():
            print(name, new)
        twice = sorted(new for new in set(turned.values()) if list(turned.values()).count(new) > 1)
        print("fall together:", twice)
        return
    for path in files((".antt", ".rt", ".edit", ".md", ".py"), "."):
        if path.endswith("port_names.py"):
            continue
        text = text_of(path)
        new = turn(path, text, turned)
        if new != text:
            with open(path, "w", encoding="utf-8") as f:
                f.write(new)


if __name__ == "__main__":
    main()
