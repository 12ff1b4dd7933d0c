#!/usr/bin/env python3
"""The must-fail edits: each must be refused by the prover because something that was true no longer is.

An edit is a slip in same-shaped code or in a definition. Its file has 'file:', 'old:' and 'new:' lines, as rt takes
them, and says what the slip must bring about:

    refused in: PLACE   where the prover refuses it: proofs/FUNCTION for a function of the code, whether or not it has a
                        folder of that name, or a file of proofs
    fact: NAME          of a definition: the computed example in that file that no longer holds
    refuted: CASE       of a theorem: the case in which the prover shows that the edited sentence is false
    changes: CASE       of code: the case of the trial that comes out different (trial.py)
    renamed: OLD NEW    a name that Rattle makes after the code, in its function's proof, and what it is after the slip:
                        it is carried over, so that the proof is refused for what it says (as many as are needed)

That the prover refuses is not enough: it also refuses what only fits a proof's text no longer. A definition has changed
if an equation without variables now computes to another value (refusal.py), and code has changed if it writes something
else on some input. Contracts state the whole answer, so then no proof of them could pass. An edit that changes nothing
is worthless, and fails. worthless/*.edit are such edits, of the crate that their line 'crate:' names: they pass only if
they are found so, in the words of their line 'worthless:'.

crates/NAME/must-fail   tried by rt ci too, which asks only that they are refused
crates/NAME/slips       of crates that take long to prove: tried here alone
refutations/NAME.txt    cases in which an edited theorem is false: after what they share, each from a line '-- case CASE'

Each is tried over what a check has proved of its crate, which is brought up to date first. A proof rests on its own
function's code and on contracts. So slips that are each in the function whose proof refuses them are tried at once, if
none of these functions calls another of them. Where a proof's file only names what an edit took away, the edit is
tried once more without that file, and the prover must then find values at which something that must hold is false. An
example of a definition rests on definitions, so an edit of them is tried on the example, with the definitions and the
lemmas that its file cites (copies.py). The cases of the trial are run many in one program.

What passes is kept outside the checkout, under a sum of all that it stood on (kept.py). A run tries only what is not
kept: an edit whose text, crate or a crate below has changed, and a case whose code has changed. With --anew it tries all.
So the first run on a machine takes long, some half an hour on four cores, and one after which nothing has changed only
reads files. The last lines say how much was tried.

    check.py                    all of them; the libraries that rt ci has built are taken
    check.py --slips NAME..     only the edits of these crates
    check.py --jobs N           N at a time, in place of one for each core
"""
import argparse
import concurrent.futures
import functools
import os
import pathlib
import re
import shutil
import subprocess
import sys
import time

HERE = pathlib.Path(__file__).resolve().parent
sys.path[:0] = [str(HERE), str(HERE.parent)]

import kept  # noqa: E402
import trial  # noqa: E402
from copies import copy_of, definitions_with, lemma_files, prove, renew, stands_alone  # noqa: E402
from edit import ROOT, Bad, Edit, crates, edits_of, functions_in, own_function  # noqa: E402
from refusal import false_goals, is_example, refused, refused_functions  # noqa: E402
from tally import Tally  # noqa: E402

# How many tries one program of the trial has.
AT_ONCE = 40
ONLY_NAMES = "is refused only because a file of its proof names what is gone"


def text_of(edit):
    """The text of the file of proofs in which an edit must be refused."""
    file = ROOT / "crates" / edit.crate / edit.place
    return file.read_text() if file.is_file() else ""


def problem(edit, log, same):
    """What is wrong with an edit, or None: its log, and whether its case comes out the same, or its sentence is not refuted."""
    if "\nlogic=" not in log:
        return "no verdict: " + log[-300:]
    if edit.of_code():
        functions = refused_functions(log, edit.crate)
        if not functions:
            return "not refused"
        if edit.function() not in functions:
            return f"not refused in {edit.place}, but in {', '.join(functions)}"
        if not functions[edit.function()]:
            return f"{edit.place} {ONLY_NAMES}"
        if not isinstance(same, bool):
            return f"'{edit.case}' cannot be run: {same}"
        return f"changes nothing: '{edit.case}' comes out the same, though {edit.place} is refused" if same else None
    found = [one for one in refused(log) if not one.idle()]
    if not found:
        return "not refused"
    here = [one for one in found if one.file == edit.place]
    if edit.refuted:
        if not here:
            return f"not refused in {edit.place}, but in {found[0].file}"
        return f"changes nothing: it is not refuted, though {edit.place} is refused" if same else None
    if not edit.fact or not is_example(text_of(edit), edit.fact):
        return f"{edit.place} has no computed example '{edit.fact}'"
    of_fact = [one for one in here if one.name == edit.fact]
    if not of_fact:
        return f"changes nothing: {edit.fact} still holds, though {found[0].file} is refused"
    return None if any(one.two_values() for one in of_fact) else f"{edit.fact} is refused, but does not show two values"


def told(edit, wrong, seconds=None):
    """The result of an edit: whether it passes, and a line about it."""
    took = "" if seconds is None else f" ({seconds:.0f} s)"
    if edit.worthless:
        good = (wrong or "").startswith(edit.worthless)
        return good, f"worthless {edit.label}: {'found so: ' if good else 'NOT found so: '}{wrong}{took}"
    seen = f"false {edit.refuted}" if edit.refuted else f"changes {edit.case if edit.of_code() else edit.fact}"
    return not wrong, f"{edit.kind} {edit.label}: {wrong or f'refused in {edit.place}; {seen}'}{took}"


@functools.cache
def calls(name):
    """The functions of a crate, each with those of the crate that it may call, and so on: whose names its text has."""
    texts = {}
    for file in sorted((ROOT / "crates" / name / "src").rglob("*.rt")):
        text = file.read_text()
        for function, module, begin, end in functions_in(file.relative_to(ROOT / "crates" / name), text):
            texts[module + function] = text[begin:end]
    last = lambda function: function.rpartition("/")[2]
    direct = {one: {other for other in texts if other != one and re.search(rf"\b{last(other)}(?:::<[^>]*>)?\(", text)} for one, text in texts.items()}
    found = {}
    for one in direct:
        found[one], waiting = set(), [one]
        while waiting:
            more = direct[waiting.pop()] - found[one]
            found[one] |= more
            waiting += more
    return found


def together(edit, other):
    """Whether two edits can be tried at once: each is in its own function, and neither of these calls the other."""
    one, two = own_function(edit), own_function(other)
    if edit.worthless or other.worthless or not one or not two or one == two:
        return False
    of = calls(edit.crate)
    return two not in of.get(one, ()) and one not in of.get(two, ())


def batches(edits):
    """The edits, those together that can be tried at once."""
    found = []
    for edit in edits:
        for batch in found:
            if all(together(edit, one) for one in batch):
                batch.append(edit)
                break
        else:
            found.append([edit])
    return found


def as_it_is(name):
    """Checks a crate in the checkout, so that its edits are tried over what is proved. What is wrong, or None."""
    run = subprocess.run(["rt", "check"], cwd=ROOT / "crates" / name, text=True, errors="replace", stdin=subprocess.DEVNULL, stdout=subprocess.PIPE, stderr=subprocess.STDOUT)
    return None if "\nlogic=proved" in "\n" + run.stdout else "the crate itself is not proved"


def shown_false(edit):
    """Whether the prover, left to itself with the edited function, finds values at which something that must hold is false."""
    with copy_of(edit.crate) as root:
        edit.apply(root / "crates" / edit.crate)
        shutil.rmtree(root / "crates" / edit.crate / edit.place, ignore_errors=True)
        return edit.function() in false_goals(prove(root, edit.crate))


def tried(batch, same):
    """Tries edits of a crate at once, over what the last check has proved of it."""
    name, began = batch[0].crate, time.time()
    with copy_of(name) as root:
        try:
            for edit in batch:
                edit.apply(root / "crates" / name)
            log = prove(root, name)
            wrong = [problem(edit, log, same.get(edit)) for edit in batch]
        except Bad as bad:
            wrong = [f"BAD EDIT: {bad}"] * len(batch)
    for at, edit in enumerate(batch):
        # The goals are named after the code, and a proof that cites them says nothing of an edit that renames one.
        if (wrong[at] or "").endswith(ONLY_NAMES) and same.get(edit) is False and shown_false(edit):
            wrong[at] = None
    took = (time.time() - began) / len(batch)
    return [(edit, *told(edit, one, took)) for edit, one in zip(batch, wrong)]


def tried_alone(edits):
    """Tries edits of definitions on the examples of one file, with the definitions alone; unedited, these must hold."""
    name, place, results = edits[0].crate, edits[0].place, []
    files = {file: (ROOT / "crates" / name / "proofs" / f"{file}.antt").read_text() for file in lemma_files(name, place)}
    with copy_of(name) as root:
        log = definitions_with(root, name, files)
        fine = "\nlogic=proved" in log
        for edit in edits:
            began = time.time()
            try:
                edit.apply(root / "crates" / name)
                wrong = problem(edit, definitions_with(root, name, files), None)
            except Bad as bad:
                wrong = f"BAD EDIT: {bad}"
                renew(root, name)
            wrong = wrong if fine else f"{place} does not hold with the definitions alone: {log[-300:]}"
            results.append((edit, *told(edit, wrong, time.time() - began)))
    return results


def refutation(edit):
    """The proof that the edited sentence is false: what the cases share, and the case that the edit names."""
    file = HERE / "refutations" / f"{edit.crate}.txt"
    shared, *cases = re.split(r"^-- case ", file.read_text() if file.is_file() else "", flags=re.MULTILINE)
    for case in cases:
        name, text = case.split("\n", 1)
        if name == edit.refuted:
            return shared + text
    raise Bad(f"there is no case '{edit.refuted}'")


def not_refuted(edit):
    """Whether the prover, given the edited definitions alone, does not show that the sentence is false."""
    try:
        text = refutation(edit)
        key = kept.refuting(edit, text)
        if kept.known(key):
            return False
        with copy_of(edit.crate) as root:
            edit.apply(root / "crates" / edit.crate)
            if "\nlogic=proved" not in definitions_with(root, edit.crate, {"Refuted": text}):
                return True
        kept.keep(key, "refuted")
        return False
    except Bad:
        return True


def tries_of(edits, cases):
    """The tries of the trial that edits name: each a case and an edit. As it is, the code is tried on these cases, and on theirs."""
    named = [(edit.case, edit) for edit in edits if edit.of_code() and edit.case and trial.known(edit.case)]
    return named + [(case, None) for case in dict.fromkeys([*cases, *(case for case, _ in named)])]


class Runner:
    """Runs the parts of the work side by side, and tells what each came to."""

    def __init__(self, jobs, anew):
        self.pool, self.anew, self.tally, self.old = concurrent.futures.ThreadPoolExecutor(jobs), anew, Tally(), 0

    def known(self, key):
        return None if self.anew else kept.known(key)

    def tell(self, good, line):
        self.tally.check(line, good)
        if good:
            print(line, flush=True)

    def trial(self, edits, cases):
        """Runs the cases of edits. For each edit, whether its case comes out the same, or what keeps it from being run."""
        same, left = {}, []
        for case, edit in tries_of(edits, cases):
            was = self.known(kept.running(case, edit))
            if was is None:
                left.append((case, edit))
            elif edit:
                same[edit] = was == "same"
            else:
                self.tell(True, f"trial {case}: comes out as it says (kept)")
        groups = [left[at:at + AT_ONCE] for at in range(0, len(left), AT_ONCE)]
        for group, found in zip(groups, self.pool.map(trial.run, groups)):
            for (case, edit), one in zip(group, found):
                if isinstance(one, bool) and (edit or one):
                    kept.keep(kept.running(case, edit), "same" if one else "different")
                if edit:
                    same[edit] = one
                else:
                    self.tell(one is True, f"trial {case}: {'comes out as it says' if one is True else 'comes out different' if one is False else one}")
        for edit in edits:
            if edit.of_code() and edit not in same:
                same[edit] = "there is no such case"
        return same

    def proofs(self, edits, same):
        """Tries edits in the prover."""
        left = []
        for edit in edits:
            was = self.known(kept.proof_of(edit))
            if was is None or edit.of_code() and same[edit] is not bool(edit.worthless):
                left.append(edit)
            else:
                self.old += 1
                self.tell(True, f"{was} (kept)")
        names = dict.fromkeys(edit.crate for edit in left)
        broken = {name: self.pool.submit(as_it_is, name) for name in names}
        parts = []
        for name in names:
            wrong, mine = broken[name].result(), [edit for edit in left if edit.crate == name]
            if wrong:
                for edit in mine:
                    self.tell(False, f"{edit.kind} {edit.label}: not tried: {wrong}")
                continue
            alone = [edit for edit in mine if stands_alone(edit)]
            for place in sorted({edit.place for edit in alone}):
                here = [edit for edit in alone if edit.place == place]
                parts += [self.pool.submit(tried_alone, here[at:at + 8]) for at in range(0, len(here), 8)]
            others = [edit for edit in mine if edit not in alone]
            parts += [self.pool.submit(self.tried, batch, same) for batch in batches(others)]
        for part in concurrent.futures.as_completed(parts):
            for edit, good, line in part.result():
                self.tell(good, line)
                if good:
                    kept.keep(kept.proof_of(edit), re.sub(r" \(\d+ s\)$", "", line))

    @staticmethod
    def tried(batch, same):
        return tried(batch, {**same, **{edit: not_refuted(edit) for edit in batch if edit.refuted}})


def main():
    parser = argparse.ArgumentParser(description=__doc__, formatter_class=argparse.RawDescriptionHelpFormatter)
    parser.add_argument("--slips", nargs="+", metavar="NAME", help="only the edits of these crates")
    parser.add_argument("--jobs", type=int, default=min(os.cpu_count() or 1, 4), metavar="N", help="how many at a time")
    parser.add_argument("--anew", action="store_true", help="try all, whatever is kept")
    given = parser.parse_args()
    names = given.slips or list(crates())
    worthless = [edit for edit in map(Edit, sorted((HERE / "worthless").glob("*.edit"))) if edit.crate in names]
    edits = [edit for name in names for edit in edits_of(name)] + worthless
    kept.shrink()
    runner = Runner(given.jobs, given.anew)
    same = runner.trial(edits, [] if given.slips else trial.every_case())
    runner.proofs(edits, same)
    print(f"{len(edits)} edits: {len(edits) - runner.old} tried in the prover in this run, {runner.old} kept from earlier runs of the same text")
    return runner.tally.finish()


if __name__ == "__main__":
    sys.exit(main())
