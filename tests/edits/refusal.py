"""What the prover refused, read from its log.

A function is refused where the log says so itself, and not only that it calls one which is refused: for a goal that the search
does not prove, or in a file of its proof. It counts for nothing that a proof's file names what the edit took away.

A fact of a definition is a computed example: an equation without variables, proved by computing both sides. It no longer
holds where the prover shows two different values in it. Such values are numbers and constructors; a text with anything
else in it is a term that computes no further, and tells nothing.
"""
import re

ERROR = re.compile(r"^(?:\./)?(\S+?):\d+:\d+: error: (?:`(?P<name>[^`]*)`: )?(?P<text>.*(?:\n  .*)*)", re.MULTILINE)
FUNCTION = re.compile(r"^fn (\S+?): (?!proved$)(?P<text>.*)$", re.MULTILINE)
FALSE = re.compile(r"^note: `[^`]*` of proofs/(\S+)/Answers\.antt may be false: the known facts allow ", re.MULTILINE)
WAITS = re.compile(r"no proof: it calls ")
IDLE = re.compile(r"was not admitted|has no field|has no `|is not in scope|unknown name|declares no")
DIFFERENT = re.compile(
    r"computed as far as they go, the two types (?:are|differ only where one has|first differ where one has) `([^`]*)`"
    r"\s+\(expected\)[^`]*`([^`]*)`\s+\(found\)"
)
VALUES = {"Path", "record", "true", "false", "accepted", "refused", "pos", "negsuc", "neg_suc", "[]", "◌∷◌", "∷", "written"}
TYPES = {"ℕ", "ℤ", "Bool", "List", "Outcome"}
FIELDS = {"sign", "row", "cell", "position", "wings"}


class Refused:
    """A declaration of a file of proofs that the prover refused: its file, its name, what is said of it."""

    def __init__(self, found):
        self.file, self.name, self.text = found[1], found["name"], found["text"]

    def idle(self):
        return bool(IDLE.search(self.text))

    def two_values(self):
        """Whether the refused equation computes to two different values."""
        found = DIFFERENT.search(self.text)
        return bool(found) and is_value(found[1]) and is_value(found[2]) and found[1] != found[2]


def is_value(text):
    """Whether a text has numbers and constructors only."""
    words = re.findall(r"[^\s(){};,=]+", text)
    return all(w.isdigit() or w.rsplit(".", 1)[-1] in VALUES | TYPES | FIELDS for w in words)


def refused(log):
    """All that was refused, in the log's order."""
    return [Refused(found) for found in ERROR.finditer(log)]


def refused_functions(log, crate):
    """The functions of the crate that were refused themselves, as their folders in proofs/ are named, each with whether more is
    said of it than that a file of its proof names what is gone."""
    errors, found = refused(log), {}
    for one in FUNCTION.finditer(log):
        name = one[1].removeprefix(f"{crate}::").replace("::", "/")
        own = [error for error in errors if error.file.startswith(f"proofs/{name}/")]
        if not WAITS.match(one["text"]) or own:
            found[name] = not own or any(not error.idle() for error in own)
    return found


def false_goals(log):
    """The functions of which the prover found values at which one of their goals is false."""
    return set(FALSE.findall(log))


def is_example(text, name):
    """Whether a file's declaration is an equation without variables, proved by computing, or several, or a record of such.

    An instance of a law counts too: what the law, as r, says at given values. A record may cite other declarations.
    """
    body = re.search(rf"^{re.escape(name)}(?P<given>(?: r)?) =\s+(?P<proof>\S.*(?:\n .*)*)", text, re.MULTILINE)
    if not body:
        return False
    proof = " ".join(body["proof"].split())
    if body["given"]:
        return re.fullmatch(r"r(\.[\w-]+)+( [^λ]*)?", proof) is not None
    several = r"\([\w-]+(, [\w-]+)*\)"
    return re.fullmatch(rf"refl|{several}|record \{{( [\w-]+ = ([\w-]+|{several});?)+ \}}", proof) is not None
