"""Counts checks: the first that fail are named, and the last line says 'N passed, M failed'."""


class Tally:
    def __init__(self, shown=None):
        """At most `shown` failures are named, or all."""
        self.passed = self.failed = 0
        self.shown = shown

    def check(self, what, holds):
        """Counts one check, and names it where it fails."""
        if holds:
            self.passed += 1
            return
        self.failed += 1
        if self.shown is None or self.failed <= self.shown:
            print(f"failed: {what}")

    def finish(self):
        """Prints the last line; the exit status."""
        print(f"{self.passed} passed, {self.failed} failed")
        return self.failed != 0


def rows(counter):
    """How often each row was met, 0 for accepted, in one line."""
    return ", ".join(f"{'accepted' if n == 0 else f'refused {n}'} {c}" for n, c in sorted(counter.items()))
