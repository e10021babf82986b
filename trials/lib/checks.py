"""The facts that a trial looks at, and how it ends."""

import sys

# The status of a trial that can't be tried on this machine; its last line is `missing: NAME`.
MISSING = 77


class Checks:
    """Facts that are to hold. A trial passes if there were some, and all held."""

    def __init__(self):
        self.failed = self.held = 0

    def check(self, holds, text):
        print(("yes: " if holds else "NO:  ") + text, flush=True)
        self.failed += not holds
        self.held += bool(holds)

    def end(self):
        print(f"{self.held} of {self.held + self.failed} facts held")
        sys.exit(0 if self.held and not self.failed else 1)


def missing(name):
    """Ends a trial that lacks something on this machine."""
    print(f"missing: {name}")
    sys.exit(MISSING)


def seconds(took):
    """A duration as text, for a fact."""
    return "never" if took is None else f"{took:.2f} s"
