"""Counts what is held true in a test of the desk, and closes with 'N passed, M failed'."""

import sys


class Tally:
    def __init__(self):
        self.passed = self.failed = 0

    def that(self, holds, what, *more):
        """Counts one thing that must hold; tells it where it does not."""
        if holds:
            self.passed += 1
        else:
            self.failed += 1
            print("FAILED:", what, *more, file=sys.stderr)
        return bool(holds)

    def same(self, found, wanted, what):
        return self.that(found == wanted, what, "\n  found  %r\n  wanted %r" % (found, wanted))

    def close(self):
        print("%d passed, %d failed" % (self.passed, self.failed))
        return 0 if self.passed and not self.failed else 1
