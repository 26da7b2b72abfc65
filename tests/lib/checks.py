"""The count of what passed and failed."""
import threading


def report(passed, failed):
    """Prints the last line of a script, and returns its exit status."""
    print("%d passed, %d failed" % (passed, failed))
    return 1 if failed else 0


class Checks:
    """Counts what holds and what doesn't, and prints the first failures. Many threads may use it at once."""

    def __init__(self, shown=10):
        self.lock = threading.Lock()
        self.shown = shown
        self.passed = self.failed = 0

    def check(self, holds, text, *what):
        """Counts one of the two. The text describes the failure; what follows is put in as `%` does."""
        with self.lock:
            if holds:
                self.passed += 1
                return
            self.failed += 1
            if self.failed <= self.shown:
                print("FAILED: " + (text % what if what else text), flush=True)

    def report(self):
        """Prints the last line, and returns the exit status."""
        return report(self.passed, self.failed)
