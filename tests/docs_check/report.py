"""Counts checks, and prints those that fail."""


class Report:
    def __init__(self):
        self.checks = self.failed = 0

    def note(self, place, wrong):
        """Counts a check. `wrong` says what is wrong at a place, or is empty."""
        self.checks += 1
        if wrong:
            self.failed += 1
            print(f"{place}: {wrong}", flush=True)

    def end(self):
        """Prints the last line; the exit status."""
        print(f"{self.checks} checks, {self.failed} failed")
        return 1 if self.failed else 0
