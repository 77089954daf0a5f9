"""How a script here counts what it tries."""


class Count:
    """How many passed, failed and were skipped; what failed or was skipped is printed at once."""

    def __init__(self, script):
        self.script = script
        self.passed = self.failed = self.skipped = 0

    def says(self, what, fault):
        """Counts one as failed where there is a fault to tell of it, and else as passed."""
        if fault:
            self.fails(f"{what}: {fault}")
        else:
            self.passed += 1

    def fails(self, why):
        self.failed += 1
        print(f"{self.script}: {why}", flush=True)

    def told(self):
        """Prints the last line, and gives the script's status. A script that tried nothing failed."""
        if not self.passed and not self.failed:
            self.fails("nothing was tried")
        print(f"{self.passed} passed, {self.failed} failed" + (f", {self.skipped} skipped" if self.skipped else ""))
        return 1 if self.failed else 0
