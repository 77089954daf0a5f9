"""How long crates take to be proved: as a manifest tells, and as it is found."""

import re
import sys
import time

# What is guessed of a crate whose time isn't told.
SECONDS = 60
# How much longer it takes than if no processor were ever idle.
IDLE = 1.3


def seconds_in(manifest):
    """The seconds of processor time that each crate takes from nothing, as the manifest's lines 'seconds CRATE NUMBER' tell."""
    lines = manifest.read_text().splitlines() if manifest.is_file() else []
    return {line.split()[1]: int(line.split()[2]) for line in lines if line.startswith("seconds ")}


def is_from_nothing(crate, log):
    """Whether nothing of the crate had been proved before, by what rt says."""
    return re.search(rf"^crate {crate}: modules loaded=0 ", log, re.MULTILINE) is not None


class Progress:
    """Tells which crate is proved, and how long the others take by their times and by how fast these went."""

    def __init__(self, uses, times, lanes):
        self.seconds, self.lanes = {name: times.get(name, SECONDS) for name in uses}, lanes
        self.chain, self.proved, self.begun = self.chains(uses), set(), time.monotonic()
        self.whole = self.left()
        self.say(f"{len(uses)} crates are proved, which takes about {self.minutes(self.whole)}")

    def chains(self, uses):
        """For each crate the seconds of the longest chain of crates that begins with it."""
        longest = {}
        for name in reversed(uses):
            above = [longest[other] for other in longest if name in uses[other]]
            longest[name] = self.seconds[name] + max(above, default=0)
        return longest

    def left(self):
        """The seconds that what isn't proved takes, and at least half of its longest chain: more than one processor makes a
        check shorter, by half at most."""
        names = self.seconds.keys() - self.proved
        work = IDLE * sum(self.seconds[name] for name in names) / self.lanes
        return max([work, *[self.chain[name] / 2 for name in names]])

    def tell(self, name):
        """Tells that this crate is proved."""
        self.proved.add(name)
        left, count = self.left(), f"{len(self.proved)} of {len(self.seconds)}"
        done, gone = self.whole - left, time.monotonic() - self.begun
        pace = gone / done if done > self.whole / 10 else 1
        self.say(f"{name} ({count}), {self.minutes(left * pace)} left" if left else f"{name} ({count})")

    @staticmethod
    def minutes(seconds):
        return f"{max(1, round(seconds / 60))} min"

    @staticmethod
    def say(text):
        print(f"syncaudit: {text}", file=sys.stderr, flush=True)
