"""Runs of tests on the interpreter of bench/routines, and what they execute."""
import collections

import disassembly
from program import interpreter
from regions import addresses

# Where a run is at a step, and the word there, or None where none can be fetched.
Site = collections.namedtuple("Site", "address word")


class Pages(dict):
    """An image's pages in a run. Each is copied once it is used, since the run may write to it."""

    def __init__(self, image):
        super().__init__()
        self.image = image

    def __contains__(self, page):
        return page in self.image

    def __missing__(self, page):
        flags, data = self.image[page]
        self[page] = flags, bytearray(data)
        return self[page]


class TracedRun(interpreter.Machine):
    """A run of a test. Of each step it has where it is, and what it decides: the word that is fetched, then sides and numbers."""

    def __init__(self, image, test):
        entry, pages = image
        super().__init__((entry, {}), b"")
        self.pages, self.places, self.decided = Pages(pages), [], []
        # As a list, which grows by what is added; a text would be copied each time.
        self.path = []
        self.put_input(test)
        self.run(test["steps"])
        self.path = "".join(self.path)

    def put_input(self, test):
        places = (address for region in test["regions"] for address in addresses(region))
        for address, value in zip(places, bytes.fromhex(test["input"])):
            self.pages[address >> 8][1][address & 255] = value

    def read(self, address, size):
        """What is read is aligned, so it is on one page."""
        at = address & 255
        return int.from_bytes(self.pages[address >> 8][1][at:at + size], "little")

    def run(self, steps):
        """As the interpreter's, but that of each step only what it decides is kept, and the same is kept once."""
        kept = {}
        while self.end == "running" and len(self.places) < steps:
            self.places.append(self.pc)
            decided = []
            try:
                self.step(decided)
            except interpreter.Trap as trap:
                self.end = f"trap {trap}"
            except interpreter.Exit as status:
                self.end = f"exit {status}"
            decided = tuple(decided)
            self.decided.append(kept.setdefault(decided, decided))

    def is_as(self, test):
        """Whether the run is as the test says."""
        here = self.end, self.path, self.output.hex(), len(self.places)
        return here == (test["end"], test["path"], test["output"].lower(), test["steps"])

    def site(self, step):
        return Site(self.places[step], next(iter(self.decided[step]), None))

    def executed(self):
        """The addresses whose words it fetched: only the last step of a run may fetch none."""
        return set(self.places if not self.decided or self.decided[-1] else self.places[:-1])


def next_site(run, steps):
    """Where a run is after so many steps, or None where it has ended before."""
    return run.site(steps) if steps < len(run.places) else None


class Coverage:
    """How many tests execute an address, and how many go to either side of a branch there."""

    def __init__(self):
        self.executed, self.sides = collections.Counter(), collections.Counter()

    def add(self, run):
        """Counts a test's run. Gives the addresses that it executes."""
        reached = run.executed()
        self.executed.update(reached)
        branches = (step for step in zip(run.places, run.decided) if len(step[1]) > 1 and disassembly.is_branch(step[1][0]))
        self.sides.update({(place, decided[1]) for place, decided in branches})
        return reached

    def missing_side(self, address, word):
        """The side, `T` or `N`, of a branch by which no test leaves it, where one leaves it by the other; else None."""
        missing = [side for side in "TN" if not self.sides[address, side]]
        return missing[0] if disassembly.is_branch(word) and len(missing) == 1 else None

    def state(self, address, word):
        """`covered`, `partly` where tests go to one side of a branch only, or `not`."""
        if not self.executed[address]:
            return "not"
        return "partly" if self.missing_side(address, word) else "covered"
