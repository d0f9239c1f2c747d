"""A report and its program, with each test run again: what the page is made of."""
import collections

import disassembly
from coverage import Coverage, Site, TracedRun
from forks import Forks
from functions import Functions
from path_walk import Paths
from regions import addresses
from report_files import TESTED
from unreached import Unreached

# Where a run trapped: the site, the site of the step before it (None of a first step), and the address of a load or a store, or
# None.
Trap = collections.namedtuple("Trap", "end site origin address")


def trap_of(leaf, run):
    return Trap(leaf.end, run.site(-1), run.site(-2) if len(run.places) > 1 else None, run.address)


class Exploration:
    """What is found out of each leaf: of those that trap where, by their ranks, and of those that were cut where. `doubted` are
    the leaves whose test's run here isn't as the test says, or that aren't as the report says."""

    def __init__(self, program, files):
        self.program, self.files, self.leaves, self.report = program, files, files.leaves, files.report
        self.functions, self.coverage, self.forks = Functions(program), Coverage(), Forks()
        self.traps, self.cut_sites, self.passes = {}, {}, collections.Counter()
        self.doubted = {leaf.rank for leaf in files.differing()}
        self.find_regions()
        self.paths = Paths(program, self.report["regions"])
        for leaf in self.leaves:
            self.add(leaf)
        self.cut_sites |= self.forks.cut_sites
        self.unreached = Unreached(sum(leaf.sort() == "cut" for leaf in self.leaves), bool(self.doubted))

    def find_regions(self):
        """Ends the script where the report's input isn't in the program."""
        _, pages = self.program.image
        for region in self.report["regions"]:
            if not all(address >> 8 in pages for address in addresses(region)):
                why = f"the report's input {region} is on no page of {self.program.path}"
                raise SystemExit(f"{why}: give the PROGRAM that was explored")

    def add(self, leaf):
        run = self.run_of(leaf)
        self.forks.add(leaf, run, None if leaf.kind in TESTED else self.paths.walk(leaf))
        if run is None:
            return
        self.passes.update(self.functions.starts_of(self.coverage.add(run)))
        if leaf.sort() == "trap":
            self.traps[leaf.rank] = trap_of(leaf, run)
        if leaf.kind == "steps":
            self.cut_sites[leaf.rank] = Site(run.pc, self.word(run.pc))

    def run_of(self, leaf):
        """The run of a leaf's test, where it has one that runs as it says."""
        if leaf.test is None:
            return None
        run = TracedRun(self.program.image, leaf.test) if leaf.test["regions"] == self.report["regions"] else None
        if run is None or not run.is_as(leaf.test):
            self.doubted.add(leaf.rank)
            return None
        return run

    def word(self, address):
        """A word of the program's file, or None where the address has none."""
        pages = self.program.image[1]
        return self.program.word(address) if address % 4 == 0 and address >> 8 in pages else None

    def branches(self):
        return [(address, word) for address, word in self.program.words if disassembly.is_branch(word)]
