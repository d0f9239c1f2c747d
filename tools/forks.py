"""The tree of forks that a report's leaves come from, and where in the program each fork is.

No file says where. But the runs of two sides of a fork decide alike up to it and differ there (docs/FORKING.md), so the runs of
a test of each show the place; of a side that was cut there, the leaf's number of steps does. Leaves come by rank, so each fork is
where two neighbours part that have a test, or a cut leaf and its neighbour: one run is kept at a time. Of a leaf without a test
the walk of its path may show where it was cut, and at which branch it parts from its neighbours.
"""
from coverage import next_site
from report_files import TESTED


class Fork:
    """A place of the tree: a leaf, or a fork with its sides by their choices. Of the leaves below it there are the number, that
    of traps, the first and the last rank; `site` is where in the program the fork is, or None where that isn't known."""
    __slots__ = ("sides", "leaf", "site", "count", "traps", "first", "last")

    def __init__(self):
        self.sides, self.leaf, self.site, self.first = {}, None, None, None
        self.count, self.traps, self.last = 0, 0, 0

    def add(self, leaf):
        self.count += 1
        self.traps += leaf.sort() == "trap"
        self.first = self.first or leaf
        self.last = leaf.rank

    def widest(self):
        """The choice of the side that is a fork and has most leaves, or None where all are leaves."""
        forks = [choice for choice, side in self.sides.items() if side.sides]
        return max(forks, key=lambda choice: self.sides[choice].count, default=None)


class Forks:
    """The tree, to which leaves are added by rank. `cut_sites` are the places at which leaves were cut that have no test."""

    def __init__(self):
        self.root, self.cut_sites = Fork(), {}
        self.before, self.last, self.waiting = None, None, []

    def add(self, leaf, run, walk):
        """Adds a leaf with the run of its test, or None, and where it should have no test with the walk of its path."""
        choices, path = leaf.choices, [self.root]
        for choice in choices:
            path.append(path[-1].sides.setdefault(choice, Fork()))
        for place in path:
            place.add(leaf)
        path[-1].leaf = leaf
        self.part_by_path(leaf, walk, path)
        if leaf.kind not in TESTED:
            self.stop(leaf, choices, walk)
        elif run:
            self.part(choices, run, path)
            self.before = choices, run
        self.settle()

    def part(self, choices, run, path):
        """Finds where a run parts from that of the last test before it."""
        if self.before is None:
            return
        other, other_run = self.before
        fork, step = path[shared(choices, other)], first_difference(run, other_run)
        if fork.site is None and step is not None:
            fork.site = run.site(step)

    def part_by_path(self, leaf, walk, path):
        """Finds the branch at which a leaf parts from the one before it, where the path of one was walked: the entries of both are
        alike up to that one."""
        (other, other_walk), self.last = self.last or (leaf, None), (leaf, walk)
        walk = walk or other_walk
        if walk is None:
            return
        fork, entry = path[shared(leaf.choices, other.choices)], shared(leaf.entries, other.entries)
        if fork.site is None and "Y" in fork.sides and entry < len(walk.decided):
            fork.site = walk.decided[entry]

    def stop(self, leaf, choices, walk):
        """Notes where a leaf was cut that has no test: by nodes behind its fork, and else at it."""
        self.cut_sites[leaf.rank] = walk.site
        if leaf.kind != "nodes":
            self.waiting.append((leaf, choices))
            self.fork_of(choices).site = self.fork_of(choices).site or walk.site

    def settle(self):
        """Finds where leaves were cut that are on a side of a fork which the last run passes."""
        choices, run = self.before or ([], None)
        beside = [(leaf, cut) for leaf, cut in self.waiting if run and shared(cut, choices) == len(cut) - 1]
        for leaf, cut in beside:
            self.cut_sites[leaf.rank] = self.fork_of(cut).site = next_site(run, leaf.steps)
        self.waiting = [waits for waits in self.waiting if waits not in beside]

    def fork_of(self, choices):
        """The fork of which these choices lead to a side."""
        place = self.root
        for choice in choices[:-1]:
            place = place.sides[choice]
        return place


def shared(one, other):
    """How many choices two lists begin with alike."""
    return next((place for place, (here, there) in enumerate(zip(one, other)) if here != there), min(len(one), len(other)))


def first_difference(one, other):
    """The first step at which two runs decide otherwise, or None."""
    return next((step for step, (here, there) in enumerate(zip(one.decided, other.decided)) if here != there), None)
