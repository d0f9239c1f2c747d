"""Where in a program the runs of a leaf are, by the leaf's path: of a leaf that has no test there is no run to look at.

A path has the side of each branch and the target of each jump by a register (docs/FORMATS.md), so with the program's words it leads
from step to step. That is known where the words are those of the file: on pages that no run writes to and that have no input.
"""
import collections

import disassembly
from coverage import Site
from regions import addresses

WRITABLE = 2
# The sites at which a path's entries are decided, as far as the walk leads; and the site behind the last step, or None where that
# isn't known.
Walk = collections.namedtuple("Walk", "decided site")


class Paths:
    """The paths through a program with these input regions."""

    def __init__(self, program, regions):
        self.program, self.sites = program, {}
        self.entry, pages = program.image
        fixed = {page for page, (flags, _) in pages.items() if not flags & WRITABLE}
        self.fixed = fixed - {address >> 8 for region in regions for address in addresses(region)}

    def walk(self, leaf):
        decided, entries, address = [], iter(leaf.entries), self.entry
        for _ in range(leaf.steps):
            site, entry = self.site(address), None
            if site and is_decided(site.word):
                decided.append(site)
                entry = next(entries, None)
            address = site and after(site, entry)
            if address is None:
                return Walk(decided, None)
        return Walk(decided, self.site(address))

    def site(self, address):
        """The site at an address, or None where runs may find another word there than the file has."""
        if address not in self.sites:
            is_known = address % 4 == 0 and address >> 8 in self.fixed
            self.sites[address] = Site(address, self.program.word(address)) if is_known else None
        return self.sites[address]


def is_jump_by_register(word):
    return word & 0x707F == 0x67


def is_decided(word):
    """Whether a path has an entry for an instruction."""
    return disassembly.is_branch(word) or is_jump_by_register(word)


def after(site, entry):
    """Where a run goes on behind an instruction with this entry of its path, or None where the entry doesn't fit."""
    address, word = site
    if is_jump_by_register(word):
        return int(entry[1:], 16) if entry and entry.startswith("@") else None
    goal = disassembly.target(address, word)
    if disassembly.is_branch(word) and entry != "T":
        return address + 4 if entry == "N" else None
    return address + 4 if goal is None else goal
