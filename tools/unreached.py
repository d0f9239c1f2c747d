"""What no test reaches, and what a report says of it.

Each input is in exactly one leaf, and the runs of one finished leaf take the same branches and jumps, so they execute what the
leaf's test executes (docs/PROMISES.md). Where no leaf was cut, what no test reaches is thus reached by no input at all. Where one
was, its inputs may go on to there: no test and no file says.
"""
import collections

import disassembly

# Instructions one behind the other in a function that no test executes: the first, the last, and how many they are.
Stretch = collections.namedtuple("Stretch", "function first last count")
# A branch that tests reach and leave by one side only, and the other side, `T` or `N`.
MissingSide = collections.namedtuple("MissingSide", "address word side")
SIDES = {"T": "taken", "N": "not taken"}


class Unreached:
    """What is known of all that no test reaches: `sort` is `none` or `unknown`; of an instruction `here`, of a side `there`."""

    def __init__(self, cut, is_doubted):
        self.cut, self.sort = cut, "unknown" if cut or is_doubted else "none"
        why = "1 cut leaf stops before it" if cut == 1 else f"{cut:,} cut leaves stop before it"
        if is_doubted:
            why = "the files don't fit together"
        self.here = f"unknown: {why}" if self.sort == "unknown" else "no input gets here"
        self.there = f"unknown, {why}" if self.sort == "unknown" else "no input goes there"


def is_instruction(address, word, coverage):
    """Whether a word counts as an instruction: a row of the table, or what a test executes."""
    return disassembly.instruction(address, word) is not None or coverage.executed[address] > 0


def stretches(functions, coverage):
    found = []
    for function in functions.rows:
        last = None
        for address, word in function.words:
            if not is_instruction(address, word, coverage):
                continue
            if coverage.executed[address]:
                last = None
            elif last is None:
                last = Stretch(function, address, address, 1)
                found.append(last)
            else:
                last = found[-1] = last._replace(last=address, count=last.count + 1)
    return found


def missing_sides(program, coverage):
    sides = ((address, word, coverage.missing_side(address, word)) for address, word in program.words)
    return [MissingSide(*side) for side in sides if side[2]]
