"""A row for each function of the program that a test passes."""
import disassembly
from markup import code, element, join, table
from unreached import is_instruction

from page.trap_table import by_address

HEADS = ["Function", "Leaves that pass it", "Instructions executed", "Sides of branches taken", "Traps", "The rest"]
MOST_ROWS = 200


def part(view):
    passed = [function for function in view.explored.functions.rows if view.explored.passes[function.start]]
    traps = by_address(view.explored)
    rows = [row(view, function, traps) for function in passed[:MOST_ROWS]]
    more = f"{len(passed):,} of {len(view.explored.functions.rows):,} functions are passed by a test"
    more += "." if len(passed) <= MOST_ROWS else f"; these are the first {MOST_ROWS}."
    return join(element("h2", "Functions", id="functions"), element("p", more, class_="faint"), table(HEADS, rows))


def row(view, function, traps):
    words, coverage = function.words, view.coverage
    instructions = [address for address, word in words if is_instruction(address, word, coverage)]
    executed = sum(coverage.executed[address] > 0 for address in instructions)
    branches = [address for address, word in words if disassembly.is_branch(word)]
    sides = sum(coverage.sides[address, side] > 0 for address in branches for side in "TN")
    trapped = sum(count for address, _ in words for _, count in traps.get(address, ()))
    missed = executed < len(instructions) or sides < 2 * len(branches)
    known = {"none": "no input gets there", "unknown": "unknown"}[view.unreached.sort]
    return [view.at(function.start, code(function.name)), f"{view.explored.passes[function.start]:,}",
            f"{executed} of {len(instructions)}", f"{sides} of {2 * len(branches)}" if branches else "no branch",
            element("span", f"{trapped:,}", class_="trap") if trapped else "", known if missed else "all is reached"]
