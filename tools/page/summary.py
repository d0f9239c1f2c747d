"""What was explored, and what that says of all inputs."""
import collections

import regions
from markup import element, join
from unreached import is_instruction

from page.view import leaves_of

LINKS = [("unreached", "What no test reaches"), ("traps", "Traps"), ("functions", "Functions"), ("cuts", "Cuts"),
         ("source", "Source"), ("leaves", "Leaves"), ("forks", "Forks"), ("listing", "Instructions")]
RESTS = ("That each input is in exactly one leaf, and that the runs of one finished leaf take the same branches and jumps, is "
         "promised by the tool and proved. What a test executes isn't in its files: each was run again for this page by an "
         "interpreter that isn't proved, and its run was found to have the end, path, output and steps that the test says.")


def part(view):
    report = view.explored.report
    budgets = ", ".join(f"{key} {value}" for key, value in report["budgets"].items())
    asked = f"Input {' '.join(report['regions'])}, all else as in the file. Budgets: {budgets}."
    names = LINKS if view.lines else [link for link in LINKS if link[0] != "source"]
    return join(element("h1", view.program.path.name), element("p", asked, class_="faint"),
                element("nav", *(element("a", text, href=f"#{name}") for name, text in names)),
                claim(view), figures(view), "" if view.explored.doubted else element("p", RESTS, class_="faint small"))


def claim(view):
    """What is known of the inputs that no test shows."""
    doubted, cut = sorted(view.explored.doubted), view.unreached.cut
    if doubted:
        return box("unknown", "These files don't fit together.", doubts(doubted), id="doubts")
    if not cut:
        return box("none", "All paths are here.",
                   f"No leaf was cut: each of the {inputs(view)} is in one of the {leaves_of(len(view.leaves))}, and its run "
                   "executes what the leaf's test executes. So what no test reaches, no input reaches.")
    counts = collections.Counter(leaf.kind for leaf in view.leaves if leaf.sort() == "cut")
    kinds = ", ".join(f"{count:,} by {kind}" for kind, count in counts.items())
    return box("unknown", "Some paths may be missing.", join(
        f"Of {leaves_of(len(view.leaves))} {cut:,} {'was' if cut == 1 else 'were'} cut ({kinds}). What inputs of ",
        element("a", "cut leaves", href="#cuts"), " do from there on isn't known, so they may reach what no test reaches."))


def box(sort, head, said, **attributes):
    return element("p", element("b", head), " ", said, class_=f"claim {sort}", **attributes)


def doubts(ranks):
    some = ", ".join(map(str, ranks[:10])) + (" and others" if len(ranks) > 10 else "")
    return (f"Of leaf {some} the test is missing or another leaf's, or its run on this program isn't as it says, or the report says "
            "otherwise than the leaf: the files may be of several runs, or of another program. So what no test reaches is unknown.")


def inputs(view):
    """How many inputs there are."""
    total = sum(map(regions.count, view.explored.report["regions"]))
    return f"{256 ** total:,} inputs" if total <= 2 else f"2^{8 * total} inputs"


def figures(view):
    """The summary, and how much of the program the tests reach."""
    summary, words, branches = view.explored.report["summary"], view.program.words, view.explored.branches()
    instructions = [address for address, word in words if is_instruction(address, word, view.coverage)]
    executed = sum(view.coverage.executed[address] > 0 for address in instructions)
    sides = sum(view.coverage.sides[address, side] > 0 for address, _ in branches for side in "TN")
    rows = [(f"{summary[name]:,}", name) for name in ("leaves", "finished", "cut", "tests", "steps")]
    rows += [(f"{sum(leaf.sort() == 'trap' for leaf in view.leaves):,}", "traps")]
    rows += [(f"{executed:,} of {len(instructions):,}", "instructions executed")]
    rows += [(f"{sides:,} of {2 * len(branches):,}", "sides of branches taken")]
    return element("ul", *(element("li", element("b", value), " ", name) for value, name in rows), class_="sums")
