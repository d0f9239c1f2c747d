"""The tree of forks, and at which instructions most forks are."""
import collections

from markup import code, element, folded, join, table

from page.shown_forks import all_forks
from page.view import MARKS, counted, file_names, leaves_of, shortened

# So many places with forks are listed.
MOST_PLACES = 12
SIDES = {"N": "not taken", "Y": "taken", "R": "any other value"}
SAID = ("Each fork with its instruction, and its sides in the order of the leaves. The side with most leaves goes on below, "
        "the others unfold.")


def part(view):
    root = view.explored.forks.root
    if not root.sides:
        said = "None: all inputs take one path" + (", as far as it was followed." if view.unreached.cut else ".")
        return join(element("h2", "Forks", id="forks"), element("p", said))
    tree = Tree(view)
    return join(element("h2", "Forks", id="forks"), places(view), element("p", SAID, tree.limit(), class_="faint"),
                element("div", tree.chain(root, 0), class_="forks wide"))


def places(view):
    """The instructions with most forks, where some have several."""
    counts = collections.Counter(fork.site for fork in all_forks(view.explored.forks.root))
    if max(counts.values()) == 1:
        return ""
    rows = [[view.site(site), f"{count:,}"] for site, count in counts.most_common(MOST_PLACES)]
    head = f"{counted(sum(counts.values()), 'fork', 'forks')} at {counted(len(counts), 'instruction', 'instructions')}"
    return folded(head + ": where most are", table(["Instruction", "Forks"], rows))


class Tree:
    def __init__(self, view):
        self.view, self.open, self.count = view, view.forks, sum(1 for _ in all_forks(view.explored.forks.root))

    def limit(self):
        return f" Of {self.count:,} forks the {len(self.open)} with most leaves are shown." if self.count > len(self.open) else ""

    def chain(self, fork, depth):
        """A fork and those behind its widest side, one below the other, so that a deep tree isn't nested deeply."""
        parts = []
        while fork in self.open:
            widest = fork.widest()
            sides = [element("li", self.side(choice, side, depth, choice == widest)) for choice, side in fork.sides.items()]
            parts += [element("li", self.view.instruction(fork.site), " ", below(fork), element("ul", *sides))]
            fork, depth = fork.sides.get(widest), depth + 1
        return element("ul", *parts, class_="chain")

    def side(self, choice, side, depth, is_widest):
        # The rest of a term's values has an assertion for each that was found, which its name says already.
        asserted = "" if choice == "R" else added(side.first, depth)
        head = join(element("b", SIDES.get(choice) or f"0x{choice[1:]}"), " ", asserted)
        if side.sides and side not in self.open:
            return join(head, " ", below(side), ": ", file_names(range(side.first.rank, side.last + 1)))
        if is_widest:
            return join(head, element("span", " goes on below ↓", class_="faint"))
        if side.sides:
            return folded(join(head, " ", below(side)), self.chain(side, depth + 1))
        leaf, sort = side.leaf, side.leaf.sort()
        mark = element("span", MARKS[sort], class_=f"mark {sort}", aria_hidden="true")
        return join(head, " ", mark, " ", element("span", self.view.link(leaf.rank), id=f"fork-{leaf.rank}"), f": {leaf.said}")


def below(fork):
    """How many leaves are below, and how many of them are traps."""
    traps = element("span", f", {counted(fork.traps, 'trap', 'traps')}", class_="trap") if fork.traps else ""
    return element("span", leaves_of(fork.count), traps, class_="faint")


def added(leaf, depth):
    """What a side adds to the condition: the assertion at its depth of a leaf below it, where that needs no named term."""
    condition = leaf.condition
    if len(condition.asserted) < len(leaf.choices) or condition.named_in([condition.asserted[depth]]):
        return ""
    return code(shortened(condition.asserted[depth]))
