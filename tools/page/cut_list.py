"""What was cut, by the budget and the place."""
from markup import code, element, join

from page.view import file_names, leaves_of

# In the order in which they are told, what a spent budget means.
BUDGETS = {
    "steps": ("The runs go on after so many steps. Raise ", code("--steps"), ", or shorten the routine's loops."),
    "targets": ("A number on which the run depends, as a page of memory, has more values than were followed. Raise ",
                code("--targets"), " (64 at most)."),
    "conflicts": ("The solver's budget was spent before it was known whether any input goes this way. Raise ",
                  code("--conflicts"), "."),
    "nodes": ("The tree had so many forks and leaves that no run was forked any more, and here one would fork. Raise ",
              code("--nodes"), " (1,000,000 at most)."),
}
# So many places are listed of a budget, and so many values of a leaf.
MOST_PLACES, MOST_VALUES = 40, 16


def part(view):
    cut = [leaf for leaf in view.leaves if leaf.sort() == "cut"]
    parts = [budget(view, kind, [leaf for leaf in cut if leaf.kind == kind]) for kind in BUDGETS]
    nothing = "" if cut else element("p", "Nothing." if view.explored.doubted else "Nothing: the leaves are all paths.")
    return join(element("h2", "What was cut", id="cuts"), nothing, *parts)


def budget(view, kind, leaves):
    if not leaves:
        return ""
    places = {}
    for leaf in leaves:
        places.setdefault(view.explored.cut_sites.get(leaf.rank), []).append(leaf)
    shown = sorted(places.items(), key=lambda place: -len(place[1]))
    more = [element("p", f"and at {len(shown) - MOST_PLACES} more places", class_="faint")] if len(shown) > MOST_PLACES else []
    given = view.explored.report["budgets"].get(kind)
    head = f"Budget of {kind}{'' if given is None else f', {given:,}'}: {leaves_of(len(leaves))}"
    parts = (place(view, site, some) for site, some in shown[:MOST_PLACES])
    return join(element("h3", head), element("p", *BUDGETS[kind]), *parts, *more)


def place(view, site, leaves):
    """The leaves that were cut at a place, the first in full."""
    leaf = leaves[0]
    rest = f"; also {file_names([other.rank for other in leaves[1:]])}" if len(leaves) > 1 else ""
    head = element("p", element("b", leaves_of(len(leaves))), " before ", view.site(site))
    first = element("p", view.link(leaf.rank), f", {leaf.name}, after {leaf.steps:,} steps", rest)
    stands = element("p", "Still stands for " + ("the inputs with" if leaf.condition.asserted else "all inputs"))
    return element("div", head, first, values(leaf), stands, view.assertions(leaf), class_="note")


def values(leaf):
    """The values that were followed in place of this leaf."""
    found = leaf.values()
    if leaf.kind != "targets" or not found:
        return ""
    more = f" and {len(found) - MOST_VALUES} more" if len(found) > MOST_VALUES else ""
    return element("p", "Followed: ", code(", ".join(f"0x{value}" for value, _ in found[:MOST_VALUES])), more)
