"""The traps, grouped by their place."""
from markup import code, element, join, table

from page.view import MARKS, as_text, file_names, leaves_of

MOST_ROWS = 150


def groups(explored):
    """The ranks of the leaves that trap, by the trap and the address of the instruction that trapped; where none could be
    fetched, by that of the one that went there."""
    found = {}
    for rank, trap in explored.traps.items():
        place = trap.origin if trap.site.word is None and trap.origin else trap.site
        found.setdefault((trap.end, place.address), []).append(rank)
    return found


def by_address(explored):
    """The traps of each instruction: their name and the number of leaves."""
    found = {}
    for (end, address), ranks in groups(explored).items():
        found.setdefault(address, []).append((end, len(ranks)))
    return found


def trap_marks(found):
    """The traps of a place, as `by_address` has them."""
    return join(*(element("span", f" {MARKS['trap']} {end}: {leaves_of(count)}", class_="trap") for end, count in found))


def part(view):
    found = groups(view.explored)
    heads = ["Trap", "Where", "Leaves", "An input", "As text"]
    rows = [row(view, end, ranks) for (end, _), ranks in sorted(found.items(), key=lambda group: group[0][::-1])]
    if not any(cells[-1] for cells in rows):
        heads, rows = heads[:-1], [cells[:-1] for cells in rows]
    said = table(heads, rows[:MOST_ROWS], class_="traps") if rows else element("p", none(view))
    more = element("p", f"and at {len(rows) - MOST_ROWS:,} more places", class_="faint") if len(rows) > MOST_ROWS else ""
    return join(element("h2", "Traps", id="traps"), said, more)


def none(view):
    if view.unreached.sort == "none":
        return "None: no input ends in a trap."
    return "No test ends in a trap. Inputs of cut leaves may." if view.unreached.cut else "No test ends in a trap."


def row(view, end, ranks):
    trap, leaf = view.explored.traps[ranks[0]], view.leaves[ranks[0]]
    rest = element("div", f"and {file_names(ranks[1:])}", class_="faint small") if len(ranks) > 1 else ""
    name = join(element("span", MARKS["trap"], class_="mark trap", aria_hidden="true"), " ", end)
    leaves, text = join(leaves_of(len(ranks)), ", as ", view.link(leaf.rank), rest), as_text(leaf.input())
    return [name, where(view, trap), leaves, view.input_of(leaf), code(text) if text else ""]


def where(view, trap):
    """The instruction, and the address that it needed; of a fetch where it came from."""
    if trap.site.word is None:
        came = join("from ", view.site(trap.origin)) if trap.origin else "the program starts there"
        return join(code(f"0x{trap.site.address:08x}"), " can't be executed", element("br"), came)
    reached = join(element("br"), code(f"address 0x{trap.address:08x}")) if trap.address is not None else ""
    return join(view.site(trap.site), reached)
