"""The leaves, by how they end; of many the first of each group."""
from markup import code, element, join, table

from page.view import MARKS, as_text, leaves_of, shown_bytes


def part(view):
    return join(element("h2", "Leaves", id="leaves"), *(group(view, *found) for found in view.groups))


def group(view, ending, leaves):
    sort, said = ending
    head = f" {said}: {leaves_of(len(leaves))}"
    rows = [row(view, leaf) for leaf in leaves[:view.most]]
    # A column with nothing in it is left out.
    heads = [head for head in rows[0] if any(cells[head] for cells in rows)]
    more = view.more(leaves[view.most:]) if len(leaves) > view.most else ""
    return join(element("h3", element("span", MARKS[sort], class_="mark", aria_hidden="true"), head, class_=sort),
                table(heads, [[cells[head] for head in heads] for cells in rows]), more)


def row(view, leaf):
    data, output = leaf.input() or b"", leaf.output()
    return {
        "Leaf": named(view, leaf.rank), "Input": view.input_of(leaf),
        "As text": code(as_text(data)) if as_text(data) else "", "Output": shown_bytes(output), "Steps": f"{leaf.steps:,}",
        "Status" if leaf.sort() == "exit" else "Where": last(view, leaf), "Condition": view.condition(leaf),
    }


def named(view, rank):
    """A leaf's rank, with a link to its place in the tree of forks where that is shown."""
    return element("a", rank, id=f"leaf-{rank}", href=f"#fork-{rank}" if rank in view.fork_ranks else None)


def last(view, leaf):
    """Where a run trapped or was cut, or the status of one that ended."""
    if leaf.sort() == "cut":
        return view.site(view.explored.cut_sites.get(leaf.rank))
    if leaf.sort() == "trap":
        trap = view.explored.traps.get(leaf.rank)
        return view.site(trap and trap.site)
    status, of_test = leaf.condition.status(), leaf.test["end"].split()[1] if leaf.test else "unknown"
    return join(f"{of_test} for this input: ", code(status)) if status else of_test
