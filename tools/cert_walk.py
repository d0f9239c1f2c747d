"""The lines of a certificate that a report gives: the walk through its fork tree by its leaves. A report doesn't say where a run
had one way only, nor what shows that; such lines aren't there."""

ORDER = {"N": 0, "Y": 1, "R": 3}


def tree_of(leaves):
    """The fork tree: nodes by their choices, each leaf under `None`."""
    root = {}
    for leaf in leaves:
        node = root
        for choice in leaf.choices:
            node = node.setdefault(choice, {})
        node[None] = leaf
    return root


def in_order(node):
    return sorted(node, key=lambda choice: (ORDER.get(choice, 2), choice))


def side(choice, kid):
    """A side of a split; one that is cut at once says for what."""
    leaf = kid.get(None)
    return f"{choice}!{leaf.kind}" if leaf and leaf.kind in ("targets", "conflicts") else choice


def leaf_lines(leaf):
    if leaf.kind == "finished":
        return [f"end {leaf.test['input']}"]
    if leaf.kind == "steps":
        return [f"cut steps {leaf.test['input']}"]
    if leaf.kind == "nodes":
        return ["cut nodes"]
    if leaf.kind == "targets":
        return [line for line in leaf.spent if line.startswith("v ")]
    return leaf.spent[next(at for at, line in enumerate(leaf.spent) if line.startswith("; inputs")):]


def walk(leaves):
    """The lines of the walk, a node before its kids."""
    ahead = [tree_of(leaves)]
    while ahead:
        node = ahead.pop()
        if None in node:
            yield from leaf_lines(node[None])
            continue
        kids = in_order(node)
        yield " ".join(["split"] + [side(choice, node[choice]) for choice in kids])
        ahead.extend(node[choice] for choice in reversed(kids))


def heading(report):
    budgets = report["budgets"]
    numbers = " ".join(str(budgets[name]) for name in ("steps", "targets", "conflicts", "nodes"))
    return ["rvklee cert 1", f"regions {' '.join(report['regions'])}", f"budgets {numbers}"]
