"""Which forks of the tree the page shows: those with most leaves below."""
import heapq
import itertools

MOST_FORKS = 250


def all_forks(root):
    """The forks of a tree."""
    left = [root]
    while left:
        fork = left.pop()
        if fork.sides:
            yield fork
            left += fork.sides.values()


def shown_forks(root):
    """The root and those below, each of which has more leaves than any that isn't shown below the same forks."""
    found, order = set(), itertools.count()
    left = [(0, next(order), root)] if root.sides else []
    while left and len(found) < MOST_FORKS:
        fork = heapq.heappop(left)[2]
        found.add(fork)
        for side in fork.sides.values():
            if side.sides:
                heapq.heappush(left, (-side.count, next(order), side))
    return found


def shown_leaves(forks):
    """The ranks of the leaves that are a side of these forks."""
    return {side.leaf.rank for fork in forks for side in fork.sides.values() if side.leaf}
