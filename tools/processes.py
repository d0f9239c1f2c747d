"""The processes of a run, from /proc: what they take, and all that a process has started."""
import os
import pathlib

TICKS, PAGE = os.sysconf("SC_CLK_TCK"), os.sysconf("SC_PAGE_SIZE")


def table():
    """Of each process its parent, the seconds of processors that it has taken, and its bytes of memory."""
    found = {}
    for place in pathlib.Path("/proc").glob("[0-9]*/stat"):
        try:
            text = place.read_text()
        except OSError:
            continue
        fields = text[text.rindex(")") + 2:].split()
        found[int(place.parent.name)] = int(fields[1]), (int(fields[11]) + int(fields[12])) / TICKS, int(fields[21]) * PAGE
    return found


def below(pid, found):
    """The process and all that stand below it in the table."""
    reached = [pid]
    for parent in reached:
        reached += [child for child, row in found.items() if row[0] == parent]
    return reached


def taken(pid):
    """The seconds and the memory of a process and all below it."""
    found = table()
    rows = [found[each] for each in below(pid, found) if each in found]
    return sum(row[1] for row in rows), sum(row[2] for row in rows)
