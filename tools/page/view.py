"""What the parts of the page share: what was found out, which leaves have a row, and how leaves, places and bytes are shown."""
import disassembly
from markup import code, element, folded, join
from regions import count
from report_files import BY_INPUT
from source_lines import source_lines

from page.shown_forks import shown_forks, shown_leaves
from page.shown_words import shown_words

# So many rows of leaves the page has at most, of a group then so many; and so many assertions of one.
MOST_ROWS, MOST_OF_GROUP, MOST_ASSERTIONS = 300, 20, 40
# Of a term that is written in one piece so many characters are shown.
MOST_TEXT = 300
# So many bytes stand on a line, of few and of many, and so many are shown of an output.
FEW_PER_LINE, MANY_PER_LINE, FEW, MOST_BYTES = 8, 16, 32, 64
# So many ranges of files are listed.
MOST_RANGES = 4
ALONE = "exit, each with a status of its own"
ORDER = {"trap": 0, "cut": 1, "exit": 2}
MARKS = {"trap": "✕", "cut": "✂", "exit": "✓"}
# What stands before a state; `none` and `unknown` are of what no test reaches.
STATE_MARKS = {"covered": "●", "partly": "◐", "none": "○", "unknown": "?"}


def counted(number, one, more):
    return f"{number:,} {one if number == 1 else more}"


def leaves_of(number):
    return counted(number, "leaf", "leaves")


def is_printable(byte):
    return 0x20 <= byte < 0x7F


def as_text(data):
    """Bytes as text, with a dot for what isn't a printable character; nothing where none is."""
    return "".join(chr(byte) if is_printable(byte) else "·" for byte in data) if any(map(is_printable, data)) else ""


def spaced(data):
    """Bytes in hexadecimal, some on each line."""
    width = FEW_PER_LINE if len(data) <= FEW else MANY_PER_LINE
    lines = (data[place:place + width] for place in range(0, len(data), width))
    return join(*[part for line in lines for part in (element("br"), line.hex(" "))][1:])


def shown_bytes(data):
    """As hexadecimal, and where some are printable as text; the first of many."""
    if not data:
        return ""
    text, more = as_text(data[:MOST_BYTES]), f" and {len(data) - MOST_BYTES:,} more" if len(data) > MOST_BYTES else ""
    return join(code(spaced(data[:MOST_BYTES])), join(element("br"), code(f'"{text}"')) if text else "", more)


def shortened(text):
    return text if len(text) <= MOST_TEXT else f"{text[:MOST_TEXT]} …"


def ranges(ranks):
    """The first and last of ranks, in increasing order, that follow one another."""
    found = []
    for rank in ranks:
        if found and found[-1][1] == rank - 1:
            found[-1][1] = rank
        else:
            found.append([rank, rank])
    return found


def site_text(site):
    return "nothing that can be executed" if site.word is None else disassembly.text(*site)


def leaf_name(rank):
    return f"leaf-{rank:06}.smt2"


def file_names(ranks):
    """The files of leaves: `leaf-000002.smt2, leaf-000004.smt2 to leaf-000007.smt2`."""
    found = ranges(ranks)
    names = (leaf_name(first) + (f" to {leaf_name(last)}" if last > first else "") for first, last in found[:MOST_RANGES])
    return ", ".join(names) + (" and others" if len(found) > MOST_RANGES else "")


class View:
    def __init__(self, explored):
        self.explored, self.program, self.coverage = explored, explored.program, explored.coverage
        self.leaves, self.unreached = explored.leaves, explored.unreached
        self.lines = source_lines(explored.program)
        self.shown, self.left_out = shown_words(explored)
        self.listed = {address for shown in self.shown for address, _ in shown.words}
        self.groups = self.leaf_groups()
        self.most = MOST_ROWS if len(self.leaves) <= MOST_ROWS else max(1, min(MOST_OF_GROUP, MOST_ROWS // len(self.groups)))
        self.row_ranks = {leaf.rank for _, leaves in self.groups for leaf in leaves[:self.most]}
        self.forks = shown_forks(explored.forks.root)
        self.fork_ranks = shown_leaves(self.forks)

    def leaf_groups(self):
        """The leaves by how they end: traps first, and small groups before great ones. Leaves that are alone with their status
        are one group."""
        groups = {}
        for leaf in self.leaves:
            groups.setdefault((leaf.sort(), leaf.said), []).append(leaf)
        exits = [ending for ending in groups if ending[0] == "exit" and ending[1] != BY_INPUT]
        alone = [ending for ending in exits if len(groups[ending]) == 1]
        if len(alone) > 1:
            groups["exit", ALONE] = [leaf for ending in alone for leaf in groups.pop(ending)]
        return sorted(groups.items(), key=lambda group: (ORDER[group[0][0]], len(group[1]), len(group[0][1]), group[0][1]))

    def link(self, rank):
        """A leaf by its rank: a link where it has a row."""
        return element("a", f"leaf {rank}", href=f"#leaf-{rank}") if rank in self.row_ranks else f"leaf {rank}"

    def at(self, address, inside):
        """A link to an instruction's row of the listing, where it has one."""
        return element("a", inside, href=f"#at-{address:x}") if address in self.listed else inside

    def input_of(self, leaf):
        """The input of a leaf's test, region by region."""
        if leaf.test is None:
            return element("span", "no test", class_="faint")
        parts, rest = [], leaf.input()
        for region in self.explored.report["regions"]:
            parts += [element("br"), code(spaced(rest[:count(region)]))]
            rest = rest[count(region):]
        return join(*parts[1:])

    def line_of(self, address):
        """`ltv.c:43`, where the file says so."""
        found = self.lines.get(address)
        return f"{found[0].rpartition('/')[2]}:{found[1]}" if found else ""

    def site(self, site):
        """An instruction with its place, and its line of source."""
        if site is None:
            return element("span", "a place that isn't known", class_="faint")
        line = self.line_of(site.address)
        parts = [code(site_text(site)), element("br"), code(self.program.where(site.address))]
        return join(*parts, *([" ", element("span", line, class_="faint")] if line else []))

    def instruction(self, site):
        """An instruction with its place, on one line."""
        return code(f"{self.program.where(site.address)} {site_text(site)}") if site else "a fork"

    def state(self, address, word):
        """`covered`, `partly`, or for an instruction that no test executes `none` or `unknown`."""
        state = self.coverage.state(address, word)
        return self.unreached.sort if state == "not" else state

    def assertions(self, leaf):
        """The assertions of a leaf one below the other, and the named terms of these and of its status."""
        condition = leaf.condition
        lines = [element("li", code(shortened(line))) for line in condition.asserted[:MOST_ASSERTIONS]]
        if len(condition.asserted) > MOST_ASSERTIONS:
            left = len(condition.asserted) - MOST_ASSERTIONS
            lines.append(element("li", f"and {left} more, in {leaf.name}"))
        named = condition.named_in([*condition.asserted[:MOST_ASSERTIONS], condition.status() or ""])
        lines += [element("li", "where ", code(shortened(f"{name} = {text}"))) for name, text in named[:MOST_ASSERTIONS]]
        return element("ul", *lines)

    def condition(self, leaf):
        condition, asserted = leaf.condition, len(leaf.condition.asserted)
        head = counted(asserted, "assertion", "assertions") if asserted else "all inputs"
        return folded(head, self.assertions(leaf)) if asserted or condition.named_in([condition.status() or ""]) else head

    def more(self, leaves):
        """That there are more leaves than have a row, and their files."""
        return element("p", f"and {len(leaves):,} more, in {file_names([leaf.rank for leaf in leaves])}", class_="faint")
