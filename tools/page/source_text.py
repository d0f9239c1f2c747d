"""The lines of source that have instructions, with their states."""
import collections

from markup import code, element, folded, join
from source_lines import read_source
from unreached import is_instruction

from page.trap_table import by_address, trap_marks
from page.view import STATE_MARKS

# So many lines are shown around those with instructions, and so many rows in all.
AROUND, MOST_ROWS = 2, 2_000
SAID = ("Each line by the instructions that come from it. A line that has none, as a comment or what the compiler left out, has "
        "no mark.")
NEWER = "The file is newer than the program: its lines may be others than those that were compiled."


def part(view):
    if not view.lines:
        return ""
    states, traps = line_states(view), line_traps(view)
    files = sorted(states, key=lambda file: (all(state == view.unreached.sort for state in states[file].values()), file))
    left, parts = MOST_ROWS, []
    for file in files:
        made, rows = file_part(view, file, states[file], traps, left)
        parts, left = [*parts, made], left - rows
    return join(element("h2", "Source", id="source"), element("p", SAID, class_="faint"), *parts)


def line_states(view):
    """By file and line its state: `partly` where some of its instructions or sides aren't reached."""
    found = collections.defaultdict(lambda: collections.defaultdict(set))
    for address, word in view.program.words:
        if address in view.lines and is_instruction(address, word, view.coverage):
            file, line = view.lines[address]
            found[file][line].add(view.state(address, word))
    return {file: {line: one_state(states) for line, states in lines.items()} for file, lines in found.items()}


def one_state(states):
    return next(iter(states)) if len(states) == 1 else "partly"


def line_traps(view):
    found = collections.defaultdict(list)
    for address, traps in by_address(view.explored).items():
        if address in view.lines:
            found[view.lines[address]] += traps
    return found


def file_rows(texts, file, states, traps):
    """The number, text and state of each line that is shown, with its traps."""
    near = sorted({line for middle in states for line in range(middle - AROUND, middle + AROUND + 1) if 0 < line <= len(texts)})
    return [(line, texts[line - 1], states.get(line), traps[file, line]) for line in near]


def file_part(view, file, states, traps, most):
    """A file with at most so many rows, and how many it has."""
    missing = sum(state == view.unreached.sort for state in states.values())
    head = join(code(file), f": {len(states) - missing:,} of {len(states):,} lines with instructions are reached by tests")
    texts, is_newer = read_source(file, view.program)
    if texts is None:
        return element("p", head, ". The file can't be read here."), 0
    note = element("p", NEWER, class_="cut")
    rows = file_rows(texts, file, states, traps)[:most]
    if not rows:
        return element("p", head), 0
    return folded(head, note if is_newer else "", table(view, rows), is_open=missing < len(states)), len(rows)


def table(view, rows):
    made, last = [], None
    for line, text, state, traps in rows:
        if last is not None and line > last + 1:
            made.append(element("tr", element("td", "⋮", colspan=4)))
        made.append(row(view, line, text, state, traps))
        last = line
    return element("div", element("table", element("tbody", *made), class_="listing source code"), class_="wide")


def row(view, line, text, state, traps):
    known = {"covered": "", None: "", "partly": f"some of it: {view.unreached.there}"}.get(state, view.unreached.here)
    kind = f"partly {view.unreached.sort}" if state == "partly" else state
    cells = [str(line), STATE_MARKS.get(state, ""), text, join(known, trap_marks(traps))]
    return element("tr", *(element("td", cell) for cell in cells), class_=f"{kind} trapped" if traps else kind)
