"""What no test reaches: instructions by stretches, sides of branches, and what is known of each."""
import disassembly
from markup import code, element, folded, join, table
from unreached import SIDES, missing_sides, stretches

from page.view import STATE_MARKS, counted

# So many rows stand in each table.
MOST_ROWS = 150


def part(view):
    found, sides = stretches(view.explored.functions, view.coverage), missing_sides(view.program, view.coverage)
    whole = [stretch for stretch in found if not view.explored.passes[stretch.function.start]]
    inside = [stretch for stretch in found if view.explored.passes[stretch.function.start]]
    parts = [inside_table(view, inside), side_table(view, sides), whole_list(view, whole)]
    if not found and not sides:
        parts = [element("p", "Nothing: a test executes each instruction, and each branch is left by both its sides.")]
    return join(element("h2", "What no test reaches", id="unreached"), *parts)


def said(view, text):
    return join(element("span", STATE_MARKS[view.unreached.sort], class_="mark", aria_hidden="true"), " ", text)


def limited(heads, rows, sort):
    more = f"and {len(rows) - MOST_ROWS:,} more" if len(rows) > MOST_ROWS else ""
    return join(table(heads, rows[:MOST_ROWS], class_=f"unreached {sort}"), element("p", more, class_="faint") if more else "")


def inside_table(view, found):
    if not found:
        return ""
    known = said(view, view.unreached.here)
    rows = [[known, place(view, each.first, each.last), f"{each.count:,}", lines(view, each)] for each in found]
    has_lines = any(row[-1] for row in rows)
    heads, rows = ["Known", "Instructions", "Number", "Source"][:3 + has_lines], [row[:3 + has_lines] for row in rows]
    return join(element("h3", "Instructions"), limited(heads, rows, view.unreached.sort))


def place(view, first, last):
    """A stretch as a link to its place in the listing."""
    text = view.program.where(first) if first == last else f"0x{first:x} to 0x{last:x}"
    name = view.program.place(first) if first != last else ""
    return view.at(first, code(text + (f" <{name}>" if name else "")))


def lines(view, stretch):
    """The source lines of a stretch, from the least to the greatest of its first file."""
    inside = (address for address, _ in stretch.function.words if stretch.first <= address <= stretch.last)
    found = [view.lines[address] for address in inside if address in view.lines]
    numbers = [line for file, line in found if file == found[0][0]]
    if not numbers:
        return ""
    name = found[0][0].rpartition("/")[2]
    return f"{name}:{min(numbers)}" + (f" to {max(numbers)}" if max(numbers) > min(numbers) else "")


def side_table(view, sides):
    if not sides:
        return ""
    rows = [side_row(view, side) for side in sides]
    return join(element("h3", "Sides of branches"), limited(["Known", "Side", "Branch", "Where"], rows, view.unreached.sort))


def side_row(view, side):
    text = view.at(side.address, code(disassembly.text(side.address, side.word)))
    where = join(code(view.program.where(side.address)), " ", element("span", view.line_of(side.address), class_="faint"))
    return [said(view, view.unreached.there), SIDES[side.side], text, where]


def whole_list(view, found):
    """The functions of which no test executes an instruction."""
    if not found:
        return ""
    names = [f"{stretch.function.name} ({stretch.count:,})" for stretch in found]
    head = f"{counted(len(names), 'function', 'functions')} as a whole"
    shown = ", ".join(names[:MOST_ROWS]) + (f" and {len(names) - MOST_ROWS:,} more" if len(names) > MOST_ROWS else "")
    listed = element("p", "With the numbers of their instructions: ", code(shown), class_="names")
    known = element("p", said(view, view.unreached.here), class_=f"unreached {view.unreached.sort}")
    return join(element("h3", head), known, folded("their names", listed, is_open=len(names) <= 20))
