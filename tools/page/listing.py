"""The instructions, each with the tests that execute it, or what is known of it."""
import disassembly
from markup import element, join
from unreached import SIDES, is_instruction

from page.trap_table import by_address, trap_marks
from page.view import STATE_MARKS, counted

HEADS = ["Address", "Word", "Instruction", "Source", "Tests", "State"]
SAID = ("How many tests execute each instruction; of a branch also how many take it and how many don't, where one test may do "
        "both.")


def part(view):
    heads = [head for head in HEADS if head != "Source" or view.lines]
    traps, rows = by_address(view.explored), []
    for shown in view.shown:
        rows += before(view, shown, len(heads)) + [row(view, address, word, traps) for address, word in shown.words]
    head = element("thead", element("tr", *(element("th", name, scope="col") for name in heads)))
    inside = element("table", head, element("tbody", *rows), class_="listing code")
    rest = f"The {view.left_out:,} words behind are left out." if view.left_out else ""
    return join(element("h2", "Instructions", id="listing"), element("p", SAID, class_="faint"),
                element("div", inside, class_="wide"), element("p", rest, class_="faint"))


def before(view, shown, width):
    """The name before the first words of a function, and before others how many were left out."""
    rows = []
    if not shown.words or shown.words[0][0] == shown.function.start:
        more = f" and {counted(shown.functions - 1, 'function', 'functions')} behind it" if shown.functions > 1 else ""
        rows.append(element("tr", element("th", shown.function.name + more, scope="colgroup", colspan=width)))
    if shown.left_out:
        left_out = f"{STATE_MARKS[view.unreached.sort]} {counted(shown.left_out, 'word', 'words')} that no test executes"
        said = f"{left_out}: {view.unreached.here}"
        rows.append(element("tr", element("td", said, colspan=width), class_=view.unreached.sort))
    return rows


def row(view, address, word, traps):
    found, kind, said = traps.get(address, ()), *state(view, address, word)
    tests = f"{view.coverage.executed[address]:,}"
    if disassembly.is_branch(word) and view.coverage.executed[address]:
        tests += f" (taken {view.coverage.sides[address, 'T']:,}, not {view.coverage.sides[address, 'N']:,})"
    source = [view.line_of(address)] if view.lines else []
    cells = [f"{address:08x}", f"{word:08x}", text(view, address, word), *source, tests, join(said, trap_marks(found))]
    kind = f"{kind} trapped" if found else kind
    return element("tr", *(element("td", cell) for cell in cells), id=f"at-{address:x}", class_=kind)


def text(view, address, word):
    """The instruction, with the name of where a branch or a jump goes."""
    goal = disassembly.target(address, word)
    name = view.program.place(goal) if goal is not None else ""
    return disassembly.text(address, word) + (f" <{name}>" if name else "")


def state(view, address, word):
    """An instruction's state, and what is said of it. What is no instruction, and is executed by no test, has none."""
    if not is_instruction(address, word, view.coverage):
        return None, "no instruction"
    side, found = view.coverage.missing_side(address, word), view.state(address, word)
    if side:
        return f"partly {view.unreached.sort}", f"{STATE_MARKS['partly']} {SIDES[side]}: {view.unreached.there}"
    return found, f"{STATE_MARKS[found]} {view.unreached.here if found in ('none', 'unknown') else 'executed'}"
