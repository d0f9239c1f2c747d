"""What a run of `explore` found, in a few lines: traps by their places, what was cut, and whether anything rests on the input."""
import collections
import json
import os
import pathlib
import re
import shlex

from command_line import LIMITS
from coverage import TracedRun
from program import Program
from program_file import read
from test_text import as_joined

# So many steps of tests are made again to find where they trap: about a second.
MOST_STEPS = 200_000
MOST_LINES = 12
REPORT = pathlib.Path(__file__).resolve().parent / "report"
# In a leaf's text.
DEFINED = re.compile(r"^\(define-fun (\w+) \(\) \(_ BitVec \d+\) (.*)\)$", re.MULTILINE)
ASSERTED = re.compile(r"^\(assert \(= (n\d+) ", re.MULTILINE)


def lines(path, folder):
    folder = pathlib.Path(folder)
    report = json.loads((folder / "report.json").read_text())
    leaves = report["leaves"]
    yield from traps(path, folder, leaves)
    yield from cuts(leaves, report["budgets"])
    # Of several leaves the conditions differ, so they rest on the input; and so does where a run would fork.
    if len(leaves) == 1 and leaves[0]["kind"] != "nodes" and not rests_on_input((folder / "leaf-000000.smt2").read_text()):
        yield "note: no condition and no output rests on an input byte: is the address right, and is the input read at all?"


def traps(path, folder, leaves):
    """A line for each kind of trap and place, with the number of tests and the first."""
    found, left, program = {}, MOST_STEPS, None
    for rank, leaf in enumerate(leaves):
        if leaf["kind"] != "finished" or leaf["end"] == "exit":
            continue
        left, place = left - leaf["steps"], ""
        if left > 0 and read(path):
            program = program or Program(pathlib.Path(path))
            place = place_of(program, as_joined(json.loads((folder / f"test-{rank:06}.json").read_text())))
        found.setdefault((leaf["end"], place), []).append(rank)
    for (end, place), ranks in list(found.items())[:MOST_LINES]:
        tests = "1 test" if len(ranks) == 1 else f"{len(ranks)} tests"
        yield f"trap {end}{place}: {tests}, as {folder}/test-{ranks[0]:06}.json"
    if len(found) > MOST_LINES:
        yield f"and traps at {len(found) - MOST_LINES} more places"
    if found:
        page = shlex.join([os.path.relpath(REPORT), str(path), str(folder)])
        yield f"`{page}` shows them on a page"


def place_of(program, test):
    """Where a test's run traps, by symbol where the file has them."""
    address = TracedRun(program.image, test).places[-1]
    name = program.place(address)
    return f" at 0x{address:x}" + (f" <{name}>" if name else "")


def cuts(leaves, budgets):
    """A line for each budget that ran out."""
    cut = collections.Counter(leaf["kind"] for leaf in leaves if leaf["kind"] != "finished")
    for kind, count in cut.items():
        given, most = budgets[kind], LIMITS[f"--{kind}"].most
        more = f"; raise --{kind}, which was {given} and may be {most}" if given < most else f", and --{kind} may be no more"
        yield f"{count} of {len(leaves)} leaves {'is' if count == 1 else 'are'} cut by {kind}{more}"


def rests_on_input(text):
    """Whether an assertion, the status or a byte of output of a leaf's text has an input byte under it."""
    under = {name: re.findall(r"\b[bn]\d+\b", value) for name, value in DEFINED.findall(text)}
    reached = [name for name in under if not re.fullmatch(r"n\d+", name)] + ASSERTED.findall(text)
    seen = set(reached)
    for name in reached:
        more = set(under.get(name, ())) - seen
        reached += more
        seen |= more
    return any(name.startswith("b") for name in seen)
