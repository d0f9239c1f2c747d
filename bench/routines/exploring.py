"""What the scripts share that compare the tool with brute force: the tool and its reports, of tools/, and what any report has to be."""
import pathlib
import sys

sys.path.insert(0, str(pathlib.Path(__file__).resolve().parent.parent.parent / "tools"))

from leaf_text import END  # noqa: E402, F401
from leaf_values import LeafValues, NoLeaf  # noqa: E402, F401
from report_files import CUTS, TESTED, Leaf, leaf_files, read_report, read_tests  # noqa: E402, F401
from scratch import scratch  # noqa: E402, F401
from tool import LAUNCHER, PROGRAM, TOP, run, run_quietly, said, wrong_replays  # noqa: E402, F401


def explore(tool, table, out, *options):
    """Explores the program of a table into a new folder, as the table has it. Gives status and what is said."""
    out.mkdir(parents=True)
    return run_quietly(tool, "explore", *table.options, *options, table.program, out, table.region)


def order(choices):
    """Where a list of choices stands: N before Y, and values by size before the rest."""
    return [(0, int(word[1:], 16)) if word[0] == "=" else (0 if word == "N" else 1, 0) for word in choices]


def compare_report(leaves, folder, say):
    """Compares the report with the leaves, and these with the order that they should have."""
    reported = read_report(folder)["leaves"]
    found = [
        {"choices": leaf.choice_text, "end": leaf.end, "kind": leaf.kind, "node": one["node"], "steps": leaf.steps}
        for leaf, one in zip(leaves, reported)
    ]
    if reported != found:
        say("the report has other leaves than the files")
    for rank, leaf in enumerate(leaves):
        if leaf.name != f"leaf-{rank:06}.smt2" or leaf.test and leaf.test["leaf"] != rank:
            say(f"{leaf.name}: its rank isn't {rank}")
    places = [order(leaf.choices) for leaf in leaves]
    if places != sorted(places) or len({str(place) for place in places}) != len(places):
        say("the leaves aren't in the order of their choices")


def compare_full(leaf, leaves, nodes, targets, say):
    """Compares what stands beside a leaf that was cut by nodes, how many there were, with the tree: later none was forked, so it
    has just as many, and its last fork may have passed the budget."""
    count = len({tuple(one.choices[:depth]) for one in leaves for depth in range(len(one.choices) + 1)})
    if leaf.spent != [f"; spent nodes {count}"] or not nodes <= count <= nodes + targets:
        say(f"{leaf.name}: cut by nodes, of which the tree has {count} and may have {nodes}, but says {leaf.spent}")


def compare_replay(tool, program, test, say):
    """Replays a test, of which the tool has to say that its run is the same."""
    done = run_quietly(tool, "replay", program, test)
    if (done.returncode, done.stdout) != (0, "same\n"):
        say(f"{test.name}: the replay says {done.stdout!r}, status {done.returncode}")


def kind_of(end):
    """The kind of a leaf whose runs end so."""
    return "steps" if end == "running" else "finished"


def end_of(end):
    """How the text of a leaf says that its runs end so."""
    return end.removeprefix("trap ") if end.startswith("trap") else end.split()[0]
