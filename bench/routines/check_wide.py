#!/usr/bin/python3
"""Explores each routine of more than one input byte by rvklee, and compares the report with runs by interpreter.py and with z3.

    check_wide.py [--tool PATH] [--conflicts N] [--nodes N] [--seconds N] [--keep FOLDER] [WORD ..]

A WORD is the name of a table of wide.py without `.expected`; where there is none, all are checked. --tool is ./rvklee at the top
where it isn't given, --conflicts and --nodes are the tool's budgets (2000 and 1000000), and --seconds says how long z3 may look for
one answer (20). --keep keeps the reports. z3 is Debian's `python3-z3`, which its own python3 finds.

Each test is replayed by the tool, and run here. Of two input bytes each leaf's text is evaluated on all inputs, of more on the
inputs of the table, on some that differ from one of them or from a test in one byte, and on random ones: just one leaf has to
hold, and the run has to have its steps, path, end and output, and the decisions of the leaf's other runs. z3 is asked of each
text whether it is sat, also on its test's input, where status and output have to be the test's; of each two neighbours whether
both hold; and whether none holds. Of a leaf that was cut by conflicts the clauses that were learnt are counted, and the question
has to be a part of its condition, with the last assertion in it; whether the clauses follow isn't looked at. One that was cut by
nodes has to say how many the tree has. A line is said for each disagreement, and one for each routine: its leaves, those that were
cut by the budget that was spent, those that z3 shows to be empty, and the questions that z3 left. The status is 1 where
there is a disagreement.
"""
import argparse
import itertools
import pathlib
import random
import re
import sys

import z3

from exploring import CUTS, END, LAUNCHER, TESTED, Leaf, LeafValues, NoLeaf, compare_full, compare_replay, compare_report, explore
from exploring import leaf_files, scratch
from interpreter import Machine, load
from runs import STEPS
from tables import HERE, WideTable
from wide import beside, tables

# Of more disagreements of one routine only the number is said.
MOST_SAID = 20
# Behind a leaf's text, so that z3 gives the terms of its status and output: each is asserted to be a name's.
NAMED = "(declare-fun the_{name} () (_ BitVec 8))\n(assert (= the_{name} {name}))\n"


class CheckedLeaf(Leaf):
    """A leaf whose text was read, and what was found out so far: what its runs decide, and its terms as z3 has them."""

    def __init__(self, file):
        super().__init__(file)
        self.read = LeafValues(self.text)
        self.decided, self.terms = None, None


class Routine:
    """A table, the report on its routine, and what was found out so far."""

    def __init__(self, word, count, asked):
        self.word, self.count, self.seconds = word, count, asked.seconds
        self.conflicts, self.nodes = asked.conflicts, asked.nodes
        self.table = WideTable(HERE / f"{word}.expected")
        self.image = load(self.table.program)
        self.wrong = self.asked = self.left = self.empty = 0
        self.leaves = []

    def say(self, line):
        self.wrong += 1
        if self.wrong <= MOST_SAID:
            print(f"{self.word}: {line}", flush=True)

    def run(self, values, steps=STEPS):
        return Machine(self.image, values).run(steps)


def explored(routine, tool, folder):
    """Explores the routine. Gives what is said, or None where there is no report."""
    done = explore(tool, routine.table, folder, "--conflicts", routine.conflicts, "--nodes", routine.nodes)
    if done.returncode != 0:
        return routine.say(f"status {done.returncode}: {done.stdout.strip()}")
    for file in leaf_files(folder):
        try:
            routine.leaves.append(CheckedLeaf(file))
        except (NoLeaf, IndexError) as error:
            routine.say(f"{file.name}: isn't the text of a leaf: {error}")
    compare_report(routine.leaves, folder, routine.say)
    return done.stdout


def compare_files(routine, leaf):
    """Which files stand beside a leaf, and its test with a run of its input."""
    is_shown = leaf.kind not in TESTED
    if (leaf.test is None, leaf.spent is not None) != (is_shown, is_shown):
        routine.say(f"{leaf.name}: of kind {leaf.kind}, but test and spent values aren't as they have to be")
    if leaf.read.inputs != routine.count:
        routine.say(f"{leaf.name}: has {leaf.read.inputs} inputs")
    if is_shown and leaf.spent:
        {"targets": compare_values, "conflicts": compare_learnt, "nodes": compare_nodes}[leaf.kind](routine, leaf)
    if leaf.test:
        test, run = leaf.test, routine.run(leaf.input())
        here = [test[key] for key in ("end", "output", "path", "steps", "regions")]
        there = [run.end, run.output.hex(), run.path, len(run.log), [routine.table.region]]
        if here != there:
            routine.say(f"{leaf.test_file.name}: says {here}, by its run {there}")
        if not leaf.read.holds(leaf.read.values(leaf.input())):
            routine.say(f"{leaf.name}: doesn't hold on its test's input")


def compare_values(routine, leaf):
    """The values of a leaf that was cut by targets: their number and order, and each with the input beside it."""
    read, (head, named, *_), values = leaf.read, leaf.spent, leaf.values()
    if head != f"; spent targets {routine.table.options[3]}" or len(values) != int(head.split()[3]):
        routine.say(f"{leaf.name}: {len(values)} values stand below {head}")
    if values != sorted(values) or len({value for value, _ in values}) != len(values):
        routine.say(f"{leaf.name}: its values don't increase")
    for value, shown in values:
        worth = read.values(bytes.fromhex(shown))
        if worth[int(named.split()[2][1:])] != int(value, 16) or not read.holds(worth, but=len(values)):
            routine.say(f"{leaf.name}: the term isn't {value} on {shown}, or its fork doesn't have that")


def compare_learnt(routine, leaf):
    """The question of a leaf that was cut by conflicts, and the form and the number of the clauses that were learnt."""
    head, question = leaf.spent[:3], [line for line in leaf.spent[3:] if not line.startswith("c ")]
    clauses = leaf.spent[3 + len(question):]
    if head[0] != f"; spent conflicts {routine.conflicts}" or len(clauses) != int(routine.conflicts):
        routine.say(f"{leaf.name}: {len(clauses)} clauses stand below {head[0]}")
    if not all(re.fullmatch(r"c (-?[1-9]\d* )+0 ([1-9]\d* )+0", line) for line in clauses):
        routine.say(f"{leaf.name}: one of its clauses has another form")
    asserted, asked = (list(z3.parse_smt2_string(text)) for text in (leaf.text, "\n".join(question)))
    if not all(any(one.eq(other) for other in asserted) for one in asked) or not any(asserted[-1].eq(one) for one in asked):
        routine.say(f"{leaf.name}: the question isn't a part of its condition, or its last assertion isn't in it")


def compare_nodes(routine, leaf):
    compare_full(leaf, routine.leaves, int(routine.nodes), int(routine.table.options[3]), routine.say)


def compare_run(routine, leaf, worth, values):
    """The run of an input that a leaf covers with the leaf."""
    is_cut = leaf.kind != "finished"
    run = routine.run(values, leaf.steps if is_cut else STEPS)
    status, output = leaf.read.end(worth)
    end = "running" if is_cut else f"exit {status}" if leaf.end == "exit" else f"trap {leaf.end}"
    here, there = (leaf.steps, leaf.path, end, output), (len(run.log), run.path, run.end, run.output)
    if here != there:
        routine.say(f"{leaf.name}: on {bytes(values).hex()} {here}, by its run {there}")
    decided = run.decisions()
    leaf.decided = leaf.decided or decided
    if leaf.decided != decided:
        routine.say(f"{leaf.name}: the run of {bytes(values).hex()} decides otherwise than another of its runs")


def inputs(routine):
    """The inputs on which all leaves are evaluated."""
    if routine.count == 2:
        return itertools.product(range(256), repeat=2)
    r = random.Random(routine.word)
    known = [leaf.first for leaf in routine.table.leaves] + [leaf.input() for leaf in routine.leaves if leaf.test]
    near = [other for values in known for other in r.sample(list(beside(values)), 10)]
    return sorted({*known, *near, *(r.randbytes(routine.count) for _ in range(500))})


def compare_inputs(routine):
    for values in inputs(routine):
        worths = [(leaf, leaf.read.values(values)) for leaf in routine.leaves]
        covering = [(leaf, worth) for leaf, worth in worths if leaf.read.holds(worth)]
        if len(covering) != 1:
            routine.say(f"{bytes(values).hex()} is covered by {[leaf.name for leaf, _ in covering]}")
        for leaf, worth in covering:
            compare_run(routine, leaf, worth, values)


def compare_table(routine, said):
    """The summary, and that no two leaves decide alike. Where a question was left open, the table may have other leaves."""
    decided = [leaf.decided for leaf in routine.leaves if leaf.kind in TESTED]
    if len(set(decided)) != len(decided):
        routine.say("two leaves decide alike")
    if all(leaf.kind == "finished" for leaf in routine.leaves) and said != routine.table.summary + "\n":
        routine.say(f"says {said.strip()}, by brute force {routine.table.summary}")


def answer(routine, *assertions):
    """What z3 answers, and the model where it is sat."""
    solver = z3.Solver()
    solver.set("timeout", 1000 * routine.seconds)
    solver.add(*assertions)
    found = solver.check()
    routine.asked += 1
    routine.left += found == z3.unknown
    return str(found), solver.model() if found == z3.sat else None


def terms(leaf):
    """The leaf's condition, and its status and output by their names, as z3 reads them."""
    names = ["status"] * (leaf.read.status is not None) + [f"out{place}" for place in range(leaf.outputs)]
    head = leaf.text.removesuffix(END)
    read = list(z3.parse_smt2_string(head + "".join(NAMED.format(name=name) for name in names)))
    count = len(read) - len(names)
    return z3.And(z3.BoolVal(True), *read[:count]), {name: term.arg(1) for name, term in zip(names, read[count:])}


def ask_leaf(routine, leaf):
    condition, named = leaf.terms
    found, _ = answer(routine, *z3.parse_smt2_string(leaf.text))
    if found == "unsat":
        routine.empty += 1
        if leaf.kind != "conflicts":
            routine.say(f"{leaf.name}: no input has its condition, by z3")
    if leaf.test is None:
        return
    found, model = answer(routine, condition, *(z3.BitVec(f"b{place}", 8) == value for place, value in enumerate(leaf.input())))
    if found == "unsat":
        return routine.say(f"{leaf.name}: its test's input isn't one of it, by z3")
    test = leaf.test
    wanted = {f"out{place}": value for place, value in enumerate(bytes.fromhex(test["output"]))}
    wanted |= {"status": int(test["end"].split()[1])} if test["end"].startswith("exit") else {}
    if model and wanted != {name: model.eval(term, model_completion=True).as_long() for name, term in named.items()}:
        routine.say(f"{leaf.name}: status or output isn't the test's, by z3")


def ask(routine):
    for leaf in routine.leaves:
        leaf.terms = terms(leaf)
        ask_leaf(routine, leaf)
    for one, other in itertools.pairwise(routine.leaves):
        if answer(routine, one.terms[0], other.terms[0])[0] == "sat":
            routine.say(f"{one.name} and {other.name} share an input, by z3")
    found, model = answer(routine, *(z3.Not(leaf.terms[0]) for leaf in routine.leaves))
    if found == "sat":
        routine.say(f"no leaf covers {model}, by z3")


def compare(routine, tool, folder):
    said = explored(routine, tool, folder)
    if said is None:
        return
    for test in (leaf.test_file for leaf in routine.leaves if leaf.test):
        compare_replay(tool, routine.table.program, test, routine.say)
    for leaf in routine.leaves:
        compare_files(routine, leaf)
    compare_inputs(routine)
    compare_table(routine, said)
    ask(routine)
    kinds = [leaf.kind for leaf in routine.leaves]
    cuts = " ".join(f"{kind} {kinds.count(kind)}" for kind in CUTS)
    print(f"{routine.word} {routine.table.region}: leaves {len(kinds)} finished {kinds.count('finished')} cut by {cuts}, empty {routine.empty}; "
          f"z3 left {routine.left} of {routine.asked} questions; {routine.wrong} disagreements", flush=True)


def main():
    asked = argparse.ArgumentParser()
    asked.add_argument("--tool", default=LAUNCHER)
    asked.add_argument("--conflicts", default="2000")
    asked.add_argument("--nodes", default="1000000")
    asked.add_argument("--seconds", type=int, default=20)
    asked.add_argument("--keep", type=pathlib.Path)
    asked.add_argument("words", nargs="*")
    asked = asked.parse_args()
    wrong = 0
    with scratch(asked.keep) as room:
        for word, _, count in tables():
            if asked.words and word not in asked.words:
                continue
            routine = Routine(word, count, asked)
            compare(routine, asked.tool, room / word)
            wrong += routine.wrong
    return 1 if wrong else 0


if __name__ == "__main__":
    sys.exit(main())
