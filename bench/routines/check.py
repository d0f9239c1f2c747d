#!/usr/bin/env python3
"""Explores each routine of one input byte by rvklee and compares the report with what brute force says of it.

    check.py [--tool PATH] [--replays N|all] [--keep FOLDER] [WORD ..]

A WORD is the name of a table without `.expected`; where there is none, all are checked. --tool is ./rvklee at the top where it
isn't given. --replays says how many tests of each report are replayed (1 where it isn't given: a replay starts the tool anew).
--keep keeps the reports. Where z3 is there, each leaf's condition is compared with the inputs that the table has for it, and its
status and output with theirs. Each disagreement is a line, and the status is 1 where there is one.
"""
import argparse
import pathlib
import shutil
import subprocess
import sys

from exploring import LAUNCHER, TESTED, Leaf, compare_replay, compare_report, end_of, explore, kind_of, leaf_files, scratch
from runs import WIDE
from tables import HERE, ByteTable, names


def one_of(values):
    return "(or false " + " ".join(f"(= b0 #x{value:02x})" for value in sorted(values)) + ")"


def questions(leaf, runs):
    """SMT-LIB text that is sat, and then unsat three times, where the leaf is the one of these runs: input to end and output."""
    lines = [line for line in leaf.text.splitlines() if line not in ("(check-sat)", "(exit)")]
    head = [line for line in lines if not line.startswith("(assert ")]
    holds = "(and true " + " ".join(line[len("(assert "):-1] for line in lines if line.startswith("(assert ")) + ")"
    inside, wrong = one_of(runs), []
    for value, (end, output) in sorted(runs.items()):
        claims = [f"(= status #x{int(end.split()[1]):02x})"] if end.startswith("exit") else []
        claims += [f"(= out{place} #x{output[2 * place:2 * place + 2]})" for place in range(len(output) // 2)]
        wrong.append(f"(and (= b0 #x{value:02x}) (not (and true {' '.join(claims)})))")
    asked = [leaf.text.replace("(exit)", "")]
    for question in (f"(and {holds} (not {inside}))", f"(and (not {holds}) {inside})", f"(or false {' '.join(wrong)})"):
        asked += ["(reset)", *head, f"(assert {question})", "(check-sat)"]
    return "\n".join([*asked, "(reset)"]) + "\n"


def ask_z3(asked, say):
    """Asks z3 about leaves and the runs that they should have."""
    text = "".join(questions(leaf, runs) for leaf, runs in asked)
    done = subprocess.run(["z3", "-in", "-smt2"], input=text, text=True, stdout=subprocess.PIPE)
    answers = done.stdout.split("\n")[:-1]
    if len(answers) != 4 * len(asked):
        return say(f"z3 answers {len(answers)} times in place of {4 * len(asked)}: {answers[:4]}")
    meanings = [
        "its condition has an answer", "it covers an input of another leaf", "an input of it isn't covered",
        "a status or an output byte differs",
    ]
    for place, (leaf, _) in enumerate(asked):
        for answer, wanted, meaning in zip(answers[4 * place:], ["sat", "unsat", "unsat", "unsat"], meanings):
            if answer != wanted:
                say(f"{leaf.name}: z3 answers {answer} in place of {wanted} where it is asked whether {meaning}")


def compare_run(leaf, table, say):
    """Compares a leaf that has a test, and gives the table's leaf that it is."""
    test, name = leaf.test, leaf.name
    if leaf.kind not in TESTED:
        return say(f"{name}: cut by {leaf.kind}, which brute force doesn't foresee")
    if test is None or leaf.spent is not None:
        return say(f"{name}: of kind {leaf.kind}, but has no test, or has spent values")
    value = int(test["input"], 16)
    wanted = table.leaf_of[value]
    end, output = wanted["runs"][value]
    for key, here, there in [
        ("test's end", test["end"], end), ("test's output", test["output"], output), ("test's path", test["path"], wanted["path"]),
        ("test's steps", test["steps"], wanted["steps"]), ("test's regions", test["regions"], [table.region]),
        ("path", leaf.path, wanted["path"]), ("steps", leaf.steps, wanted["steps"]), ("outputs", 2 * leaf.outputs, len(output)),
        ("end", leaf.end, end_of(end)), ("kind", leaf.kind, kind_of(end)),
    ]:
        if here != there:
            say(f"{name}: on input {value:02x} the {key} is {here}, by brute force {there}")
    return wanted


def compare_rest(leaf, table, found, say):
    """Compares a leaf that was cut by targets, and gives its runs."""
    wanted, name = table.spent, leaf.name
    if wanted is None:
        return say(f"{name}: cut by targets, which aren't spent by brute force")
    if leaf.test is not None:
        say(f"{name}: cut by targets, but has a test")
    for key, here, there in [
        ("path", leaf.path, wanted["path"]), ("steps", leaf.steps, wanted["steps"]), ("end", leaf.end, "running"),
        ("outputs", 2 * leaf.outputs, len(wanted["output"])),
        ("first line", (leaf.spent or [])[:1], [f"; spent targets {wanted['targets']}"]),
    ]:
        if here != there:
            say(f"{name}: the {key} is {here}, by brute force {there}")
    values = leaf.values()
    if len(values) != wanted["targets"] or values != sorted(set(values)):
        say(f"{name}: the values that were found aren't {wanted['targets']} in increasing order: {values}")
    if [value for value, _ in values] != sorted(one["value"] for one in found):
        say(f"{name}: the values that were found aren't those of the other leaves: {values}")
    for value, witness in values:
        if table.leaf_of[int(witness, 16)]["value"] != value:
            say(f"{name}: the term isn't {value} on {witness}")
    taken = {value for one in found for value in one["runs"]}
    return {value: ("running", wanted["output"]) for value in range(256) if value not in taken}


def summary_of(table, found):
    """The summary where targets are spent, by the leaves of the table that were found."""
    count = table.spent["targets"]
    finished = [one["steps"] for one in found if all(end != "running" for end, _ in one["runs"].values())]
    return f"leaves {count + 1} finished {len(finished)} cut {count + 1 - len(finished)} tests {count} steps {sum(finished)}"


def compare_leaves(leaves, table, say):
    """Compares each leaf. Gives the leaves of the table that were found, and beside each leaf the runs that it should have."""
    found, asked = [], []
    for leaf in sorted(leaves, key=lambda leaf: leaf.kind == "targets"):
        if leaf.kind == "targets":
            runs = compare_rest(leaf, table, found, say)
        else:
            wanted = compare_run(leaf, table, say)
            if wanted in found:
                say(f"{leaf.name}: a second leaf with the decisions of input {leaf.test['input']}")
            found += [wanted] if wanted else []
            runs = wanted and wanted["runs"]
        asked += [(leaf, runs)] if runs else []
    return found, asked


def compare(word, tool, folder, replays):
    """Explores a routine and compares. Gives the number of disagreements."""
    wrong = []

    def say(line):
        wrong.append(line)
        print(f"{word}: {line}", flush=True)

    table = ByteTable(HERE / f"{word}.expected")
    done = explore(tool, table, folder)
    if done.returncode != 0:
        say(f"status {done.returncode}: {done.stdout}")
        return len(wrong)
    leaves = [Leaf(file) for file in leaf_files(folder)]
    found, asked = compare_leaves(leaves, table, say)
    compare_report(leaves, folder, say)
    wanted = table.spent["targets"] + 1 if table.spent else len(table.leaves)
    if len(leaves) != wanted:
        say(f"{len(leaves)} leaves are written, by brute force {wanted}")
    if [leaf.kind for leaf in leaves].count("targets") != (1 if table.spent else 0):
        say("another number of leaves is cut by targets than by brute force")
    summary = table.summary or summary_of(table, found)
    if done.stdout != summary + "\n":
        say(f"says {done.stdout.strip()}, by brute force {summary}")
    if shutil.which("z3"):
        ask_z3(asked, say)
    tests = [leaf.test_file for leaf in leaves if leaf.test]
    for test in tests if replays == "all" else tests[:int(replays)]:
        compare_replay(tool, table.program, test, say)
    print(f"{word}: {summary}; {len(wrong)} disagreements", flush=True)
    return len(wrong)


def main():
    asked = argparse.ArgumentParser()
    asked.add_argument("--tool", default=LAUNCHER)
    asked.add_argument("--replays", default="1")
    asked.add_argument("--keep", type=pathlib.Path)
    asked.add_argument("words", nargs="*")
    asked = asked.parse_args()
    if not shutil.which("z3"):
        print("z3 isn't there: conditions aren't compared")
    words, wrong = asked.words or [name for name in names() if name.split(".")[0] not in WIDE], 0
    with scratch(asked.keep) as room:
        for word in words:
            wrong += compare(word, asked.tool, room / word, asked.replays)
    print(f"{len(words)} reports, {wrong} disagreements")
    return 1 if wrong else 0


if __name__ == "__main__":
    sys.exit(main())
