#!/usr/bin/env python3
"""Gives each leaf file of reports to z3 and to cvc5, as programs that know nothing of rvklee, and compares their answers.

    leaf_solvers.py [--tool PATH] [--seconds N] [REPORT ..]

A REPORT is a folder that `explore` wrote. Where there is none, the routines of this folder are explored, each by
the options and the input bytes of its tables. --tool is ./rvklee at the top where it isn't given; --seconds says how long a
solver may look for one answer (20).

Each file is read as it stands. A leaf with a test has to be sat, and sat too where the input bytes are those of its test. Of any
other leaf the two answers have to be the same. A line is said for each disagreement and for each solver that refuses a file, and
one at the end with the number of files, of answers by each solver, and of those that took too long. The status is 1 where there
is a disagreement.
"""
import argparse
import collections
import pathlib
import subprocess
import sys
import tempfile

from exploring import END, LAUNCHER, Leaf, explore, leaf_files, scratch
from tables import HERE, Table

SOLVERS = {
    "z3": lambda seconds, path: ["z3", "-smt2", f"-T:{seconds}", path],
    "cvc5": lambda seconds, path: ["cvc5", "--lang", "smt2", f"--tlimit={1000 * seconds}", path],
}
LATE = "late"


def answer(solver, seconds, path):
    """sat, unsat, LATE, or what the solver says against the file."""
    done = subprocess.run(SOLVERS[solver](seconds, path), capture_output=True, text=True)
    said = (done.stdout + done.stderr).strip()
    if said in ("timeout", "unknown") or "interrupted by timeout" in said:
        return LATE
    return said


def on_input(text, values):
    """The text with the input bytes asserted."""
    return text.removesuffix(END) + "".join(f"(assert (= b{place} #x{value:02x}))\n" for place, value in enumerate(values)) + END


class Comparison:
    """What was found out so far."""

    def __init__(self, seconds):
        self.seconds, self.wrong, self.files = seconds, 0, 0
        self.counts = collections.Counter()

    def say(self, line):
        self.wrong += 1
        print(line, flush=True)

    def ask(self, path):
        """Each solver's answer."""
        answers = {solver: answer(solver, self.seconds, path) for solver in SOLVERS}
        for solver, said in answers.items():
            self.counts[solver, said if said in ("sat", "unsat", LATE) else "refused"] += 1
            if said not in ("sat", "unsat", LATE):
                self.say(f"{path}: {solver}: {said}")
        return answers

    def leaf(self, path):
        self.files += 1
        answers, leaf = self.ask(path), Leaf(path)
        given = set(answers.values()) & {"sat", "unsat"}
        if leaf.test is None:
            if len(given) > 1:
                self.say(f"{path}: {answers}")
            return
        if "unsat" in given:
            self.say(f"{path}: has a test: {answers}")
        with tempfile.NamedTemporaryFile("w", suffix=".smt2") as file:
            file.write(on_input(leaf.text, leaf.input()))
            file.flush()
            if "unsat" in self.ask(file.name).values():
                self.say(f"{path}: unsat on the input of its test")

    def report(self, folder):
        for path in leaf_files(folder):
            self.leaf(path)


def explored(tool, room):
    """The reports on all routines, one after another."""
    for path in sorted(HERE.glob("*.expected")):
        table, out = Table(path), room / path.stem
        done = explore(tool, table, out)
        if done.returncode != 0:
            sys.exit(f"{table.name}: status {done.returncode}: {done.stdout.strip()}")
        yield out


def main():
    parser = argparse.ArgumentParser(description=__doc__, formatter_class=argparse.RawDescriptionHelpFormatter)
    parser.add_argument("--tool", default=LAUNCHER)
    parser.add_argument("--seconds", type=int, default=20)
    parser.add_argument("reports", nargs="*", type=pathlib.Path, metavar="REPORT")
    asked = parser.parse_args()
    comparison = Comparison(asked.seconds)
    with scratch() as room:
        for report in asked.reports or explored(asked.tool, room):
            comparison.report(report)
    counts = ", ".join(f"{solver} {said} {count}" for (solver, said), count in sorted(comparison.counts.items()))
    print(f"{comparison.files} files: {counts}; {comparison.wrong} disagreements")
    return 1 if comparison.wrong else 0


if __name__ == "__main__":
    sys.exit(main())
