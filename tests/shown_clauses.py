"""Questions and clauses of certificates, read here apart from the tool: what they assert, and whether clauses refute them."""
import re
import subprocess
import sys
import tempfile

from rows import TOP

sys.path.append(str(TOP / "tools"))

import drat  # noqa: E402
from refuting import leaf_lines  # noqa: E402

END = "(exit)"
CLAUSE = re.compile(r"c((?: -?[1-9][0-9]*)*) 0((?: [1-9][0-9]*)*) 0")
DEFINED = re.compile(r"\(define-fun (n[0-9]+) \(\) (\(_ BitVec [0-9]+\)) (.*)\)")
ASSERTED = re.compile(r"\(assert \(= (n[0-9]+) \(_ bv1 1\)\)\)")


def asserted_trees(question):
    """The terms that a question asserts, written out."""
    trees, found = {}, set()
    for line in question:
        if defined := DEFINED.fullmatch(line):
            trees[defined[1]] = defined[2] + re.sub(r"\bn[0-9]+\b", lambda name: trees.get(name[0], "?"), defined[3])
        elif asserted := ASSERTED.fullmatch(line):
            found.add(trees.get(asserted[1]))
    return found


def formula_of(bench_runs, question):
    """The clauses that a question has, or None where it is none."""
    with tempfile.NamedTemporaryFile("w", suffix=".smt2") as leaf:
        leaf.write("".join(f"{line}\n" for line in leaf_lines(question)))
        leaf.flush()
        done = subprocess.run([bench_runs, "formula", leaf.name], capture_output=True, text=True)
    return None if done.returncode else drat.read_clauses(done.stdout)


def step_of(line):
    """The literals and the hints of a clause's line, or None where it is none: variables rise."""
    found = CLAUSE.fullmatch(line)
    literals = [int(word) for word in found[1].split()] if found else []
    rises = all(abs(one) < abs(other) for one, other in zip(literals, literals[1:]))
    return (literals, [int(word) for word in found[2].split()]) if found and rises else None


def follows(clauses, literals, hints):
    """Whether propagation along the hints ends in a conflict where the literals are false: each but the last forces a literal."""
    false = set(literals)
    for place, hint in enumerate(hints, 1):
        left = [literal for literal in clauses[hint - 1] if literal not in false] if hint <= len(clauses) else [0, 0]
        if place == len(hints) or len(left) != 1 or -left[0] in false:
            return place == len(hints) and not left
        false.add(-left[0])
    return False


def refute(clauses, lines):
    """Whether lines of clauses follow one after the other, the last of them empty."""
    clauses, last = list(clauses), None
    for line in lines:
        step = step_of(line)
        if step is None or not follows(clauses, *step):
            return False
        clauses.append(step[0])
        last = step[0]
    return last == []


def parts_of(lines):
    """A question and the lines behind it."""
    end = lines.index(END) + 1 if END in lines else 0
    return lines[:end], lines[end:]
