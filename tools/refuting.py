"""Clauses that refute a question, as a certificate has both. Cadical finds a proof of what `bench_runs formula` makes of the
question. A question that comes again is answered as before."""
import functools
import shutil
import subprocess

import drat
from scratch import scratch

LEAF = ["; rvklee leaf 1", "; kind steps", "; choices .", "; path .", "; steps 0", "; end running"]
REFUTED = 20


def leaf_lines(question):
    """The text of a leaf whose condition a question is."""
    return [*LEAF, *question[:2], "; outputs 0", *question[2:]]


def proof_of(formula, folder):
    """The clauses of a proof that cadical finds of a formula, or None."""
    file, proof = folder / "formula.cnf", folder / "proof.drat"
    file.write_text(formula)
    done = subprocess.run(["cadical", "-q", "-n", "--no-binary", file, proof], stdout=subprocess.DEVNULL)
    return drat.read_clauses(proof.read_text()) if done.returncode == REFUTED else None


@functools.cache
def clause_lines(bench_runs, question):
    """The lines of clauses that refute a question, or None where there is no cadical, or it finds none."""
    if shutil.which("cadical") is None:
        return None
    with scratch() as folder:
        leaf = folder / "question.smt2"
        leaf.write_text("".join(f"{line}\n" for line in leaf_lines(question)))
        formula = subprocess.run([bench_runs, "formula", leaf], stdout=subprocess.PIPE, check=True, text=True).stdout
        proof = proof_of(formula, folder)
        steps = None if proof is None else drat.refutation(drat.read_clauses(formula), proof)
    return steps and [drat.line_of(step) for step in steps]
