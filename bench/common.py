"""What the measurements share: the programs that they run, and the timer."""
import collections
import math
import os
import pathlib
import subprocess
import sys
import tempfile
import threading
import time

sys.path[:0] = [str(pathlib.Path(__file__).resolve().parent.parent / folder) for folder in ("tools", "bench/routines")]

import elf  # noqa: E402, F401
from report_files import CUTS, read_report  # noqa: E402, F401
from scratch import scratch  # noqa: E402, F401
from tool import PROGRAM, TOP, built  # noqa: E402, F401

# The program that asks questions, and explores without a report: it says by what questions were answered.
BENCH_RUNS = TOP / "crates/bench_runs/out/bench_runs"
# Its words behind the input: the default budgets. A last one says how many work at it.
BUDGETS = ["10000", "16", "2000"]
# The seconds after which an exploration is stopped.
LIMIT = 300


def built_bench_runs():
    """The program of crates/bench_runs that was built. Where it isn't there, the script ends."""
    if not BENCH_RUNS.exists():
        raise SystemExit("run `rt run -- clauses data/parity.smt2` in crates/bench_runs first: it builds the program")
    return BENCH_RUNS


def questions(file, region):
    """By what the questions of an exploration were answered: as before, by a sample, or by a decision, which may be spent. It is
    that of one worker, with which the answers are the same each time."""
    if not BENCH_RUNS.exists():
        return "not counted"
    command = [BENCH_RUNS, "explore", file, region, *BUDGETS, "1"]
    try:
        said = subprocess.run(command, capture_output=True, text=True, check=True, timeout=LIMIT).stdout
    except subprocess.TimeoutExpired:
        return "stopped"
    return said.strip().split(" questions ")[1]


def peer_command(peer, file, region, folder):
    """How another explorer is called."""
    return [*peer.split(), file, region, "--out", folder]


class Run(collections.namedtuple("Run", "seconds kilobytes status output")):
    """What a command took, its status, which is None where it was stopped, and what it put on standard output."""

    def __str__(self):
        return f"{self.seconds:.3f} s, {self.kilobytes / 1024:.0f} MB"


def timed(command, statuses=(0,), limit=None):
    """One run of a command, which has to end with one of these statuses; after so many seconds it is stopped."""
    with tempfile.TemporaryFile() as output:
        start = time.perf_counter()
        process = subprocess.Popen(command, stdout=output)
        alarm = threading.Timer(limit or 0, process.kill)
        alarm.daemon = True
        if limit:
            alarm.start()
        _, status, used = os.wait4(process.pid, 0)
        seconds = time.perf_counter() - start
        alarm.cancel()
        process.returncode = os.waitstatus_to_exitcode(status)
        if limit and seconds >= limit:
            return Run(limit, used.ru_maxrss, None, b"")
        assert process.returncode in statuses, (command, process.returncode)
        output.seek(0)
        return Run(seconds, used.ru_maxrss, process.returncode, output.read())


def best(command, statuses=(0,), times=5, limit=None, enough=math.inf):
    """The least seconds and the most memory of so many runs, and what the last of them put. A run that takes more seconds than are
    enough is the last, and one that is stopped is all that counts."""
    runs = []
    for _ in range(times):
        runs.append(timed(command, statuses, limit))
        if runs[-1].status is None:
            return runs[-1]
        if runs[-1].seconds > enough:
            break
    return Run(min(run.seconds for run in runs), max(run.kilobytes for run in runs), runs[-1].status, runs[-1].output)
