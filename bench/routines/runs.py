#!/usr/bin/env python3
"""Runs each routine of one input byte on all 256 values, by interpreter.py, and says which runs decide alike.

    runs.py            writes NAME.expected for each such NAME.elf, and NAME.WORD.expected for runs with small budgets
    runs.py --check    writes nothing, and says which of them aren't as they would be written
    runs.py --qemu     compares status, signal and output of all runs with qemu-riscv32
"""
import pathlib
import subprocess
import sys
import tempfile

import elf
from interpreter import INPUT, Machine, load
from tables import HERE, put

# The routines of more than one input byte, with their number. They are wide.py's.
WIDE = {
    "base64": 4, "base64table": 4, "battery": 2, "bubble": 5, "crc16": 4, "crc32": 4, "crc8b": 4, "crctable": 4, "date": 4,
    "decimal": 4, "dns": 8, "gcd": 2, "hist": 5, "isqrt16": 2, "lz": 4, "modbus": 6, "packet": 6, "pin": 4, "priorities": 4, "q15": 2,
    "records": 8, "ring": 4, "rle": 4, "sort": 4, "temp": 2, "tlv": 5, "vm": 4,
}
# Those of which the first two bytes alone are input, too.
FIRST_TWO = ["crctable", "decimal", "records"]
STEPS, TARGETS = 10_000, 16
# Of this one a term has more values than there may be targets, so it has no run in which nothing is cut.
ALWAYS_CUT = {"inside"}
# Runs with a small budget: the program, a word for the file's name, the steps and the targets.
SMALL = [
    ("isqrt", "steps60", 60, TARGETS), ("switch", "targets5", STEPS, 5), ("switch", "steps13.targets5", 13, 5),
    ("inside", "targets64", STEPS, 64),
]
# Instruction by instruction, so that a store into code is seen by the next fetch; and with no extension but M.
QEMU = ["qemu-riscv32", "-singlestep", "-cpu", "rv32,g=false,c=false,f=false,d=false,a=false"]
SIGNALS = {"Illegal": 4, "Break": 5, "LoadAccess": 11, "StoreAccess": 11, "FetchAccess": 11}
# What qemu says of a misaligned target, which a Linux process can't reach.
ABORTED = b"unhandled CPU exception 0 "


def ranges(values):
    """00-1f 23 ..."""
    parts, values = [], sorted(values)
    for value in values:
        if parts and parts[-1][1] == value - 1:
            parts[-1][1] = value
        else:
            parts.append([value, value])
    return " ".join(f"{low:02x}" if low == high else f"{low:02x}-{high:02x}" for low, high in parts)


def grouped(keys):
    groups = {}
    for value, key in enumerate(keys):
        groups.setdefault(key, []).append(value)
    return groups


def summary(tested, rest):
    """The line that has to be said of leaves that have a test, each given by one of its runs, and of some that have none."""
    finished, total = [len(run.log) for run in tested if run.end != "running"], len(tested) + rest
    return f"summary leaves {total} finished {len(finished)} cut {total - len(finished)} tests {len(tested)} steps {sum(finished)}"


def expected(name, steps, targets, spends):
    """The text of the table: a line for each leaf, and below it one for each end and output of its runs."""
    image = load(HERE / f"{name}.elf")
    runs = [Machine(image, [value]).run(steps) for value in range(256)]
    decisions = [run.decisions() for run in runs]
    groups = grouped(decisions)
    firsts = [runs[values[0]] for values in groups.values()]
    lines = [f"# {name}: what brute force says. `runs.py` wrote it.", f"options --steps {steps} --targets {targets}"]
    place = None
    if spends:
        # All runs decide alike up to one step, where one number has more values than targets, and then each is a leaf.
        place = next(place for place in range(10**9) if len({decided[place] for decided in decisions}) > 1)
        values = {decided[place] for decided in decisions}
        assert targets < len(values) == len(groups), name
        counts = [len(decided) for decided, _, _ in runs[0].log]
        made = next(made for made in range(len(counts)) if place < sum(counts[: made + 1]))
        _, path, output = runs[0].log[made]
        lines += [f"spent {targets} of {len(values)} steps {made} path {path}. output {output.hex()}."]
        # Which values are found isn't foreseen, so the summary is where it doesn't matter.
        if len({(len(run.log), run.end == "running") for run in firsts}) == 1:
            lines += [summary(firsts[:targets], 1)]
    else:
        lines += [summary(firsts, 0)]
    for decided, values in groups.items():
        run = runs[values[0]]
        assert all((len(runs[v].log), runs[v].path) == (len(run.log), run.path) for v in values), name
        lines += [f"leaf steps {len(run.log)} path {run.path}." + (f" value {decided[place]:08x}" if spends else "")]
        ends = {}
        for value in values:
            ends.setdefault((runs[value].end, runs[value].output.hex()), []).append(value)
        for (end, output), same in ends.items():
            lines += [f"  {end} output {output}. inputs {ranges(same)}"]
    return "\n".join(lines) + "\n"


def narrow():
    """The routines of one input byte."""
    return sorted({path.stem for path in HERE.glob("*.elf")} - set(WIDE))


def tables():
    """Each table's file name and text."""
    for name in narrow():
        if name not in ALWAYS_CUT:
            yield f"{name}.expected", expected(name, STEPS, TARGETS, False)
    for name, word, steps, targets in SMALL:
        yield f"{name}.{word}.expected", expected(name, steps, targets, targets != TARGETS)


def agrees_with_qemu(data, values, run, patched):
    """Whether qemu-riscv32 runs a file as it was run here, on input bytes that are put in the place of the file's."""
    kind, word = run.end.split()
    inputs = elf.segments(data)[1]
    assert inputs.address == INPUT
    patched.write_bytes(data[:inputs.offset] + bytes(values) + data[inputs.offset + len(values):])
    patched.chmod(0o755)
    done = subprocess.run([*QEMU, patched], stdout=subprocess.PIPE, stderr=subprocess.STDOUT, timeout=60)
    if word == "FetchMisaligned":
        return done.stdout.startswith(run.output) and ABORTED in done.stdout
    return done.returncode == (int(word) if kind == "exit" else -SIGNALS[word]) and done.stdout == run.output


def compare_with_qemu(inputs):
    """Compares exits and output, and of traps the signal, where a Linux process has one that says the same."""
    wrong = compared = skipped = 0
    with tempfile.TemporaryDirectory() as folder:
        for name, values in inputs:
            path = HERE / f"{name}.elf"
            run = Machine(load(path), values).run(STEPS)
            if run.end.startswith("trap") and run.end.split()[1] not in {*SIGNALS, "FetchMisaligned"}:
                skipped += 1
                continue
            compared += 1
            if not agrees_with_qemu(path.read_bytes(), values, run, pathlib.Path(folder, path.name)):
                wrong += 1
                print(f"{name} {bytes(values).hex()}: here {run.end} {run.output!r}, in qemu otherwise")
    print(f"{compared} runs compared with qemu-riscv32, {wrong} differ, {skipped} end in traps that Linux has no signal for")
    return 1 if wrong else 0


def main(words):
    if words == ["--qemu"]:
        return compare_with_qemu((name, [value]) for name in narrow() for value in range(256))
    stale = False
    for name, text in tables():
        stale |= put(HERE / name, text, words == ["--check"])
    return stale


if __name__ == "__main__":
    sys.exit(main(sys.argv[1:]))
