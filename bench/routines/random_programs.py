#!/usr/bin/env python3
"""Makes random programs, explores each by a built rvklee, and compares the report with brute force, as check.py does.

    random_programs.py TOOL FIRST LAST [FOLDER]

A program is named by its seed, from FIRST to LAST - 1. It computes on the input and on edge cases, branches on and back, loads
and stores at addresses that depend on the input, stores into the instructions that come next, jumps, and writes. The input
stands at 00011000, elsewhere in the data, or in the code. Steps, targets and nodes are few in some runs. Programs that part
fewer than three ways are skipped, most of them. A disagreement is printed, and its program is kept in FOLDER as SEED.elf.
"""
import os
import pathlib
import random
import shutil
import struct
import sys

import elf
import interpreter
from check import ask_z3
from encoding import branch_word, immediate_word, load_word, number, register_word, store_word
from exploring import Leaf, LeafValues, compare_full, compare_report, end_of, kind_of, leaf_files, run, scratch

CODE, DATA = 0x10100, 0x11000
REGISTERS = [5, 6, 7, 9, 12, 13, 14, 15, 16, 28, 29, 30, 31]
EDGES = [0, 1, 2, 3, 5, 10, 31, 32, 33, 0x7F, 0x80, 0xFF, 0x8000, 0x7FFFFFFF, 0x80000000, 0xFFFFFFFF, 0xFFFF8000, 0xFFFFFF80, DATA, CODE]
LOADS, STORES, BRANCHES = [0, 1, 2, 4, 5], [0, 1, 2], [0, 1, 4, 5, 6, 7]
# What is added to an address is masked so: of a store it has few values, of a load maybe more than a page has bytes.
FEW, MANY = [4, 4, 8, 12, 28, 0x3C, 0x38, 3], [0x1F, 0xFF, 0xFE, 0xFC, 0x1FF, 0x7FC]


def piece(r, kind):
    """A few words."""
    any_register, rd = lambda: r.choice([*REGISTERS, 9, 9, 0]), r.choice([*REGISTERS, 0])
    what, t = r.random() * (0.62 if kind == "sums" else 1), r.choice([28, 29, 30])
    masks = [*FEW, *MANY] if what < 0.72 else FEW
    near = [immediate_word(r.choice(masks), any_register(), 7, t), register_word(0, 8, t, 0, t)]
    place = r.choice([0, 4, 8, 64, 68, 0, 4, 8, 64, 1, 2])
    if what < 0.30:
        return [register_word(r.choice([0, 1, 1]), any_register(), any_register(), r.randrange(8), rd)]
    if what < 0.34:
        return [register_word(0x20, any_register(), any_register(), r.choice([0, 5]), rd)]
    if what < 0.46:
        value = r.choice([r.randrange(-2048, 2048), r.choice([0, 1, -1, 3, 7, 0x7F, -128])])
        return [immediate_word(value, any_register(), r.choice([0, 2, 3, 4, 6, 7]), rd)]
    if what < 0.52:
        f3 = r.choice([1, 5])
        return [immediate_word(r.randrange(32) | (0x400 if f3 == 5 and r.random() < 0.5 else 0), any_register(), f3, rd)]
    if what < 0.62:
        offset = 4 * r.choice([2, 2, 2, 3, 4, 5, -3]) + (2 if r.random() < 0.03 else 0)
        return [branch_word(offset, any_register(), any_register(), r.choice(BRANCHES))]
    if what < 0.72:
        return [*near, load_word(place, t, r.choice(LOADS), rd)]
    if what < 0.84:
        return [*near, store_word(place, any_register(), t, r.choice(STORES))]
    if what < 0.87:
        return [load_word(r.choice([0, 4, 64]), 8, r.choice(LOADS), rd)]
    if what < 0.90:
        return [store_word(r.choice([0, 4, 64]), any_register(), 8, r.choice(STORES))]
    if what < 0.92:
        return [r.getrandbits(32) & 0xFFFFF000 | rd << 7 | r.choice([0x17, 0x37])]
    if what < 0.935:
        target = immediate_word(16 + r.choice([0, 1, 4]), 28, 0, r.choice([0, 1]), 0x67)
        return [28 << 7 | 0x17, immediate_word(r.choice([4, 12, 8, 6]), any_register(), 7, 29), register_word(0, 29, 28, 0, 28), target]
    if what < 0.955 and kind in ("code", "all"):
        offset, mask = 24 + r.randrange(4), r.choice([0x80, 0x40, 0xF0, 0x30, 7, 0xFF])
        patch = [28 << 7 | 0x17, immediate_word(mask, any_register(), 7, 29), load_word(offset, 28, 4, 30)]
        patch += [register_word(0, 30, 29, r.choice([4, 6]), 29), store_word(offset, 29, 28, 0)]
        return [*patch, 0x0000000F, r.choice([immediate_word(1, 9, 0, 5), register_word(0, 9, 7, 0, 5), branch_word(8, 9, 5, 0)])]
    if what < 0.98 and kind in ("writes", "all"):
        words = number(11, r.choice([DATA, DATA + 64, DATA + 1, DATA + 255]))
        if r.random() < 0.4:
            words += [immediate_word(r.choice([1, 4, 7]), any_register(), 7, 29), register_word(0, 29, 11, 0, 11)]
        words += [immediate_word(r.choice([1, 2]), 0, 0, 10) if r.random() < 0.8 else immediate_word(3, any_register(), 7, 10)]
        length = immediate_word(r.choice([0, 1, 3, 5]), 0, 0, 12)
        words += [length if r.random() < 0.6 else immediate_word(r.choice([1, 3, 4]), any_register(), 7, 12)]
        return [*words, immediate_word(64, 0, 0, 17), 0x00000073]
    return [r.choice([0x00100073, r.getrandbits(32), 0x0080006F, 0x00C000EF])] if what < 0.985 else []


def program(r, path):
    """Writes a program, and gives the address of its input."""
    kind = r.choice(["sums", "memory", "all", "code", "writes"])
    code = [*number(8, DATA), load_word(0, 8, r.choice([0, 4]), 9)]
    for register in r.sample(REGISTERS, 5):
        code += number(register, r.choice([*EDGES, r.getrandbits(32)]))
    code += [load_word(0, 8, r.choice([4, 0]), r.choice(REGISTERS)) for _ in range(r.randrange(4))]
    for _ in range(r.randint(8, 40)):
        code += piece(r, kind)
    code += [immediate_word(0, r.choice(REGISTERS), 0, 10), immediate_word(93, 0, 0, 17), 0x00000073]
    flags, size = (7 if kind in ("code", "all") else 5), r.choice([256, 512, 100])
    text, data = struct.pack(f"<{len(code)}I", *code), bytes(r.getrandbits(8) if r.random() < 0.7 else 0 for _ in range(size))
    instructions = elf.Segment(elf.LOAD, 256, CODE, CODE, len(text), len(text), flags, 256)
    beside = elf.Segment(elf.LOAD, 256 + len(text), DATA, DATA, size, size, r.choice([6, 7, 2]), 1)
    path.write_bytes(elf.headers(CODE, instructions, beside).ljust(256, b"\0") + text + data)
    where = r.random()
    if where < 0.15 and flags == 7:
        return CODE + 4 * r.randrange(len(code) - 3) + r.choice([1, 2, 3, 3])
    return DATA if where < 0.7 else DATA + r.choice([1, 3, 64, 66, 68])


def rest_runs(leaf, runs, decisions, targets, say):
    """The inputs that a leaf which was cut by targets should have, with end and output, by the values that it says were found."""
    found = [(int(value, 16), int(witness, 16)) for value, witness in leaf.values()]
    values = [value for value, _ in found]
    if leaf.test or leaf.spent[0] != f"; spent targets {targets}" or len(values) != targets or values != sorted(set(values)):
        say(f"{leaf.name}: has a test, or says {leaf.spent}")
        return {}
    made, first = leaf.steps, found[0][1]
    start = sum(len(decided) for decided, _, _ in runs[first].log[:made])
    for place in range(start, start + len(runs[first].log[made][0])):
        before = decisions[first][:place]
        along = [value for value in range(256) if decisions[value][:place] == before]
        if len({decisions[value][place] for value in along}) > targets and all(w in along and decisions[w][place] == v for v, w in found):
            rest = [value for value in along if decisions[value][place] not in values]
            if any(runs[value].log[made][1] != leaf.path for value in rest) or leaf.end != "running":
                say(f"{leaf.name}: says end {leaf.end}, path {leaf.path}")
            return {value: ("running", runs[value].log[made][2].hex()) for value in rest}
    say(f"{leaf.name}: no decision there has these values")
    return {}


def leaf_runs(leaf, runs, decisions, say):
    """The inputs that another leaf should have: those that decide as its test does."""
    test, value = leaf.test, int(leaf.test["input"], 16)
    run = runs[value]
    here = (test["end"], test["output"], test["path"], test["steps"], leaf.path, leaf.steps, leaf.end, leaf.kind)
    there = (run.end, run.output.hex(), run.path, len(run.log), run.path, len(run.log), end_of(run.end), kind_of(run.end))
    if here != there:
        say(f"{leaf.name}: on input {value:02x} {here}, by brute force {there}")
    return {other: (runs[other].end, runs[other].output.hex()) for other in range(256) if decisions[other] == decisions[value]}


def full_runs(leaf, runs, decisions, say):
    """The inputs that a leaf which was cut by nodes should have: all that decide as those of its text do, up to where these part, in
    the leaf's next step."""
    read, made = LeafValues(leaf.text), leaf.steps
    inside = [value for value in range(256) if read.holds(read.values([value]))]
    alike, log = os.path.commonprefix([decisions[value] for value in inside]), runs[inside[0]].log if inside else []
    start = sum(len(decided) for decided, _, _ in log[:made])
    if made >= len(log) or not start <= len(alike) < start + len(log[made][0]):
        say(f"{leaf.name}: the runs of {inside} don't part behind {made} steps")
        return {}
    found = [value for value in range(256) if decisions[value][:len(alike)] == alike]
    if leaf.test or leaf.end != "running" or any(runs[value].log[made][1] != leaf.path for value in found):
        say(f"{leaf.name}: has a test, or says end {leaf.end}, path {leaf.path}")
    return {value: ("running", runs[value].log[made][2].hex()) for value in found}


def try_seed(seed, tool, folder):
    r, wrong = random.Random(seed), []

    def say(line):
        wrong.append(line)
        print(f"{seed}: {line}", flush=True)

    path, out = folder / f"{seed}.elf", folder / f"{seed}"
    interpreter.INPUT = program(r, path)
    steps, targets = r.choice([400, 300, 120, 40, 25]), r.choice([1, 2, 5, 16, 16, 64])
    image = interpreter.load(path)
    runs = [interpreter.Machine(image, [value]).run(steps) for value in range(256)]
    decisions = [run.decisions() for run in runs]
    if len(set(decisions)) < 3 and r.random() < 0.97:
        path.unlink()
        return None
    out.mkdir()
    nodes = r.choice([1_000_000, 1_000_000, 60, 20, 9, 5, 3, 2])
    options = ["--steps", str(steps), "--targets", str(targets), "--nodes", str(nodes)]
    done = run(tool, "explore", *options, path, out, f"{interpreter.INPUT:08x}:1")
    leaves, asked = [Leaf(file) for file in leaf_files(out)], []
    for leaf in leaves:
        if leaf.kind == "targets":
            should = rest_runs(leaf, runs, decisions, targets, say)
        elif leaf.kind == "nodes":
            compare_full(leaf, leaves, nodes, targets, say)
            should = full_runs(leaf, runs, decisions, say)
        else:
            should = leaf_runs(leaf, runs, decisions, say)
        asked.append((leaf, should))
    if done.returncode != 0:
        say(f"status {done.returncode}: {done.stdout}")
    elif sorted(value for _, should in asked for value in should) != list(range(256)):
        say("the leaves should cover other inputs than they should in all")
    else:
        compare_report(leaves, out, say)
        ask_z3(asked, say)
    shutil.rmtree(out)
    if not wrong:
        path.unlink()
    return len(leaves), bool(wrong)


def main(tool, first, last, folder=None):
    tried = leaves = wrong = 0
    with scratch(folder and pathlib.Path(folder)) as room:
        for seed in range(int(first), int(last)):
            found = try_seed(seed, tool, room)
            if found:
                tried, leaves, wrong = tried + 1, leaves + found[0], wrong + found[1]
    print(f"{tried} programs, {leaves} leaves, {wrong} programs with disagreements")
    return 1 if wrong else 0


if __name__ == "__main__":
    sys.exit(main(*sys.argv[1:]))
