#!/usr/bin/env python3
"""Runs the routines of more than one input byte by interpreter.py, and says which runs decide alike.

    wide.py [WORD ..]            writes NAME.expected for each of them, and NAME.bytes2.expected for some of which the first two
                                 bytes alone are input and the others are 0, as in the file
    wide.py --check [WORD ..]    writes nothing, and says which of them aren't as they would be written
    wide.py --qemu [WORD ..]     compares status and output of some runs of each leaf with qemu-riscv32

A WORD is the name of a table without `.expected`. Two bytes are run on all 65,536 inputs. Of more, leaves are looked for: zeros
and random inputs are run, and then, until no other leaf is found, all inputs that differ in one byte from one of the first inputs
of a leaf that load at different addresses. So such a table may have too few leaves, and never too many. All of it takes some
minutes.
"""
import binascii
import itertools
import random
import sys

from interpreter import Machine, load
from runs import FIRST_TWO, STEPS, TARGETS, WIDE, compare_with_qemu, summary
from tables import HERE, WideTable, put, region

# How many random inputs a search begins with.
RANDOM = 500
# From how many inputs of a leaf it goes on.
NEAR = 6


def tables():
    """Each table's name, program and number of input bytes."""
    return [(name, name, count) for name, count in WIDE.items()] + [(f"{name}.bytes2", name, 2) for name in FIRST_TWO]


def seeds(name, count):
    """Where the search begins. What nothing else would find begins it too: a packet with its CRC for each command, the input
    that `crc16` and `crc32` name in their C files, some with the CRC that `crctable` names, a request of each function,
    broadcast and not, for one register, and a name of as many labels as there may be."""
    r = random.Random(name)
    yield bytes(count)
    yield from (r.randbytes(count) for _ in range(RANDOM))
    if name == "packet":
        for head in itertools.product([0xA5], range(256), range(2), range(2)):
            yield bytes(head) + binascii.crc_hqx(bytes(head), 0xFFFF).to_bytes(2, "big")
    if name in ("crc16", "crc32"):
        yield b"boot"
    if name == "crctable":
        yield from (head + ending(head) for head in (r.randbytes(2) for _ in range(RANDOM)))
    if name == "dns":
        yield b"\1a\1b\1c\1d"
    if name == "modbus":
        yield from (bytes([unit, function, 0, 0, 0, 1]) for unit in (0, 17) for function in range(256))


def ending(head):
    """The two bytes with which a head of two has the CRC of "boot": they undo what is different in its own CRC."""
    different = binascii.crc_hqx(head, 0xFFFF) ^ binascii.crc_hqx(b"bo", 0xFFFF)
    return (different ^ int.from_bytes(b"ot", "big")).to_bytes(2, "big")


def beside(values):
    """The inputs that differ in one byte."""
    for place, value in itertools.product(range(len(values)), range(256)):
        if value != values[place]:
            yield values[:place] + bytes([value]) + values[place + 1:]


class PlacedRun(Machine):
    """A run with all addresses at which it loads or stores."""

    def __init__(self, image, values):
        super().__init__(image, values)
        self.addresses = []

    def step(self, decided):
        try:
            super().step(decided)
        finally:
            self.addresses.append(self.address)


def searched(image, starts):
    """The leaves that are found from some inputs on, each with its first input and run, and the number of runs."""
    found, near, work, seen = {}, {}, list(starts), set()
    while work:
        values = work.pop()
        if values in seen:
            continue
        seen.add(values)
        run = PlacedRun(image, values).run(STEPS)
        decided, addresses = run.decisions(), tuple(run.addresses)
        found.setdefault(decided, (values, run))
        places = near.setdefault(decided, set())
        if addresses not in places and len(places) < NEAR:
            places.add(addresses)
            work += beside(values)
    return found, len(seen)


def counted(image):
    """The leaves over all inputs of two bytes, likewise, and the number of inputs of each."""
    found, counts = {}, {}
    for pair in itertools.product(range(256), repeat=2):
        run = Machine(image, pair).run(STEPS)
        decided = run.decisions()
        found.setdefault(decided, (bytes(pair), run))
        counts[decided] = counts.get(decided, 0) + 1
    return found, counts


def found_lines(inputs, runs, found, counts):
    """What stands in a table below its heading: a line for each leaf, in the order of their first inputs."""
    lines = [f"input {inputs}", f"runs {runs} of {256 ** int(inputs.split(':')[1])}", summary([run for _, run in found.values()], 0)]
    for decided, (values, run) in sorted(found.items(), key=lambda item: item[1][0]):
        many = f" inputs {counts[decided]}" if counts else ""
        lines += [f"leaf steps {len(run.log)} path {run.path}.{many} first {values.hex()} {run.end} output {run.output.hex()}."]
    return lines


def expected(word, name, count):
    """The text of the table."""
    image, counts = load(HERE / f"{name}.elf"), {}
    if count == 2:
        found, counts = counted(image)
        runs = 256**2
    else:
        found, runs = searched(image, seeds(name, count))
    lines = [f"# {word}: what brute force says. `wide.py` wrote it.", f"options --steps {STEPS} --targets {TARGETS}"]
    return "\n".join(lines + found_lines(region(count), runs, found, counts)) + "\n"


def some_inputs(word, count, near, far):
    """Of each leaf of the table its first input and some that differ from it in one byte; and some random ones."""
    r = random.Random(word)
    for leaf in WideTable(HERE / f"{word}.expected").leaves:
        yield leaf.first
        yield from r.sample(list(beside(leaf.first)), near)
    for _ in range(far):
        yield r.randbytes(count)


def main(words):
    option = words.pop(0) if words[:1] in (["--check"], ["--qemu"]) else None
    asked = [table for table in tables() if not words or table[0] in words]
    if option == "--qemu":
        return compare_with_qemu((name, values) for word, name, count in asked for values in some_inputs(word, count, 2, 50))
    stale = False
    for word, name, count in asked:
        text = expected(word, name, count)
        print(f"{word}: {text.splitlines()[4]}", flush=True)
        stale |= put(HERE / f"{word}.expected", text, option == "--check")
    return stale


if __name__ == "__main__":
    sys.exit(main(sys.argv[1:]))
