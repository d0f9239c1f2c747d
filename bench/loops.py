"""The plain loop of a million steps that bench/machine and bench/explore run, and how such programs become files."""
import json
import struct

from common import elf

TURNS = 124_999
BODY = [
    0x00011337,  # lui x6, 0x11
    0x00034383,  # lbu x7, 0(x6)
    0x00138413,  # addi x8, x7, 1
    0x00543493,  # sltiu x9, x8, 5
    0x00348593,  # addi x11, x9, 3
    0x00158613,  # addi x12, x11, 1
    0xFFF28293,  # addi x5, x5, -1
    0xFE0292E3,  # bne x5, x0, the body
]
EXIT = [0x00000513, 0x05D00893, 0x00000073]  # a0 = 0, a7 = 93, ecall
LOOP = [0x0001F2B7, 0x84728293] + BODY + EXIT  # x5 = 126976 - 1977
STEPS = 2 + len(BODY) * TURNS + len(EXIT)


def write_elf(path, words):
    """An executable of these words. A host's loader maps pages of 4,096 bytes, so offsets and addresses agree modulo that."""
    size = 4 * len(words)
    code = elf.Segment(elf.LOAD, 4096, 0x10000, 0x10000, size, size, 5, 4096)
    data = elf.Segment(elf.LOAD, 0, 0x11000, 0x11000, 0, 512, 6, 4096)
    path.write_bytes(elf.headers(0x10000, code, data).ljust(4096, b"\0") + struct.pack(f"<{len(words)}I", *words))
    path.chmod(0o755)


def write_tests(folder):
    """A test of the whole loop, and one of its first step, which is as long to read and differs."""
    path, files = "T" * (TURNS - 1) + "N", []
    # A test with no region is one of format 1: format 2 has no text of it.
    for name, steps in (("whole", STEPS), ("one", 1)):
        test = {"end": "exit 0", "format": 1, "input": "", "leaf": 0, "output": "", "path": path, "regions": [], "steps": steps}
        files.append(folder / f"{name}.json")
        files[-1].write_text(json.dumps(test))
    return files
