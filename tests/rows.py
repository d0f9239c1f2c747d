"""Programs of a few words that are written here, as files, for the scripts of this folder."""
import pathlib
import struct
import sys

TOP = pathlib.Path(__file__).resolve().parent.parent
sys.path[:0] = [str(TOP / "tools"), str(TOP / "bench/routines")]

import elf  # noqa: E402

CODE, DATA = 0x10000, 0x11000
# What the pages of a segment may be: X 1, W 2, R 4.
READ_RUN, READ_WRITE, ALL = 5, 6, 7
EXIT = [0x00000513, 0x05D00893, 0x00000073]  # addi a0, zero, 0; addi a7, zero, 93; ecall


def program(words, flags=READ_RUN, size=512):
    """The file of a program: its words at CODE, in pages with these flags, and so many zeros at DATA."""
    code = struct.pack(f"<{len(words)}I", *words)
    first = elf.Segment(elf.LOAD, 116, CODE, CODE, len(code), len(code), flags, 4)
    return elf.headers(CODE, first, elf.Segment(elf.LOAD, 0, DATA, DATA, 0, size, READ_WRITE, 4)) + code
