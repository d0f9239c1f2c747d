"""The generated programs of `bench`, as docs/FORMATS.md has them, made anew here."""
import struct

from common import elf


def generated(number):
    """The file of the generated program of a number."""
    words = [0x000112B7, 0x00000313]
    for place in range(number):
        bound = 1 + (37 * place + 11 * number) % 255
        words += [0x0002C383 + (place << 20), 0x0003B393 + (bound << 20), 0x00038463]
        words += [0x00030313 + (place + 1 << 20), 0x10628023 + (place << 7)]
    words += [0x00100513, 0x10028593, 0x00000613 + (number << 20), 0x04000893, 0x00000073, 0x00030513, 0x05D00893, 0x00000073]
    code = struct.pack(f"<{len(words)}I", *words)
    first = elf.Segment(elf.LOAD, 116, 0x10000, 0x10000, len(code), len(code), 5, 4)
    return elf.headers(0x10000, first, elf.Segment(elf.LOAD, 0, 0x11000, 0x11000, 0, 1 << 20, 6, 4)) + code
