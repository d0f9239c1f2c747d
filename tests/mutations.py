"""Turns bytes into other bytes that are nearly as they were, for tests/fuzz, by the random numbers that are handed in."""
import struct

EDGES = [0, 1, 2, 3, 4, 7, 8, 31, 32, 33, 51, 52, 64, 127, 128, 255, 256, 257, 4095, 4096, 0x7FFF, 0x8000, 0xFFFF, 0x10000, 0xFFFFF,
         0x100000, 0x3FFF00, 0x400000, 0x7FFEFFFF, 0x7FFF0000, 0x7FFFFFFF, 0x80000000, 0xFFFFFF00, 0xFFFFFFFE, 0xFFFFFFFF]
# What stands in the texts that are read, and what nearly does.
PIECES = [b"0", b"00", b"-1", b"+1", b"1e0", b"1.0", b"4294967295", b"4294967296", b"18446744073709551616", b" ", b"\t", b"\n",
          b"\r\n", b"\x00", b"\xff", b"\xc3\xa9", b"\\u0000", b"\\ud800", b"[", b"]", b"{", b"}", b"\"", b",", b":", b"(", b")",
          b";", b"null", b"true", b"bv1", b"n0", b"n1", b"b0", b"_", b"exit 255", b"exit 256", b"running", b"trap Break",
          b"@00000000", b"=00000000", b"T", b"N", b"Y", b"R", b".", b"(assert (= n0 (_ bv1 1)))\n", b"(check-sat)\n",
          b"(exit)\n", b"; kind steps\n", b"; nodes 0\n"]


def flipped(r, data):
    """A bit is another."""
    data[r.randrange(len(data))] ^= 1 << r.randrange(8)


def set_edge(r, data):
    """A number of one, two or four bytes is one at an edge."""
    size = r.choice([1, 2, 4])
    at = r.randrange(max(1, min(len(data), r.choice([132, len(data)]))))
    data[at:at + size] = struct.pack("<I", r.choice(EDGES))[:size]


def added(r, data):
    """A number of four bytes is a few more or less."""
    at = 4 * r.randrange(len(data) // 4 + 1)
    if at + 4 <= len(data):
        value, = struct.unpack_from("<I", data, at)
        struct.pack_into("<I", data, at, value + r.randint(-20, 20) & 0xFFFFFFFF)


def removed(r, data):
    at = r.randrange(len(data))
    del data[at:at + r.choice([1, 1, 2, 4, 32, len(data)])]


def repeated(r, data):
    at, size = r.randrange(len(data)), r.choice([1, 4, 32, 200])
    data[at:at] = data[at:at + size] * r.choice([1, 1, 2, 50])


def moved(r, data):
    """Some bytes stand in another place too."""
    at, to, size = r.randrange(len(data)), r.randrange(len(data)), r.choice([1, 4, 8, 32])
    data[to:to + size] = data[at:at + size]


def pieced(r, data):
    at = r.randrange(len(data) + 1)
    data[at:at + r.choice([0, 0, 1, 2, 8])] = r.choice(PIECES)


def lined(r, data):
    """A line is gone, stands twice, or in the place of another."""
    lines = bytes(data).split(b"\n")
    at, to = r.randrange(len(lines)), r.randrange(len(lines))
    lines[at:at + r.choice([0, 1])] = r.choice([[], [lines[to]], [lines[to], lines[at]]])
    data[:] = b"\n".join(lines)


def renumbered(r, data):
    """One of the decimal numbers is another."""
    text = bytes(data)
    digits = [at for at in range(len(text)) if text[at:at + 1].isdigit()]
    if digits:
        at = r.choice(digits)
        data[at:at + r.choice([1, 1, 2])] = str(r.choice([0, 1, 2, 7, 9, 10, 64, 65, 255, 256, r.choice(EDGES), 1 << 64])).encode()


IN_FILES = [flipped, flipped, set_edge, set_edge, added, removed, repeated, moved]
IN_TEXTS = [flipped, removed, repeated, moved, pieced, pieced, lined, lined, renumbered, renumbered]


def mutated(r, data, kinds, most):
    """The bytes after one to four changes of these kinds, and at most so many."""
    found = bytearray(data)
    for _ in range(r.choice([1, 1, 1, 2, 2, 3, 4])):
        if found:
            r.choice(kinds)(r, found)
    return bytes(found[:most])
