"""The headers of ELF32 files, little endian (Tool Interface Standard, Executable and Linking Format)."""
import collections
import struct

LOAD = 1
Segment = collections.namedtuple("Segment", "kind offset address physical in_file in_memory flags align")
Section = collections.namedtuple("Section", "name kind flags address offset size link info align entry_size")


def entry(data):
    return struct.unpack_from("<I", data, 24)[0]


def rows(data, at, size_at, row):
    """The rows of a table of headers, by where the file's own header has the table's place, and the size and number of its rows."""
    start, = struct.unpack_from("<I", data, at)
    size, count = struct.unpack_from("<HH", data, size_at)
    return [row(*struct.unpack_from(f"<{len(row._fields)}I", data, start + size * place)) for place in range(count)]


def segments(data):
    return rows(data, 28, 42, Segment)


def sections(data):
    """The section headers; a file that has no table of them has none."""
    return rows(data, 32, 46, Section) if any(data[32:36]) else []


def headers(start, *parts):
    """The headers of an executable for RV32 that starts there: its own, and behind it those of its segments."""
    own = struct.pack("<16sHHIIIIIHHHHHH", b"\x7fELF\1\1\1", 2, 243, 1, start, 52, 0, 0, 52, 32, len(parts), 0, 0, 0)
    return own + b"".join(struct.pack("<8I", *part) for part in parts)
