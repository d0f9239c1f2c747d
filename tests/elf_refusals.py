"""Which files and inputs are refused, and why, as docs/FORMATS.md has it in words. It shares nothing with the crates."""
import struct

STACK, TOP, PAGE, MOST_PAGES = 0x7FFF0000, 1 << 32, 256, 16_384
NAMES = ["TooBig", "Short", "Magic", "Class", "ByteOrder", "Version", "FileType", "Machine", "Flags", "HeaderSize",
         "HeadersPastEnd", "Dynamic", "FileOverMemory", "BytesPastEnd", "AddressRange", "Overlap", "TooManyPages", "Nothing"]
MISFITS = ["TooMany", "Empty", "TooLong", "Unmapped", "Overlap"]


def u16(data, at):
    return struct.unpack_from("<H", data, at)[0]


def u32(data, at):
    return struct.unpack_from("<I", data, at)[0]


def header_refusal(data):
    """The first reason among those of the file's own header, or None."""
    if len(data) > 1_048_576:
        return "TooBig"
    if len(data) < 52:
        return "Short"
    rows = [
        ("Magic", data[:4] != b"\x7fELF"), ("Class", data[4] != 1), ("ByteOrder", data[5] != 1),
        ("Version", data[6] != 1 or u32(data, 20) != 1), ("FileType", u16(data, 16) != 2), ("Machine", u16(data, 18) != 243),
        ("Flags", u32(data, 36) & 9), ("HeaderSize", u16(data, 40) != 52 or u16(data, 44) and u16(data, 42) != 32),
        ("HeadersPastEnd", u32(data, 28) + 32 * u16(data, 44) > len(data)),
    ]
    return next((name for name, is_so in rows if is_so), None)


def overlap(areas):
    """Whether two of these, each from its start up to its end, share a place."""
    areas = sorted(areas)
    return any(later[0] < earlier[1] for earlier, later in zip(areas, areas[1:]))


def touched(areas):
    """The numbers of the pages that these touch."""
    return {page for start, end in areas for page in range(start // PAGE, (end - 1) // PAGE + 1)}


def headers(data):
    start = u32(data, 28)
    return [struct.unpack_from("<8I", data, start + 32 * place) for place in range(u16(data, 44))]


def areas_of(data):
    """The segments, each from its start up to its end."""
    return [(row[2], row[2] + row[5]) for row in headers(data) if row[0] == 1 and row[5]]


def segment_refusal(data):
    """The first reason among those of the program headers, or None."""
    loads, areas = [row for row in headers(data) if row[0] == 1], areas_of(data)
    if any(row[0] in (2, 3) for row in headers(data)):
        return "Dynamic"
    if any(row[4] > row[5] for row in loads):
        return "FileOverMemory"
    if any(row[4] and row[1] + row[4] > len(data) for row in loads):
        return "BytesPastEnd"
    if any(end > TOP or start < TOP // 2 and end > STACK for start, end in areas):
        return "AddressRange"
    if overlap(areas):
        return "Overlap"
    # Segments that share no address touch a page each at least partly, so long ones needn't be counted.
    if sum(end - start for start, end in areas) > MOST_PAGES * PAGE or len(touched(areas)) > MOST_PAGES:
        return "TooManyPages"
    return None if areas else "Nothing"


def refusal(data):
    return header_refusal(data) or segment_refusal(data)


def misfit(data, regions):
    """Why these regions don't fit the program of a file that loads, or None."""
    areas = [(start, start + count) for start, count in regions]
    if len(regions) > 8:
        return "TooMany"
    if any(count == 0 for _, count in regions):
        return "Empty"
    if sum(count for _, count in regions) > 1024:
        return "TooLong"
    # The stack is mapped in every program.
    pages = touched(areas_of(data)) | set(range(STACK // PAGE, TOP // 2 // PAGE))
    if any(end > TOP for _, end in areas) or not touched(areas) <= pages:
        return "Unmapped"
    return "Overlap" if overlap(areas) else None


def line_of(data, regions):
    """The line that is said of a program or of its inputs where they are refused, or None."""
    name = refusal(data)
    if name:
        return f"program refused {NAMES.index(name) + 1} {name}\n"
    name = misfit(data, regions)
    return f"inputs refused {MISFITS.index(name) + 1} {name}\n" if name else None
