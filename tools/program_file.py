"""A program's file as far as it can be read before a run: its segments and the names of its symbols. Of a file that isn't as it
should be there are none: whether it is taken the tool says."""
import bisect
import collections
import os
import stat
import struct

MOST_BYTES = 1_048_576
LOAD, SYMTAB, OBJECT = 1, 2, 1
# A symbol's types that name no place of a program: sections, files, thread-local storage.
NO_PLACE = (3, 4, 6)
RESERVED = 0xFF00
PAGE, STACK = 256, (0x7FFF0000, 0x80000000)

Segment = collections.namedtuple("Segment", "start size flags")
# `size` is by the symbol where it has one, else up to the next symbol or the end of its section; `has_size` says which.
Symbol = collections.namedtuple("Symbol", "name start size has_size")


def read(path):
    """The file's bytes where it is a plain file that isn't too big, so that no pipe is read that the tool is to read."""
    try:
        about = os.stat(path)
        if stat.S_ISREG(about.st_mode) and about.st_size <= MOST_BYTES:
            with open(path, "rb") as file:
                return file.read()
    except OSError:
        pass
    return b""


def why_unreadable(path):
    """Why the system doesn't let the file be read, or None where it does. What may keep a reader waiting isn't opened: a pipe."""
    try:
        mode = os.stat(path).st_mode
        if stat.S_ISREG(mode) or stat.S_ISDIR(mode):
            with open(path, "rb") as file:
                file.read(1)
    except OSError as why:
        return why.strerror
    return None


class ProgramFile:
    def __init__(self, path):
        self.data, self.segments, self.symbols = read(path), [], []
        self.why_unreadable = None if self.data else why_unreadable(path)
        if self.data[:6] != b"\x7fELF\x01\x01":
            return
        try:
            rows = self.table(28, 42, "<8I")
            self.segments = [Segment(row[2], row[5], row[6]) for row in rows if row[0] == LOAD and row[5]]
            self.symbols = self.named()
        except (struct.error, ValueError, IndexError):
            pass

    def table(self, at, size_at, form):
        """The rows of a table of headers."""
        start, = struct.unpack_from("<I", self.data, at)
        size, count = struct.unpack_from("<HH", self.data, size_at)
        return [struct.unpack_from(form, self.data, start + size * row) for row in range(count if start else 0)]

    def named(self):
        """The symbols that name a place, by their addresses."""
        sections, found = self.table(32, 46, "<10I"), []
        for table in sections:
            if table[1] != SYMTAB:
                continue
            texts = sections[table[6]][4]
            for at in range(table[4], table[4] + table[5], 16):
                name, start, size, info, _, section = struct.unpack_from("<IIIBBH", self.data, at)
                text = self.data[texts + name:self.data.index(0, texts + name)].decode(errors="replace")
                if text and not text.startswith("$") and info & 15 not in NO_PLACE and 0 < section < RESERVED:
                    found.append((start, text, size, sections[section][3] + sections[section][5]))
        starts = sorted({start for start, *_ in found})
        return [Symbol(text, start, size or reach(start, end, starts), size > 0) for start, text, size, end in sorted(found)]

    def flags(self, address):
        """The flags of the address's page, or 0 where there is none."""
        page, flags = address // PAGE, 6 if is_stack(address) else 0
        for start, size, here in self.segments:
            if start // PAGE <= page <= (start + size - 1) // PAGE:
                flags |= here & 7
        return flags

    def name_at(self, address):
        """The symbol whose bytes the address is in, or None; of several the smallest."""
        inside = [symbol for symbol in self.symbols if symbol.start <= address < symbol.start + symbol.size]
        return min(inside, key=lambda symbol: symbol.size, default=None)


def reach(start, end, starts):
    """How far a symbol without a size reaches: to the next one, or to the end of its section."""
    behind = bisect.bisect_right(starts, start)
    return max(0, min([end, *starts[behind:behind + 1]]) - start)


def is_stack(address):
    return STACK[0] <= address < STACK[1]
