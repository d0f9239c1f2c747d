"""A program as a report needs it: its image, its instruction words, and the names of its places."""
import bisect
import collections
import pathlib
import struct
import sys

sys.path.insert(0, str(pathlib.Path(__file__).resolve().parent.parent / "bench/routines"))

import elf  # noqa: E402
import interpreter  # noqa: E402

EXECUTABLE = 1
SYMTAB, SECTION_EXECUTABLE = 2, 4
# A symbol's types that name a place in code.
NO_TYPE, FUNCTION = 0, 2
# A symbol of code; `is_function` says that it has this type, and else it may be a label.
CodeSymbol = collections.namedtuple("CodeSymbol", "name start size is_function")


def read_program(word):
    """The program in a file. Where the file is no program, the script ends."""
    path = pathlib.Path(word)
    if not word:
        raise SystemExit("PROGRAM is an empty word")
    if not path.is_file():
        raise SystemExit(f"{word}: " + ("no such file" if not path.exists() else "it is no plain file"))
    try:
        if path.read_bytes()[:6] != b"\x7fELF\x01\x01":
            raise SystemExit(f"{word} is no ELF32 file: give the PROGRAM that was explored")
        return Program(path)
    except OSError as why:
        raise SystemExit(f"{word}: {why.strerror}") from None
    except (struct.error, IndexError, KeyError, ValueError, MemoryError):
        raise SystemExit(f"{word}: its headers aren't those of a program: give the PROGRAM that was explored") from None


class Program:
    def __init__(self, path):
        self.path, self.data = path, path.read_bytes()
        self.image = interpreter.load(path)
        self.areas = self.code()
        self.words = [(address, self.word(address)) for start, size in self.areas for address in range(start, start + size - 3, 4)]
        self.symbols = self.code_symbols()
        self.names = {symbol.start: symbol.name for symbol in self.symbols}
        self.named = sorted(self.names)

    def word(self, address):
        _, pages = self.image
        return int.from_bytes(bytes(pages[place >> 8][1][place & 255] for place in range(address, address + 4)), "little")

    def code(self):
        """Start and size of what has instructions: the sections that say so, or where there is none the segments."""
        found = [(it.address, it.size) for it in elf.sections(self.data) if it.flags & SECTION_EXECUTABLE and it.size]
        if not found:
            loaded = [it for it in elf.segments(self.data) if it.kind == elf.LOAD and it.flags & EXECUTABLE]
            found = [(it.address, it.in_memory) for it in loaded if it.in_memory]
        return sorted(found)

    def is_code(self, address):
        return any(start <= address < start + size for start, size in self.areas)

    def code_symbols(self):
        """The functions and labels, by their addresses. A stripped file has none."""
        found, sections = [], elf.sections(self.data)
        for table in sections:
            if table.kind != SYMTAB:
                continue
            names = sections[table.link].offset
            for at in range(table.offset, table.offset + table.size, 16):
                name, start, size, info, _, _ = struct.unpack_from("<IIIBBH", self.data, at)
                text = self.data[names + name:self.data.index(0, names + name)].decode(errors="replace")
                if info & 15 in (NO_TYPE, FUNCTION) and self.is_code(start) and text and not text.startswith(("$", ".L")):
                    found.append(CodeSymbol(text, start, size, info & 15 == FUNCTION))
        return sorted(found, key=lambda symbol: symbol.start)

    def place(self, address):
        """An address by the last name before it, as `settings_read+0x2c`; empty where there is none."""
        found = bisect.bisect_right(self.named, address)
        if not found or not self.is_code(address):
            return ""
        start = self.named[found - 1]
        return self.names[start] + (f"+0x{address - start:x}" if address > start else "")

    def where(self, address):
        """An address with its place."""
        place = self.place(address)
        return f"0x{address:x} <{place}>" if place else f"0x{address:x}"
