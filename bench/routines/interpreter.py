"""An interpreter of RV32IM, which notes what a run decides.

It shares nothing with the crates: it is written from the RISC-V manual and docs/MACHINE.md. What a run decides is, step by
step, the fetched word, the side of a branch, the target of a JALR, of a load or a store of two or four bytes whether it is
misaligned, of one that isn't its page, and of an ECALL its number and, for a write, its file and where that is one its start and
length.
"""
import elf

INPUT = 0x11000
MASK = 0xFFFFFFFF


def signed(value, bits=32):
    return value - (1 << bits) if value >> (bits - 1) & 1 else value


class Trap(Exception):
    pass


class Exit(Exception):
    pass


def load(path):
    """The entry, and the pages of 256 bytes: number to [flags, bytes]."""
    data = path.read_bytes()
    pages = {page: [6, bytearray(256)] for page in range(0x7FFF00, 0x800000)}
    for kind, offset, address, _, in_file, in_memory, flags, _ in elf.segments(data):
        if kind != elf.LOAD or in_memory == 0:
            continue
        for page in range(address >> 8, (address + in_memory - 1 >> 8) + 1):
            pages.setdefault(page, [0, bytearray(256)])[0] |= flags & 7
        for place in range(in_file):
            pages[address + place >> 8][1][address + place & 255] = data[offset + place]
    return elf.entry(data), pages


def divided(a, b):
    """Quotient and remainder, rounded towards zero."""
    quotient = abs(a) // abs(b)
    if (a < 0) != (b < 0):
        quotient = -quotient
    return quotient, a - b * quotient


COMPUTE = {
    "add": lambda a, b: a + b, "sub": lambda a, b: a - b, "xor": lambda a, b: a ^ b, "or": lambda a, b: a | b, "and": lambda a, b: a & b,
    "sll": lambda a, b: a << (b & 31), "srl": lambda a, b: a >> (b & 31), "sra": lambda a, b: signed(a) >> (b & 31),
    "slt": lambda a, b: int(signed(a) < signed(b)), "sltu": lambda a, b: int(a < b),
    "mul": lambda a, b: a * b, "mulh": lambda a, b: signed(a) * signed(b) >> 32, "mulhsu": lambda a, b: signed(a) * b >> 32,
    "mulhu": lambda a, b: a * b >> 32, "div": lambda a, b: divided(signed(a), signed(b))[0] if b else MASK,
    "rem": lambda a, b: divided(signed(a), signed(b))[1] if b else a, "divu": lambda a, b: a // b if b else MASK,
    "remu": lambda a, b: a % b if b else a,
}
PLAIN_OPS = {0: "add", 1: "sll", 2: "slt", 3: "sltu", 4: "xor", 5: "srl", 6: "or", 7: "and"}
M_OPS = {0: "mul", 1: "mulh", 2: "mulhsu", 3: "mulhu", 4: "div", 5: "divu", 6: "rem", 7: "remu"}
TESTS = {0: lambda a, b: a == b, 1: lambda a, b: a != b, 4: lambda a, b: signed(a) < signed(b),
         5: lambda a, b: signed(a) >= signed(b), 6: lambda a, b: a < b, 7: lambda a, b: a >= b}
LOADS = {0: (1, True), 1: (2, True), 2: (4, False), 4: (1, False), 5: (2, False)}


class Machine:
    """A run of an image on input bytes, which stand one behind the other."""

    def __init__(self, image, values):
        entry, pages = image
        self.pc, self.pages = entry, {page: [flags, bytearray(data)] for page, (flags, data) in pages.items()}
        for address, value in enumerate(values, INPUT):
            self.pages[address >> 8][1][address & 255] = value
        self.x = [0] * 32
        self.x[2] = 0x7FFFFFF0
        self.path, self.output, self.end = "", b"", "running"
        # Where the last step loads or stores, if it does.
        self.address = None
        # One entry for each step: what it decides, and the path and output before it.
        self.log = []

    def byte(self, address):
        return self.pages[address >> 8][1][address & 255]

    def read(self, address, size):
        return sum(self.byte(address + place) << 8 * place for place in range(size))

    def flags(self, address):
        return self.pages[address >> 8][0] if address >> 8 in self.pages else None

    def run(self, steps):
        while self.end == "running" and len(self.log) < steps:
            decided = []
            self.log.append((decided, self.path, self.output))
            try:
                self.step(decided)
            except Trap as trap:
                self.end = f"trap {trap}"
            except Exit as status:
                self.end = f"exit {status}"
        return self

    def decisions(self):
        """All that the run decided, step by step."""
        return tuple(word for decided, _, _ in self.log for word in decided)

    def jump(self, target):
        if target % 4:
            raise Trap("FetchMisaligned")
        self.pc = target

    def reach(self, address, size, decided, misaligned):
        """Comes to the address of a load or a store, where it isn't misaligned."""
        self.address = address
        if size > 1:
            decided.append(int(address % size != 0))
        if address % size:
            raise Trap(misaligned)
        decided.append(address >> 8)

    def step(self, decided):
        pc, x, self.address = self.pc, self.x, None
        if pc % 4:
            raise Trap("FetchMisaligned")
        if not (self.flags(pc) or 0) & 1:
            raise Trap("FetchAccess")
        word = self.read(pc, 4)
        decided.append(word)
        opcode, rd, f3, rs1, rs2, f7 = word & 127, word >> 7 & 31, word >> 12 & 7, word >> 15 & 31, word >> 20 & 31, word >> 25
        a, b, immediate, result, after = x[rs1], x[rs2], signed(word >> 20, 12), None, pc + 4 & MASK
        if opcode == 0x37:
            result = word & 0xFFFFF000
        elif opcode == 0x17:
            result = pc + (word & 0xFFFFF000)
        elif opcode == 0x6F:
            offset = signed(word >> 31 << 20 | (word >> 12 & 255) << 12 | (word >> 20 & 1) << 11 | (word >> 21 & 1023) << 1, 21)
            self.jump(pc + offset & MASK)
            result, after = after, self.pc
        elif opcode == 0x67 and f3 == 0:
            target = a + immediate & MASK & ~1
            decided.append(target)
            self.path += f"@{target:08x}"
            self.jump(target)
            result, after = after, self.pc
        elif opcode == 0x63 and f3 in TESTS:
            offset = signed(word >> 31 << 12 | (word >> 7 & 1) << 11 | (word >> 25 & 63) << 5 | (word >> 8 & 15) << 1, 13)
            taken = TESTS[f3](a, b)
            decided.append("T" if taken else "N")
            self.path += decided[-1]
            if taken:
                self.jump(pc + offset & MASK)
                after = self.pc
        elif opcode == 0x03 and f3 in LOADS:
            size, is_signed = LOADS[f3]
            address = a + immediate & MASK
            self.reach(address, size, decided, "LoadMisaligned")
            if self.flags(address) is None:
                raise Trap("LoadAccess")
            result = self.read(address, size)
            result = signed(result, 8 * size) if is_signed else result
        elif opcode == 0x23 and f3 < 3:
            size, address = 1 << f3, a + signed(f7 << 5 | rd, 12) & MASK
            self.reach(address, size, decided, "StoreMisaligned")
            if not (self.flags(address) or 0) & 2:
                raise Trap("StoreAccess")
            for place in range(size):
                self.pages[address >> 8][1][address + place & 255] = b >> 8 * place & 255
        elif opcode == 0x13 and f3 not in (1, 5):
            result = COMPUTE[PLAIN_OPS[f3]](a, immediate & MASK)
        elif opcode == 0x13 and (f7 == 0 or f7 == 0x20 and f3 == 5):
            result = COMPUTE["sra" if f7 else PLAIN_OPS[f3]](a, rs2)
        elif opcode == 0x33 and (f7 in (0, 1) or f7 == 0x20 and f3 in (0, 5)):
            result = COMPUTE[{0: PLAIN_OPS, 1: M_OPS, 0x20: {0: "sub", 5: "sra"}}[f7][f3]](a, b)
        elif opcode == 0x0F and f3 == 0:
            pass
        elif word == 0x00000073:
            rd, result = 10, self.call(decided)
        elif word == 0x00100073:
            raise Trap("Break")
        else:
            raise Trap("Illegal")
        if result is not None and rd:
            x[rd] = result & MASK
        self.pc = after

    def call(self, decided):
        number, file, start, length = self.x[17], *self.x[10:13]
        decided.append(number)
        if number == 93:
            raise Exit(file & 255)
        if number != 64:
            raise Trap("Call")
        decided.append(file)
        if file not in (1, 2):
            raise Trap("Call")
        decided += [start, length]
        places = [start + place & MASK for place in range(min(length, 4096))]
        if any(self.flags(address) is None for address in places):
            raise Trap("LoadAccess")
        self.output += bytes(map(self.byte, places))
        return len(places)
