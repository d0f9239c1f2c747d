"""The text of an instruction of RV32IM: the mnemonics of the RISC-V unprivileged manual (its instruction set listings), with no
pseudo-instructions, and the registers by the names of their use."""

REGISTERS = ["zero", "ra", "sp", "gp", "tp", "t0", "t1", "t2", "s0", "s1", *(f"a{place}" for place in range(8)),
             *(f"s{place}" for place in range(2, 12)), *(f"t{place}" for place in range(3, 7))]
BRANCHES = {0: "beq", 1: "bne", 4: "blt", 5: "bge", 6: "bltu", 7: "bgeu"}
LOADS = {0: "lb", 1: "lh", 2: "lw", 4: "lbu", 5: "lhu"}
STORES = {0: "sb", 1: "sh", 2: "sw"}
# By funct3, of the instructions with an immediate that are no shifts.
IMMEDIATES = {0: "addi", 2: "slti", 3: "sltiu", 4: "xori", 6: "ori", 7: "andi"}
# By funct7 and funct3.
SHIFTS = {(0, 1): "slli", (0, 5): "srli", (0x20, 5): "srai"}
OPERATIONS = {
    **{(0, f3): name for f3, name in enumerate(["add", "sll", "slt", "sltu", "xor", "srl", "or", "and"])},
    **{(1, f3): name for f3, name in enumerate(["mul", "mulh", "mulhsu", "mulhu", "div", "divu", "rem", "remu"])},
    (0x20, 0): "sub", (0x20, 5): "sra",
}
WHOLE = {0x00000073: "ecall", 0x00100073: "ebreak"}


def signed(value, bits):
    return value - (1 << bits) if value >> bits - 1 & 1 else value


def branch_offset(word):
    return signed(word >> 31 << 12 | (word >> 7 & 1) << 11 | (word >> 25 & 63) << 5 | (word >> 8 & 15) << 1, 13)


def jump_offset(word):
    return signed(word >> 31 << 20 | (word >> 12 & 255) << 12 | (word >> 20 & 1) << 11 | (word >> 21 & 1023) << 1, 21)


def is_branch(word):
    return word & 127 == 0x63 and word >> 12 & 7 in BRANCHES


def target(address, word):
    """Where a branch or a JAL at an address goes, or None of another instruction."""
    if is_branch(word):
        return address + branch_offset(word) & 0xFFFFFFFF
    return address + jump_offset(word) & 0xFFFFFFFF if word & 127 == 0x6F else None


def instruction(address, word):
    """The mnemonic and the operands, or None where the word is no instruction of RV32IM."""
    opcode, f3, f7 = word & 127, word >> 12 & 7, word >> 25
    rd, rs1, rs2 = (REGISTERS[word >> place & 31] for place in (7, 15, 20))
    immediate, upper = signed(word >> 20, 12), f"0x{word >> 12:x}"
    if opcode in (0x37, 0x17):
        return "lui" if opcode == 0x37 else "auipc", f"{rd}, {upper}"
    if opcode == 0x6F:
        return "jal", f"{rd}, 0x{target(address, word):x}"
    if opcode == 0x67 and f3 == 0:
        return "jalr", f"{rd}, {immediate}({rs1})"
    if is_branch(word):
        return BRANCHES[f3], f"{rs1}, {rs2}, 0x{target(address, word):x}"
    if opcode == 0x03 and f3 in LOADS:
        return LOADS[f3], f"{rd}, {immediate}({rs1})"
    if opcode == 0x23 and f3 in STORES:
        return STORES[f3], f"{rs2}, {signed(f7 << 5 | word >> 7 & 31, 12)}({rs1})"
    if opcode == 0x13 and f3 in IMMEDIATES:
        return IMMEDIATES[f3], f"{rd}, {rs1}, {immediate}"
    if opcode == 0x13 and (f7, f3) in SHIFTS:
        return SHIFTS[f7, f3], f"{rd}, {rs1}, {word >> 20 & 31}"
    if opcode == 0x33 and (f7, f3) in OPERATIONS:
        return OPERATIONS[f7, f3], f"{rd}, {rs1}, {rs2}"
    if opcode == 0x0F and f3 == 0:
        return "fence", ""
    return (WHOLE[word], "") if word in WHOLE else None


def text(address, word):
    """The instruction's text; of another word the word."""
    found = instruction(address, word)
    return f".word 0x{word:08x}" if found is None else " ".join(filter(None, found))
