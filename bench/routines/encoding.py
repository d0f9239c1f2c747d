"""The words of RV32IM instructions, by their fields as the manual's instruction formats have them."""


def register_word(f7, rs2, rs1, f3, rd):
    return f7 << 25 | rs2 << 20 | rs1 << 15 | f3 << 12 | rd << 7 | 0x33


def immediate_word(value, rs1, f3, rd, opcode=0x13):
    return (value & 0xFFF) << 20 | rs1 << 15 | f3 << 12 | rd << 7 | opcode


def load_word(value, rs1, f3, rd):
    return immediate_word(value, rs1, f3, rd, 0x03)


def store_word(value, rs2, rs1, f3):
    return (value >> 5 & 127) << 25 | rs2 << 20 | rs1 << 15 | f3 << 12 | (value & 31) << 7 | 0x23


def branch_word(value, rs2, rs1, f3):
    upper, lower = (value >> 12 & 1) << 6 | value >> 5 & 63, (value >> 1 & 15) << 1 | value >> 11 & 1
    return upper << 25 | rs2 << 20 | rs1 << 15 | f3 << 12 | lower << 7 | 0x63


def jump_word(value, rd=0):
    upper, lower = (value >> 20 & 1) << 10 | value >> 1 & 0x3FF, (value >> 11 & 1) << 8 | value >> 12 & 0xFF
    return upper << 21 | lower << 12 | rd << 7 | 0x6F


def number(rd, value):
    upper = value + 0x800 & 0xFFFFF000
    return [upper | rd << 7 | 0x37, immediate_word(value - upper, rd, 0, rd)]
