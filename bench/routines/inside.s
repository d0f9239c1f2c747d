# The input byte is itself part of an instruction: its lowest byte, on a page that can be executed. All 256 words
# differ, more than targets may be: 64 leaves and the rest. Few of them are an instruction, and the others trap.
    .section .text.start, "ax"
    .globl _start
_start:
    lui  s0, 0x11
    li   a0, 33
    li   a7, 93
    jr   s0

    .section .input, "awx"
    .byte 0x13, 0x05, 0xc5, 0x00   # 13: addi a0, a0, 12
    ecall
    addi a0, a0, 1
    ecall
