# The input goes into an instruction, and the next fetch sees it: the word that is fetched is a term, and parts by value.
# First into two bits of ADDI's immediate, four words; then into the three bits of BEQ that make it another branch, eight
# words, of which two are no instruction: 32 leaves.
    .section .text.start, "ax"
    .globl _start
_start:
    lui  s0, 0x11
    lbu  s1, 0(s0)
    la   t0, patched
    andi t1, s1, 0xc0           # bits 10 and 11 of the immediate
    lbu  t2, 3(t0)
    or   t2, t2, t1
    sb   t2, 3(t0)
    fence
patched:
    addi a0, zero, 5
    srli a0, a0, 6
    andi a0, a0, 0x3f
    lui  t3, 0
    la   t0, compared
    andi t1, s1, 0x07
    slli t1, t1, 12
    lw   t2, 0(t0)
    or   t2, t2, t1
    sw   t2, 0(t0)
    li   t4, -1
    li   t5, 1
compared:
    beq  t4, t5, 1f
    addi a0, a0, 64
1:  li   a7, 93
    ecall

    .section .input, "aw"
    .byte 0
