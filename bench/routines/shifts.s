# Shifts by registers, of the input and by the input, of which the low five bits count; and the operations with immediates
# that no other routine has. Nine leaves, by which of the four results are as the branches ask; the status is a term.
    .section .text.start, "ax"
    .globl _start
_start:
    lui  s0, 0x11
    lb   s1, 0(s0)
    li   t0, 0x00c03001
    sll  t1, t0, s1             # by 0 to 31, also where the byte is more
    srl  t2, t0, s1
    li   a0, 0
    bgez t1, 1f                 # the sign is a bit of t0
    addi a0, a0, 1
1:  andi t3, t2, 1              # so is this
    beqz t3, 2f
    addi a0, a0, 2
2:  slli t4, s1, 24
    sra  t5, t4, s1             # the input, shifted by itself
    srl  t6, t4, s1
    bne  t5, t6, 3f             # alike where it is positive or isn't shifted
    addi a0, a0, 4
3:  li   t2, 37
    sra  t3, t4, t2             # by 5
    srai t4, t4, 5
    bne  t3, t4, 9f             # never
    ori  t5, t5, 0x7f0
    xori t5, t5, -1
    slti t6, t5, -2048
    bnez t6, 4f
    addi a0, a0, 8
4:  sub  t1, t1, t5
    andi t1, t1, 0x70
    or   a0, a0, t1
    li   a7, 93
    ecall
9:  ebreak

    .section .input, "aw"
    .byte 0
