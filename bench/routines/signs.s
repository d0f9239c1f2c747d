# The input as a signed and an unsigned number, by LB and LBU, and all six branches and both set-if-less on them.
# The status says which held. Four leaves: 00 to 31, 32 to 7f, 80 to 9b, 9c to ff.
    .section .text.start, "ax"
    .globl _start
_start:
    lui  s0, 0x11
    lb   s1, 0(s0)
    lbu  s2, 0(s0)
    li   a0, 0
    li   t0, -100
    li   t1, 50
    blt  s1, t0, 1f             # below -100: bytes 80 to 9b
    addi a0, a0, 1
1:  bltu s1, t1, 2f             # unsigned below 50: 00 to 31, none of the negative ones
    addi a0, a0, 2
2:  bge  s2, t1, 3f             # 32 to ff
    addi a0, a0, 4
3:  bgeu s1, t0, 4f             # unsigned from -100 on: 9c to ff
    addi a0, a0, 8
4:  beq  s1, s2, 5f             # 00 to 7f
    addi a0, a0, 16
5:  srai t2, s1, 6              # -2, -1, 0, 1
    srli t3, s2, 6              # 0 to 3
    bne  t2, t3, 6f
    addi a0, a0, 32
6:  slti t4, s1, -3
    sltiu t5, s1, -3
    xor  t6, t4, t5             # both hold of negative ones below -3; for 0 and up only the second
    beqz t6, 7f
    addi a0, a0, 64
7:  slt  t4, s2, s1             # never: the unsigned one is no less
    sltu t5, s2, s1             # where it is negative
    add  a0, a0, t4
    bnez t5, 8f
    addi a0, a0, 128
8:  li   a7, 93
    ecall

    .section .input, "aw"
    .byte 0
