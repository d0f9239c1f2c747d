# Upper halves of products: MULHU, MULH and MULHSU of numbers that are made of the input, with a branch on each.
# Six leaves: by the square, by the sign, and by two bits of a sum of products.
    .section .text.start, "ax"
    .globl _start
_start:
    lui  s0, 0x11
    lb   s1, 0(s0)
    lbu  s2, 0(s0)
    slli t0, s2, 24             # the input as the top byte
    mulhu t1, t0, t0            # its square, 8 bits down
    srli t1, t1, 16
    li   t2, 0x2000
    li   a0, 0
    bltu t1, t2, 1f             # a square below 0x2000: 00 to 5a
    addi a0, a0, 1
1:  mulh t3, t0, s1             # signed by signed: of the same sign, so never negative
    bltz t3, 9f                 # never
    mulhsu t4, s1, t0           # signed by unsigned: negative just where the input is
    bgez t4, 2f
    addi a0, a0, 2
2:  mulhu t5, s1, s1            # of a negative number not 0
    mulh t6, s1, s1             # of any of these numbers 0
    bnez t6, 9f                 # never
    beqz t5, 3f
    addi a0, a0, 4
3:  mul  t1, s1, s1
    add  t2, t5, t4
    xor  t2, t2, t1
    andi t2, t2, 0x18
    bnez t2, 4f
    addi a0, a0, 8
4:  li   a7, 93
    ecall
9:  ebreak

    .section .input, "aw"
    .byte 0
