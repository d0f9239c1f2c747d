# Division by the input, signed and unsigned: exits with a number for each way.
# DIVU and REMU of 1000 by the byte: all ones and 1000 by zero. DIV and REM of -2^31 by the byte as a signed number:
# all ones and -2^31 by zero, -2^31 and 0 by -1. Six leaves: zero, what divides 1000, -1, other powers of two, and the
# other positive and negative numbers, of which the status is a term.
    .section .text.start, "ax"
    .globl _start
_start:
    lui  s0, 0x11
    lbu  s1, 0(s0)              # 0 to 255
    lb   s2, 0(s0)              # -128 to 127
    li   t0, 1000
    divu t1, t0, s1
    remu t2, t0, s1
    li   a0, 1
    beq  t2, t0, by_zero        # 1000 mod the byte is 1000 by zero alone
    li   a0, 2
    beqz t2, leave              # a divisor of 1000
    lui  t3, 0x80000            # -2^31
    div  t4, t3, s2
    rem  t5, t3, s2
    li   a0, 3
    beq  t4, t3, leave          # by 1 (which divides 1000) or by -1
    li   a0, 4
    beqz t5, leave              # powers of two and their negatives
    li   a0, 5
    bgtz t4, negative           # -2^31 by a negative number is positive
    sltiu a1, t1, 8
    sub  a0, a0, t5             # the remainder is negative here
    add  a0, a0, a1
    j    leave
negative:
    mul  t6, t4, s2
    add  t6, t6, t5             # quotient * divisor + remainder is -2^31 again
    sub  t6, t6, t3
    li   a0, 6
    bnez t6, leave              # never
    andi a0, t1, 3
    j    leave
by_zero:
    addi t1, t1, 1
    bnez t1, leave              # never: all ones
    lui  t3, 0x80000
    div  t4, t3, s2
    rem  t5, t3, s2
    bne  t5, t3, leave          # never: the dividend
    sub  a0, zero, t4
    addi a0, a0, 99             # 100
leave:
    li   a7, 93
    ecall

    .section .input, "aw"
    .byte 0
