# A JALR whose target depends on the input: 16 targets, since its lowest bit is cleared, so 16 leaves. Eight targets are no
# multiple of four and trap, after they are noted in the path. Of the others two trap, and two exit with the input.
    .section .text.start, "ax"
    .globl _start
_start:
    lui  s0, 0x11
    lbu  s1, 0(s0)
    andi t1, s1, 0x1f
    la   t0, 1f
    add  t0, t0, t1
    li   a0, 40
    li   a7, 93
    jalr ra, 0(t0)
1:  addi a0, a0, 1              # 00
    addi a0, a0, 1              # 04
    addi a0, a0, 1              # 08
    ecall                       # 0c
    .word 0                     # 10: no instruction
    ebreak                      # 14
    addi a0, s1, 0              # 18
    ecall                       # 1c

    .section .input, "aw"
    .byte 0
