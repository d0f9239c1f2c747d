# The input is stored as bytes and half words, and read back as other widths; and a byte is stored at one of four places.
# 8 leaves: the word's sign and the half word's (bits 7 and 4), and whether the place is the second (bits 0 and 1). All else parts
# nothing.
    .section .text.start, "ax"
    .globl _start
_start:
    lui  s0, 0x11
    lbu  s1, 0(s0)
    addi s2, s0, 0x80
    li   t0, 0x12345678
    sw   t0, 0(s2)
    sb   s1, 3(s2)              # the top byte of the word
    lw   t1, 0(s2)
    li   a0, 0
    bgez t1, 1f                 # the word's sign is the input's
    addi a0, a0, 1
1:  lh   t2, 2(s2)              # the input above 34
    lhu  t3, 2(s2)
    beq  t2, t3, 2f             # the same question: parts nothing more
    addi a0, a0, 2
2:  slli t4, s1, 11
    sh   t4, 0(s2)              # the input's lower five bits on top, so that its sign is bit 4
    lbu  t5, 1(s2)
    slli t6, s1, 3
    andi t6, t6, 0xff
    bne  t5, t6, 9f             # never
    lh   t5, 0(s2)
    bltz t5, 3f
    addi a0, a0, 4
3:  andi t1, s1, 3
    add  t1, t1, s2
    li   t2, 0x55
    sb   t2, 4(t1)              # one of four places
    lw   t3, 4(s2)
    lbu  t4, 5(s2)
    beqz t4, 4f                 # whether it is the second
    addi a0, a0, 8
4:  srli t3, t3, 24
    add  a0, a0, t3
    sb   s1, 0(s0)              # the input byte itself is written, and read again
    lbu  t5, 0(s0)
    bne  t5, s1, 9f             # never
    j    10f
9:  li   a0, 255
10: li   a7, 93
    ecall

    .section .input, "aw"
    .byte 0
