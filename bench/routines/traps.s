# Ways to trap, chosen by the input's upper four bits; the lower four say where. Loads and stores of half words and words that
# aren't aligned trap; alignment is tested before the page. 18 leaves.
    .section .text.start, "ax"
    .globl _start
_start:
    lui  s0, 0x11
    lbu  s1, 0(s0)
    srli t0, s1, 4
    andi t1, s1, 3
    addi s2, s0, 0x40
    add  s2, s2, t1
    li   a0, 7
    li   a7, 93
    li   t2, 1
    bltu t0, t2, 1f             # 00 to 0f: loads of words
    beq  t0, t2, 2f             # 10 to 1f: stores of half words
    li   t2, 3
    bltu t0, t2, 3f             # 20 to 2f: a load from a page that isn't there
    beq  t0, t2, 4f             # 30 to 3f: a store to code
    li   t2, 5
    bltu t0, t2, 5f             # 40 to 4f: a jump to data
    beq  t0, t2, 6f             # 50 to 5f: a branch to half an instruction
    li   t2, 7
    bltu t0, t2, 7f             # 60 to 6f: a call of another number
    beq  t0, t2, 8f             # 70 to 7f: a break, or not
    ecall
1:  lw   t3, 0(s2)
    add  a0, a0, t3
    ecall
2:  sh   s1, 0(s2)
    lhu  t3, 0(s2)
    andi a0, t3, 0xff
    ecall
3:  lui  t3, 0x90000
    add  t3, t3, t1
    lh   t4, 0(t3)
    ecall
4:  la   t3, 4b
    andi t4, s1, 1
    add  t3, t3, t4
    sh   s1, 0(t3)
    ecall
5:  add  t3, s0, t1
    jr   t3
6:  .word 0x00000363 | 9 << 15 | 9 << 20    # beq s1, s1, .+6
    ecall
7:  add  a7, a7, t1
    ecall
8:  andi t3, s1, 8
    beqz t3, 9f
    ebreak
9:  addi a0, a0, 1
    ecall

    .section .input, "aw"
    .byte 0
