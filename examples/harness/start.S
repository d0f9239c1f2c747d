/* Start-up for a routine under test: calls ROUTINE(input, LENGTH) and exits with the low byte of what it returns. The build
   says which: -DROUTINE=settings_read -DLENGTH=5. */

    .file "start.S"

    .section .text.start, "ax"
    .globl _start
_start:
    la   a0, input              /* x2, the stack pointer, is set where a program starts; all other registers are 0 */
    li   a1, LENGTH
    call ROUTINE
    li   a7, 93                 /* exit */
    ecall

/* void uart_write(const void *start, unsigned length): the machine's write call, to standard output. */
    .section .text.uart_write, "ax"
    .globl uart_write
uart_write:
    mv   a2, a1
    mv   a1, a0
    li   a0, 1
    li   a7, 64                 /* write */
    ecall
    ret

/* The input bytes. harness.ld puts them at the end of a page. */
    .section .input, "aw"
    .globl input
input:
    .skip LENGTH
