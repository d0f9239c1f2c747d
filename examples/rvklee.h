/* What a wrapper of a routine under test assumes, and what has to hold. For runs by rvklee: a board takes the ECALL and the EBREAK in
   its own way. */
#ifndef RVKLEE_H
#define RVKLEE_H

/* The status of a run whose assumption doesn't hold: leaves that end so are of no interest. */
enum { RVKLEE_NOT_ASSUMED = 125 };

/* Goes on where the condition holds; else the run exits, with a status of its own. */
static inline void rvklee_assume(int holds)
{
    if (!holds) {
        register long status __asm__("a0") = RVKLEE_NOT_ASSUMED;
        register long number __asm__("a7") = 93;
        __asm__ volatile("ecall" : : "r"(status), "r"(number));
        __builtin_unreachable();
    }
}

/* Goes on where the condition holds; else the run ends in the trap Break. */
static inline void rvklee_assert(int holds)
{
    if (!holds) {
        __asm__ volatile("ebreak");
        __builtin_unreachable();
    }
}

#endif
