/* A virtual machine with an accumulator, four cells and eight instructions, each a byte and an operand. Runs the two instructions
   of the input and exits with the accumulator; with 255 where an instruction isn't known.
   61 leaves. One instruction has 9 where the accumulator is 0: one that isn't known, HALT, six that part nothing, and SKIP; and 10
   where it may be 0, by the sides of SKIP. In front of them stand HALT and one that isn't known, a leaf each; SKIP, which always
   skips, another; SHOW and STORE, 9 each; and the four that set the accumulator, 10 each: 3 + 2 * 9 + 4 * 10. The instruction is
   a jump by a table, with eight targets. */
#define BYTES 4
#include "routine.h"

enum { HALT, SET, LOAD, STORE, ADD, XOR, SKIP, SHOW };
enum { CELLS = 4, UNKNOWN = 255 };

static u8 cells[CELLS] = {0, 1, 10, 100};

START {
    u32 accumulator = 0;
    for (u32 at = 0; at < BYTES; at += 2) {
        u32 operand = input[at + 1], cell = operand % CELLS;
        switch (input[at]) {
        case HALT:
            leave(accumulator);
        case SET:
            accumulator = operand;
            break;
        case LOAD:
            accumulator = cells[cell];
            break;
        case STORE:
            cells[cell] = accumulator;
            break;
        case ADD:
            accumulator += cells[cell];
            break;
        case XOR:
            accumulator ^= cells[cell];
            break;
        case SKIP:
            if (accumulator == 0)
                at += 2;
            break;
        case SHOW:
            put(1, &accumulator, 1);
            break;
        default:
            leave(UNKNOWN);
        }
    }
    leave(accumulator);
}
