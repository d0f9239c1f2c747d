/* A check of a PIN of four digits that leaves at the first that is wrong, as careless firmware does: writes "open" and exits
   with 0 where it is right; exits with 1 to 4 for the place of a wrong digit, and with 17 to 20 for that of a byte that is no
   digit. The PIN is kept under masks. The PIN with one more in its last digit opens too, and tells so on standard error.
   Ten leaves: each place with no digit and with a wrong one, and the two that open. */
#define BYTES 4
#include "routine.h"

static const u8 kept[BYTES] = {'7' ^ 0x5A, '3' ^ 0x6B, '0' ^ 0x7C, '8' ^ 0x8D};

START {
    u32 last = 0;
    for (u32 i = 0; i < BYTES; i++) {
        u32 digit = input[i];
        if (digit - '0' > 9)
            leave(17 + i);
        last = digit - (kept[i] ^ (0x5A + 0x11 * i));
        if (last && i < BYTES - 1)
            leave(1 + i);
    }
    if (last > 1)
        leave(BYTES);
    put(1, "open", 4);
    if (last)
        put(2, "duress", 6);
    leave(0);
}
