/* The class of the lead byte of a UTF-8 sequence: exits with the number of bytes, and 16 more where the second byte
   has a range of its own (E0, ED, F0, F4); 0 where no sequence begins so.
   Nine leaves: gcc tests F0 and F4 at once, all else each on its own. */
#include "routine.h"

START {
    u32 lead = input, class;
    if (lead < 0x80)
        class = 1;
    else if (lead < 0xC2)
        class = 0;
    else if (lead < 0xE0)
        class = 2;
    else if (lead < 0xF0)
        class = lead == 0xE0 || lead == 0xED ? 19 : 3;
    else if (lead < 0xF5)
        class = lead == 0xF0 || lead == 0xF4 ? 20 : 4;
    else
        class = 0;
    leave(class);
}
