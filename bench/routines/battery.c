/* The level of a battery, 0 to 4, from the level that was shown before and a voltage. It falls where the voltage is below its
   threshold, and rises only where it is at least 4 above that of the next level. Exits with the new level, or with 255 where
   the one before is above 4.
   20 leaves: 255; seven where the level rises, by how often the loop turns, up to three times where it ends by the voltage and up
   to four where it ends by the level; and where it doesn't rise five from level 4 on, and seven from another, where the second
   loop turns up to twice and ends by the voltage, or up to three times and ends at level 0. The loads part nothing. */
#define BYTES 2
#include "routine.h"

enum { LEVELS = 4, HYSTERESIS = 4, NO_LEVEL = 255 };

/* The voltages from which on the level is 1, 2, 3 and 4. */
static const u8 thresholds[LEVELS] = {150, 170, 190, 210};

START {
    u32 level = input[0], voltage = input[1];
    if (level > LEVELS)
        leave(NO_LEVEL);
    while (level < LEVELS && voltage >= thresholds[level] + HYSTERESIS)
        level++;
    while (level > 0 && voltage < thresholds[level - 1])
        level--;
    leave(level);
}
