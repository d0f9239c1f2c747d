/* A heater's controller: a reading of a 12-bit converter, the lower byte first, becomes a temperature on the line between two
   points of a table, and the temperature a step of a PI controller. Exits with the heater's power, which is 0 where the sensor
   is broken, and from 0 to 255 else. The upper four bits are ignored. gcc clamps the sum at 0 without a branch.
   Five leaves: one of the broken sensor; one of the power that is clamped at 0, from 52.6 degrees up; two of the one that is
   clamped at 255, from 1.3 degrees down, since below -10 degrees the sum is clamped too; and one of all between. The table parts
   nothing. */
#define BYTES 2
#include "routine.h"

enum { SHORTED = 128, OPEN = 3968, WANTED = 400, SUM_MOST = 1000, POWER_MOST = 255 };

/* Tenths of a degree at every 512th reading: a thermistor of 10 k at 25 degrees, below a resistor of 10 k. No sound sensor
   reaches the outer two, which only give the end pieces their slope. */
static const short points[9] = {1200, 763, 520, 370, 250, 139, 22, -132, -400};

/* The errors of earlier steps. */
static int sum = 500;

static inline int clamped(int value, int least, int most) { return value < least ? least : value > most ? most : value; }

START {
    u32 reading = (input[0] | input[1] << 8) & 0xFFF;
    if (reading < SHORTED || reading > OPEN)
        leave(0);
    u32 place = reading >> 9, part = reading & 511;
    int low = points[place], high = points[place + 1];
    int temperature = low + ((high - low) * (int)part >> 9);
    int error = WANTED - temperature;
    sum = clamped(sum + error, 0, SUM_MOST);
    leave(clamped((3 * error + sum) >> 3, 0, POWER_MOST));
}
