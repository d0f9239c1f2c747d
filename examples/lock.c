/* A keypad's lock: four digits and `#`. The digits are compared with both PINs to the end, whichever is wrong, so that the
   time tells nothing of them. The second PIN opens too, and raises a silent alarm.

   By hand, for 5 keys: 12 leaves. In each of four places `#` or no digit, 8; then a fifth key that isn't `#`; the owner's PIN;
   the alarm's PIN; and all other PINs, which are one leaf. */
#include <stdint.h>
#include "uart.h"

enum { DIGITS = 4 };
enum { OPEN = 0, TOO_SHORT = 1, TOO_LONG = 2, NO_DIGIT = 3, WRONG = 4 };

static const uint8_t owner_pin[DIGITS] = { '4', '1', '9', '7' };
static const uint8_t alarm_pin[DIGITS] = { '4', '1', '9', '8' };

int lock_enter(const uint8_t *keys, unsigned size)
{
    unsigned owner = 0, alarm = 0;

    if (size < DIGITS + 1)
        return TOO_SHORT;
    for (unsigned i = 0; i < DIGITS; i++) {
        if (keys[i] == '#')
            return TOO_SHORT;
        if (keys[i] < '0' || keys[i] > '9')
            return NO_DIGIT;
        owner |= keys[i] ^ owner_pin[i];
        alarm |= keys[i] ^ alarm_pin[i];
    }
    if (keys[DIGITS] != '#')
        return TOO_LONG;
    if (owner != 0 && alarm != 0)
        return WRONG;
    uart_write("open", 4);
    if (alarm == 0)
        uart_write("!", 1);
    return OPEN;
}
