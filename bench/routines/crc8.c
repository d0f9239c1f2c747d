/* CRC-8 of the input byte, polynomial 0x07, bit by bit: exits with the CRC.
   Each of the eight rounds branches on the top bit. The CRC of a byte is one to one, and so are these eight bits:
   256 leaves, one for each byte. */
#include "routine.h"

START {
    u32 crc = input;
    for (int round = 0; round < 8; round++) {
        if (crc & 0x80)
            crc = (crc << 1) ^ 0x107;
        else
            crc <<= 1;
    }
    leave(crc);
}
