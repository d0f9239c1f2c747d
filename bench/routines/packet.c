/* A packet of six bytes: a mark, a command, two bytes of data, and the CRC-16 of these four (CCITT, from FFFF), the upper
   byte first. Exits with 255 for another mark, with 254 for another CRC, with 253 for a command that isn't known; else
   does what the command asks. The CRC is made by masks, which part nothing; it is compared at the end.
   Nine leaves: the three that are refused, one that echoes, three that compare, two that divide. */
#define BYTES 6
#include "routine.h"

enum { MARK = 0xA5, MARK_WRONG = 255, CRC_WRONG = 254, UNKNOWN = 253 };
enum { ECHO = 'e', COMPARE = 'c', DIVIDE = 'd' };

START {
    u8 packet[BYTES];
    for (u32 i = 0; i < BYTES; i++)
        packet[i] = input[i];
    if (packet[0] != MARK)
        leave(MARK_WRONG);
    u32 crc = 0xFFFF;
    for (u32 i = 0; i < BYTES - 2; i++) {
        crc ^= packet[i] << 8;
        for (u32 round = 0; round < 8; round++)
            crc = crc << 1 ^ (-(crc >> 15 & 1) & 0x11021);
    }
    if (crc != (packet[4] << 8 | packet[5]))
        leave(CRC_WRONG);
    u32 first = packet[2], second = packet[3];
    switch (packet[1]) {
    case ECHO:
        put(1, packet + 2, 2);
        leave(2);
    case COMPARE:
        leave(first < second ? 1 : first > second ? 2 : 0);
    case DIVIDE:
        if (second == 0)
            leave(UNKNOWN);
        leave(first / second);
    default:
        leave(UNKNOWN);
    }
}
