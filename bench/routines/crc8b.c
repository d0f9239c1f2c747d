/* CRC-8 of four bytes, polynomial 0x07 from 0, bit by bit: writes "ok" and exits with 0 where it is that of "boot", 0x86; else
   exits with 1. Each round takes its bit by a mask, which parts nothing.
   Two leaves, the sides of the comparison at the end. The last byte reaches each CRC once, so 2^24 inputs have this one. */
#define BYTES 4
#include "routine.h"

enum { OF_BOOT = 0x86 };

START {
    u32 crc = 0;
    for (u32 i = 0; i < BYTES; i++) {
        crc ^= input[i];
        for (u32 round = 0; round < 8; round++)
            crc = crc << 1 ^ (-(crc >> 7 & 1) & 0x107);
    }
    if (crc != OF_BOOT)
        leave(1);
    put(1, "ok", 2);
    leave(0);
}
