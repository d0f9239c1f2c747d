/* CRC-32 of four bytes as Ethernet and zip have it, polynomial 0x04C11DB7 with the lowest bit first, bit by bit: writes "ok"
   and exits with 0 where it is that of "boot", 0x46EDAEC4; else exits with 1. Each round takes its bit by a mask, which parts
   nothing.
   Two leaves, the sides of the comparison at the end. Four bytes reach each CRC once, so one side has "boot" alone. */
#define BYTES 4
#include "routine.h"

static const u32 of_boot = 0x46EDAEC4;

START {
    u32 crc = 0xFFFFFFFF;
    for (u32 i = 0; i < BYTES; i++) {
        crc ^= input[i];
        for (u32 round = 0; round < 8; round++)
            crc = crc >> 1 ^ (-(crc & 1) & 0xEDB88320);
    }
    if (~crc != of_boot)
        leave(1);
    put(1, "ok", 2);
    leave(0);
}
