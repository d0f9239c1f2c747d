/* CRC-16 of four bytes as Modbus has it, polynomial 0x8005 from 0xFFFF with the lowest bit first, bit by bit: writes "ok" and
   exits with 0 where it is that of "boot", 0x5602; else exits with 1. Each round takes its bit by a mask, which parts nothing.
   Two leaves, the sides of the comparison at the end. The last two bytes reach each CRC once, so 2^16 inputs have this one. */
#define BYTES 4
#include "routine.h"

enum { OF_BOOT = 0x5602 };

START {
    u32 crc = 0xFFFF;
    for (u32 i = 0; i < BYTES; i++) {
        crc ^= input[i];
        for (u32 round = 0; round < 8; round++)
            crc = crc >> 1 ^ (-(crc & 1) & 0xA001);
    }
    if (crc != OF_BOOT)
        leave(1);
    put(1, "ok", 2);
    leave(0);
}
