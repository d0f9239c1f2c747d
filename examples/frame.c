/* A frame of a register protocol: a mark, a command, a register, a value, and a byte that makes the sum of all five 0xFF.

   By hand, for 5 bytes: 11 leaves. Another mark, another sum, a ping, a command that isn't known; for reading one without such a
   register and one for each of the four, since the address that is sent depends on the frame; and for writing one without such a
   register and one with. */
#include <stdint.h>
#include "uart.h"

enum { MARK = 0x7E, SIZE = 5, REGISTERS = 4 };
enum { PING = 'p', READ = 'r', WRITE = 'w' };
enum { DONE = 0, NO_FRAME = 1, BAD_SUM = 2, NO_COMMAND = 3, NO_REGISTER = 4 };

uint8_t registers[REGISTERS] = { 0x12, 0x34, 0x56, 0x78 };

static int read_register(unsigned place)
{
    if (place >= REGISTERS)
        return NO_REGISTER;
    uart_write(&registers[place], 1);
    return DONE;
}

static int write_register(unsigned place, uint8_t value)
{
    if (place >= REGISTERS)
        return NO_REGISTER;
    registers[place] = value;
    return DONE;
}

int frame_handle(const uint8_t *frame, unsigned size)
{
    uint8_t sum = 0;

    if (size != SIZE || frame[0] != MARK)
        return NO_FRAME;
    for (unsigned i = 0; i < SIZE; i++)
        sum += frame[i];
    if (sum != 0xFF)
        return BAD_SUM;
    if (frame[1] == PING) {
        uart_write("pong", 4);
        return DONE;
    }
    if (frame[1] == READ)
        return read_register(frame[2]);
    if (frame[1] == WRITE)
        return write_register(frame[2], frame[3]);
    return NO_COMMAND;
}
