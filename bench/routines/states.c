/* A scanner of C text with five states, over five bytes, of which two are the input: exits with the last state.
   Five leaves: the input is a quote, a backslash, a slash, a star, or another byte. */
#include "routine.h"

enum { CODE, STRING, ESCAPE, SLASH, COMMENT };

static const u8 text[5] = {'/', 0, '"', 0, '"'};

static __attribute__((noinline)) u32 next(u32 state, u32 byte) {
    switch (state) {
    case CODE:
        return byte == '"' ? STRING : byte == '/' ? SLASH : CODE;
    case STRING:
        return byte == '"' ? CODE : byte == '\\' ? ESCAPE : STRING;
    case ESCAPE:
        return STRING;
    case SLASH:
        return byte == '*' ? COMMENT : byte == '"' ? STRING : byte == '/' ? SLASH : CODE;
    default:
        return byte == '/' ? CODE : COMMENT;
    }
}

START {
    u32 state = CODE;
    for (u32 i = 0; i < 5; i++)
        state = next(state, text[i] ? text[i] : input);
    leave(state);
}
