/* What the C routines share: the input at 0x11000, one byte or as many as BYTES says, and the two calls of the machine. */
typedef unsigned char u8;
typedef unsigned int u32;

#define INPUT __attribute__((section(".input"), used))

#ifdef BYTES
volatile u8 input[BYTES] INPUT = {0};
#else
volatile u8 input INPUT = 0;
#endif

static inline __attribute__((noreturn)) void leave(u32 status) {
    register u32 a0 asm("a0") = status;
    register u32 a7 asm("a7") = 93;
    asm volatile("ecall" : : "r"(a0), "r"(a7));
    __builtin_unreachable();
}

static inline u32 put(u32 file, const void *start, u32 length) {
    register u32 a0 asm("a0") = file;
    register const void *a1 asm("a1") = start;
    register u32 a2 asm("a2") = length;
    register u32 a7 asm("a7") = 64;
    asm volatile("ecall" : "+r"(a0) : "r"(a1), "r"(a2), "r"(a7) : "memory");
    return a0;
}

/* The entry stands first. */
#define START __attribute__((section(".text.start"), noreturn)) void _start(void)
