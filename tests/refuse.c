/* Refuses memory, for tests/refused: the growth whose number RVKLEE_REFUSE says, of all growths of all threads, counted from 1; with
   a `-` behind the number all later ones too. It is loaded before the C library. The first bytes of the file RVKLEE_COUNT are how
   many growths there were: they are in shared memory, since the program ends by _exit, behind which nothing is said. */
#include <errno.h>
#include <fcntl.h>
#include <limits.h>
#include <stdatomic.h>
#include <stdlib.h>
#include <sys/mman.h>

extern void *__libc_malloc(size_t), *__libc_calloc(size_t, size_t), *__libc_realloc(void *, size_t);

static _Atomic unsigned long *count;
static unsigned long first, last;

__attribute__((constructor)) static void begin(void)
{
    const char *file = getenv("RVKLEE_COUNT"), *number = getenv("RVKLEE_REFUSE");
    if (!file || !number)
        return;
    char *behind;
    first = strtoul(number, &behind, 10);
    last = *behind ? ULONG_MAX : first;
    void *shared = mmap(0, sizeof *count, PROT_READ | PROT_WRITE, MAP_SHARED, open(file, O_RDWR), 0);
    if (shared != MAP_FAILED)
        count = shared;
}

static int is_refused(void)
{
    unsigned long number = count ? atomic_fetch_add(count, 1) + 1 : 0;
    if (!count || number < first || number > last)
        return 0;
    errno = ENOMEM;
    return 1;
}

void *malloc(size_t size) { return is_refused() ? 0 : __libc_malloc(size); }

void *calloc(size_t many, size_t size) { return is_refused() ? 0 : __libc_calloc(many, size); }

void *realloc(void *at, size_t size) { return is_refused() ? 0 : __libc_realloc(at, size); }
