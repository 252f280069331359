/* Refuses one allocation of the program into which it is preloaded: the one that the variable REFUSE counts,
   from 1. It then writes a letter to the descriptor 9, where that is open. Needs glibc. */
#include <errno.h>
#include <stdlib.h>
#include <unistd.h>

extern void *__libc_malloc(size_t size);
extern void *__libc_realloc(void *block, size_t size);

static long left;

__attribute__((constructor)) static void begin(void) {
    const char *count = getenv("REFUSE");
    left = count ? atol(count) : 0;
}

static int refuses(void) {
    if (left == 0 || --left > 0) {
        return 0;
    }
    if (write(9, "r", 1) != 1) {
        errno = 0;
    }
    errno = ENOMEM;
    return 1;
}

void *malloc(size_t size) {
    return refuses() ? NULL : __libc_malloc(size);
}

void *realloc(void *block, size_t size) {
    return refuses() ? NULL : __libc_realloc(block, size);
}
