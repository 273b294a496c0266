/* Stands before the C library's malloc and realloc, and refuses one request for memory: the one whose
   number, from 1, is in REFUSED. It says so on the error stream. */
#include <stddef.h>
#include <stdlib.h>
#include <unistd.h>

extern void *__libc_malloc(size_t size);
extern void *__libc_realloc(void *block, size_t size);

static int refuses(void) {
    static long due = -1, seen = 0;
    if (due < 0) {
        const char *number = getenv("REFUSED");
        due = number ? atol(number) : 0;
    }
    seen += 1;
    return seen == due && write(2, "refused\n", 8) == 8;
}

void *malloc(size_t size) {
    return refuses() ? NULL : __libc_malloc(size);
}

void *realloc(void *block, size_t size) {
    return refuses() ? NULL : __libc_realloc(block, size);
}
