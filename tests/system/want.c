// Out of memory: loaded in front of the C library, it lets the allocation WANT_AT fail, and with WANT_ALL each one after it.
// WANT_COUNT is a file that gets how many allocations there were. The programs that this one runs are left alone. For `faults`.
#include <fcntl.h>
#include <stdio.h>
#include <stdlib.h>
#include <unistd.h>

extern void *__libc_malloc(size_t);
extern void *__libc_realloc(void *, size_t);

static long count, at;
static int all, told = -1;

__attribute__((constructor)) static void begin(void) {
    const char *words = getenv("WANT_AT"), *file = getenv("WANT_COUNT");
    at = words ? atol(words) : 0;
    all = getenv("WANT_ALL") != NULL;
    told = file ? open(file, O_WRONLY | O_CREAT | O_TRUNC | O_CLOEXEC, 0600) : -1;
    unsetenv("LD_PRELOAD");
    count = 0;
}

static int wanting(void) {
    count++;
    return at && (all ? count >= at : count == at);
}

void *malloc(size_t size) { return wanting() ? NULL : __libc_malloc(size); }

void *realloc(void *place, size_t size) { return wanting() ? NULL : __libc_realloc(place, size); }

__attribute__((destructor)) static void end(void) {
    if (told >= 0) {
        dprintf(told, "%ld\n", count);
    }
}
