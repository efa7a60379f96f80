/* Refuses the allocation of a process (LD_PRELOAD) whose number, from 1, FAIL_ALLOCATION has, and says so on standard error. */
#define _GNU_SOURCE
#include <dlfcn.h>
#include <stdlib.h>
#include <unistd.h>

static long failing = -1, calls;

static int fails(void) {
    if (failing < 0) {
        const char *number = getenv("FAIL_ALLOCATION");
        failing = number ? atol(number) : 0;
    }
    if (++calls != failing) return 0;
    return write(2, "refused\n", 8) || 1;
}

void *malloc(size_t length) {
    static void *(*real)(size_t);
    if (!real) real = dlsym(RTLD_NEXT, "malloc");
    return fails() ? 0 : real(length);
}

void *realloc(void *old, size_t length) {
    static void *(*real)(void *, size_t);
    if (!real) real = dlsym(RTLD_NEXT, "realloc");
    return fails() ? 0 : real(old, length);
}
