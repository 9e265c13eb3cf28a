/* Makes one allocation fail: the one whose number, from 1, the environment gives as FAIL_ALLOC. Loaded
   before the C library by tools/faults; no part of the program. */
#define _GNU_SOURCE
#include <dlfcn.h>
#include <errno.h>
#include <stdlib.h>

static unsigned long asked, wanted;
static char first_room[4096];
static size_t first_used;

static int fails(void) {
    if (wanted == 0) {
        const char *number = getenv("FAIL_ALLOC");
        wanted = number ? strtoul(number, NULL, 10) : (unsigned long)-1;
    }
    return ++asked == wanted;
}

static void *refused(void) {
    errno = ENOMEM;
    return NULL;
}

void *malloc(size_t size) {
    static void *(*next)(size_t);
    if (!next) next = (void *(*)(size_t))dlsym(RTLD_NEXT, "malloc");
    return fails() ? refused() : next(size);
}

void *calloc(size_t count, size_t size) {
    static void *(*next)(size_t, size_t);
    static int looking;
    if (!next) {
        /* dlsym itself may call calloc: that call is answered from a small room. */
        if (looking) {
            void *room = first_room + first_used;
            first_used += (count * size + 15) & ~(size_t)15;
            return first_used <= sizeof first_room ? room : NULL;
        }
        looking = 1;
        next = (void *(*)(size_t, size_t))dlsym(RTLD_NEXT, "calloc");
    }
    return fails() ? refused() : next(count, size);
}

void *realloc(void *old, size_t size) {
    static void *(*next)(void *, size_t);
    if (!next) next = (void *(*)(void *, size_t))dlsym(RTLD_NEXT, "realloc");
    return fails() ? refused() : next(old, size);
}

void *aligned_alloc(size_t align, size_t size) {
    static void *(*next)(size_t, size_t);
    if (!next) next = (void *(*)(size_t, size_t))dlsym(RTLD_NEXT, "aligned_alloc");
    return fails() ? refused() : next(align, size);
}

int posix_memalign(void **to, size_t align, size_t size) {
    static int (*next)(void **, size_t, size_t);
    if (!next) next = (int (*)(void **, size_t, size_t))dlsym(RTLD_NEXT, "posix_memalign");
    return fails() ? ENOMEM : next(to, align, size);
}
