/* A preloaded allocator that refuses one allocation: the one whose number FAIL_AT gives, counted from 1. With FAIL_AT=0 it refuses none, and at the end
   it writes how many there were to the file descriptor FAIL_COUNT_FD. */
#define _GNU_SOURCE
#include <dlfcn.h>
#include <errno.h>
#include <stdio.h>
#include <stdlib.h>
#include <string.h>
#include <unistd.h>

static long seen, wanted = -1;
static void *(*real_malloc)(size_t);
static void *(*real_calloc)(size_t, size_t);
static void *(*real_realloc)(void *, size_t);
static int (*real_posix_memalign)(void **, size_t, size_t);
static void *(*real_aligned_alloc)(size_t, size_t);

static char early[65536];
static size_t early_used;

static void find(void) {
    if (real_malloc) return;
    real_malloc = dlsym(RTLD_NEXT, "malloc");
    real_calloc = dlsym(RTLD_NEXT, "calloc");
    real_realloc = dlsym(RTLD_NEXT, "realloc");
    real_posix_memalign = dlsym(RTLD_NEXT, "posix_memalign");
    real_aligned_alloc = dlsym(RTLD_NEXT, "aligned_alloc");
    const char *at = getenv("FAIL_AT");
    wanted = at ? atol(at) : 0;
}

static int refused(void) {
    seen++;
    return wanted > 0 && seen == wanted;
}

void *malloc(size_t size) {
    find();
    if (refused()) { errno = ENOMEM; return NULL; }
    return real_malloc(size);
}

/* dlsym itself may ask for memory before the real calls are known. */
void *calloc(size_t count, size_t size) {
    if (!real_calloc) {
        size_t bytes = (count * size + 15) & ~(size_t)15;
        if (early_used + bytes > sizeof early) return NULL;
        void *at = early + early_used;
        early_used += bytes;
        return memset(at, 0, bytes);
    }
    if (refused()) { errno = ENOMEM; return NULL; }
    return real_calloc(count, size);
}

void *realloc(void *old, size_t size) {
    find();
    if (refused()) { errno = ENOMEM; return NULL; }
    return real_realloc(old, size);
}

int posix_memalign(void **at, size_t alignment, size_t size) {
    find();
    if (refused()) return ENOMEM;
    return real_posix_memalign(at, alignment, size);
}

void *aligned_alloc(size_t alignment, size_t size) {
    find();
    if (refused()) { errno = ENOMEM; return NULL; }
    return real_aligned_alloc(alignment, size);
}

__attribute__((destructor)) static void told(void) {
    const char *fd = getenv("FAIL_COUNT_FD");
    if (!fd) return;
    char text[32];
    int length = snprintf(text, sizeof text, "%ld\n", seen);
    if (write(atoi(fd), text, (size_t)length) < 0) return;
}
