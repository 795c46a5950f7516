/* Refuses one request for memory: the one whose number is in REFUSED. Counts them all.
   Loaded in front of a built test by tools/refused.sh. */
#define _GNU_SOURCE
#include <dlfcn.h>
#include <errno.h>
#include <stdio.h>
#include <stdlib.h>
#include <sys/syscall.h>
#include <unistd.h>

static long refused = -1, count = 0;
static void *(*real_malloc)(size_t);
static void *(*real_realloc)(void *, size_t);
static void *(*real_calloc)(size_t, size_t);
static void *(*real_aligned)(size_t, size_t);
static int (*real_memalign)(void **, size_t, size_t);

__attribute__((constructor)) static void begin(void) {
    const char *number = getenv("REFUSED");
    if (real_malloc != NULL) return;
    if (number != NULL) refused = atol(number);
    real_malloc = dlsym(RTLD_NEXT, "malloc");
    real_realloc = dlsym(RTLD_NEXT, "realloc");
    real_calloc = dlsym(RTLD_NEXT, "calloc");
    real_aligned = dlsym(RTLD_NEXT, "aligned_alloc");
    real_memalign = dlsym(RTLD_NEXT, "posix_memalign");
}

static int is_refused(void) {
    begin();
    if (++count != refused) return 0;
    errno = ENOMEM;
    return 1;
}

void *malloc(size_t size) { return is_refused() ? NULL : real_malloc(size); }
void *realloc(void *old, size_t size) { return is_refused() ? NULL : real_realloc(old, size); }
void *calloc(size_t n, size_t size) { return is_refused() ? NULL : real_calloc(n, size); }
void *aligned_alloc(size_t to, size_t size) { return is_refused() ? NULL : real_aligned(to, size); }
int posix_memalign(void **out, size_t to, size_t size) {
    return is_refused() ? ENOMEM : real_memalign(out, to, size);
}

static void leave(int status) { syscall(SYS_exit_group, status); }

__attribute__((destructor)) static void end(void) {
    char text[40];
    int length = snprintf(text, sizeof text, "requests %ld\n", count);
    if (write(2, text, (size_t)length) != length) leave(1);
}

/* A program of the kit ends by _exit, which runs no destructor. */
void _exit(int status) {
    end();
    for (;;) leave(status);
}
