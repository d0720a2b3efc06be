// Refuses one allocation of a program, or the start of one thread: that of the number FAIL_AT. With COUNT it tells how many
// there were.
#define _GNU_SOURCE
#include <dlfcn.h>
#include <errno.h>
#include <pthread.h>
#include <stdio.h>
#include <stdlib.h>

static long n, at = -1;

static void init(void) {
    if (at != -1) return;
    char *s = getenv("FAIL_AT");
    at = s ? atol(s) : 0;
}

static int no(void) {
    init();
    return __atomic_add_fetch(&n, 1, __ATOMIC_SEQ_CST) == at;
}

extern void *__libc_malloc(size_t); extern void *__libc_realloc(void *, size_t); extern void *__libc_calloc(size_t, size_t); extern void *__libc_memalign(size_t, size_t);
void *malloc(size_t s) { if (no()) { errno = ENOMEM; return 0; } return __libc_malloc(s); }
void *realloc(void *p, size_t s) { if (no()) { errno = ENOMEM; return 0; } return __libc_realloc(p, s); }
void *calloc(size_t a, size_t b) { if (no()) { errno = ENOMEM; return 0; } return __libc_calloc(a, b); }
void *aligned_alloc(size_t a, size_t s) { if (no()) { errno = ENOMEM; return 0; } return __libc_memalign(a, s); }
int posix_memalign(void **p, size_t a, size_t s) { if (no()) return ENOMEM; *p = __libc_memalign(a, s); return *p ? 0 : ENOMEM; }

int pthread_create(pthread_t *thread, const pthread_attr_t *attr, void *(*start)(void *), void *arg) {
    int (*next)(pthread_t *, const pthread_attr_t *, void *(*)(void *), void *) = dlsym(RTLD_NEXT, "pthread_create");
    return no() ? EAGAIN : next(thread, attr, start, arg);
}

static void tell(void) {
    if (getenv("COUNT")) dprintf(2, "allocations %ld\n", n);
}

// A program ends by either.
__attribute__((destructor)) static void done(void) { tell(); }

void _exit(int status) {
    void (*next)(int) = dlsym(RTLD_NEXT, "_exit");
    tell();
    next(status);
    __builtin_unreachable();
}
