// Refuses the start of one thread of a program, that of the number START_AT. With COUNT, the place of a number in the program,
// it tells that number and how many starts there were.
#define _GNU_SOURCE
#include <dlfcn.h>
#include <errno.h>
#include <link.h>
#include <pthread.h>
#include <stdio.h>
#include <stdlib.h>

static long starts;

int pthread_create(pthread_t *thread, const pthread_attr_t *attr, void *(*start)(void *), void *arg) {
    int (*next)(pthread_t *, const pthread_attr_t *, void *(*)(void *), void *) = dlsym(RTLD_NEXT, "pthread_create");
    char *at = getenv("START_AT");
    return __atomic_add_fetch(&starts, 1, __ATOMIC_SEQ_CST) == (at ? atol(at) : 0) ? EAGAIN : next(thread, attr, start, arg);
}

// The first object is the program.
static int base_of(struct dl_phdr_info *object, size_t size, void *base) {
    (void)size;
    *(char **)base = (char *)object->dlpi_addr;
    return 1;
}

static void tell(void) {
    char *at = getenv("COUNT"), *base = 0;
    if (!at) return;
    dl_iterate_phdr(base_of, &base);
    dprintf(2, "counted %ld %ld\n", *(long *)(base + strtol(at, 0, 16)), starts);
}

// A program ends by either.
__attribute__((destructor)) static void done(void) { tell(); }

void _exit(int status) {
    void (*next)(int) = dlsym(RTLD_NEXT, "_exit");
    tell();
    next(status);
    __builtin_unreachable();
}
