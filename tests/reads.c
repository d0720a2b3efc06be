// Fails one read of a program, that of the number READ_AT, of those from files of a megabyte or more.
#define _GNU_SOURCE
#include <dlfcn.h>
#include <errno.h>
#include <stdlib.h>
#include <sys/stat.h>
#include <unistd.h>

static long reads;

static int is_counted(int file) {
    struct stat found;
    return fstat(file, &found) == 0 && S_ISREG(found.st_mode) && found.st_size >= 1 << 20;
}

ssize_t read(int file, void *to, size_t len) {
    ssize_t (*next)(int, void *, size_t) = dlsym(RTLD_NEXT, "read");
    char *at = getenv("READ_AT");
    if (is_counted(file) && __atomic_add_fetch(&reads, 1, __ATOMIC_SEQ_CST) == (at ? atol(at) : 0)) {
        errno = EIO;
        return -1;
    }
    return next(file, to, len);
}
