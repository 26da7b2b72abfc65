/* Lets each read of standard input move one byte, and fails the one of the number in FAIL_AT. Loaded before the C library. */
#include <errno.h>
#include <stdlib.h>
#include <sys/syscall.h>
#include <unistd.h>

static long reads;

ssize_t read(int from, void *bytes, size_t count) {
    if (from != 0) return syscall(SYS_read, from, bytes, count);
    const char *at = getenv("FAIL_AT");
    if (++reads == (at ? atol(at) : 0)) {
        errno = EIO;
        return -1;
    }
    return syscall(SYS_read, from, bytes, count ? 1 : 0);
}
