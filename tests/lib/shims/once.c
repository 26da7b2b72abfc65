/* Fails the first write to standard output, and no other. Loaded before the C library. */
#define _GNU_SOURCE
#include <errno.h>
#include <sys/syscall.h>
#include <unistd.h>

static int written; /* writes */

ssize_t write(int to, const void *bytes, size_t count) {
    if (to == 1 && written++ == 0) {
        errno = EAGAIN;
        return -1;
    }
    return syscall(SYS_write, to, bytes, count);
}
