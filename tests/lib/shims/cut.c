/* Lets the first write to a socket move 10 bytes, and fails the second one. Loaded before the C library. */
#define _GNU_SOURCE
#include <errno.h>
#include <sys/syscall.h>
#include <unistd.h>

static int sent; /* writes */

ssize_t send(int to, const void *bytes, size_t count, int flags) {
    sent++;
    if (sent == 2) {
        errno = ECONNRESET;
        return -1;
    }
    return syscall(SYS_sendto, to, bytes, sent == 1 && count > 10 ? 10 : count, flags, 0, 0);
}
