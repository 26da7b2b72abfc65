/* Lets each write move one byte. Loaded before the C library. */
#include <sys/syscall.h>
#include <unistd.h>

ssize_t write(int to, const void *bytes, size_t count) { return syscall(SYS_write, to, bytes, count ? 1 : 0); }
