/* Logs what a process does to the files of one folder, delays and fails some of it, or ends the process there. Loaded before the
   C library.

   DISK_FOLDER   the folder: calls on paths that begin so, and on what was opened by such a path, are seen
   DISK_LOG      the file that the log is appended to, which has a line and then some bytes for each record:
                     TIME OP FD NUMBER LENGTH \n BYTES
                 TIME is that of the monotonic clock, in nanoseconds. A call is logged before it is made, but for those whose result is
                 logged. The ops:
                     open       NUMBER is what it was opened for, the bytes the path
                     close
                     write      NUMBER is where in the file, the bytes what is written
                     cut        NUMBER is the length that the file gets
                     syncing    NUMBER is the thread
                     synced     NUMBER is the thread; it was good
                     unsynced   NUMBER is the thread; it failed
                     rename     the bytes are both paths, with a zero byte between them
                     unlink     the bytes are the path
                     mkdir      the bytes are the path; it was good
   DISK_DELAY    microseconds that each sync takes longer
   DISK_RULES    rules with a semicolon between them, each OP:SUFFIX:WHAT:FROM:TO. Of the calls of OP on a path that ends with SUFFIX, those from
                 number FROM to TO, counted from 1, fail by the error of number WHAT, or end the process once they were made where WHAT is
                 `kill`. OP is open, write, cut, fsync, fdatasync, rename (SUFFIX is that of the new path), unlink or mkdir
   DISK_BOOT     the file that is opened in place of the system's boot id */
#define _GNU_SOURCE
#include <errno.h>
#include <fcntl.h>
#include <pthread.h>
#include <signal.h>
#include <stdarg.h>
#include <stdio.h>
#include <stdlib.h>
#include <string.h>
#include <sys/stat.h>
#include <sys/syscall.h>
#include <sys/uio.h>
#include <time.h>
#include <unistd.h>

#define DESCRIPTORS 1024
#define RULES 16
#define PATH 1024
#define LOG_DESCRIPTOR 1000 /* far from those that the program gets */

struct rule {
    char op[16], suffix[64], what[16];
    long from, to, met;
};

static char paths[DESCRIPTORS][PATH]; /* of what is open in the folder; empty for all else */
static struct rule rules[RULES];
static int rule_count, log_to = -1, has_started;
static const char *folder, *boot;
static size_t folder_length;
static long delay;
static pthread_mutex_t lock = PTHREAD_MUTEX_INITIALIZER;

static void read_rules(const char *text) {
    char *copy = strdup(text), *rest = copy, *one;
    while ((one = strsep(&rest, ";")) && rule_count < RULES) {
        struct rule *rule = &rules[rule_count];
        if (sscanf(one, "%15[^:]:%63[^:]:%15[^:]:%ld:%ld", rule->op, rule->suffix, rule->what, &rule->from, &rule->to) == 5)
            rule_count++;
    }
    free(copy);
}

static void start(void) {
    if (has_started)
        return;
    has_started = 1;
    folder = getenv("DISK_FOLDER") ? getenv("DISK_FOLDER") : "/no/folder";
    folder_length = strlen(folder);
    boot = getenv("DISK_BOOT");
    delay = getenv("DISK_DELAY") ? atol(getenv("DISK_DELAY")) : 0;
    if (getenv("DISK_RULES"))
        read_rules(getenv("DISK_RULES"));
    if (getenv("DISK_LOG")) {
        int file = syscall(SYS_openat, AT_FDCWD, getenv("DISK_LOG"), O_WRONLY | O_CREAT | O_APPEND | O_CLOEXEC, 0600);
        log_to = syscall(SYS_fcntl, file, F_DUPFD_CLOEXEC, LOG_DESCRIPTOR);
        if (log_to < 0)
            log_to = file;
        else
            syscall(SYS_close, file);
    }
}

__attribute__((constructor)) static void begin(void) { start(); }

static int is_in_folder(const char *path) {
    start();
    return path && !strncmp(path, folder, folder_length);
}

static int is_seen(int descriptor) { return descriptor >= 0 && descriptor < DESCRIPTORS && paths[descriptor][0]; }

static void record(const char *op, int descriptor, long number, const void *bytes, size_t length) {
    struct timespec time;
    char line[128];
    if (log_to < 0)
        return;
    pthread_mutex_lock(&lock);
    clock_gettime(CLOCK_MONOTONIC, &time);
    int size = snprintf(line, sizeof line, "%ld %s %d %ld %zu\n", time.tv_sec * 1000000000L + time.tv_nsec, op, descriptor, number, length);
    struct iovec parts[2] = {{line, size}, {(void *)bytes, length}};
    syscall(SYS_writev, log_to, parts, length ? 2 : 1);
    pthread_mutex_unlock(&lock);
}

static void record_path(const char *op, int descriptor, long number, const char *path) { record(op, descriptor, number, path, strlen(path)); }

static int ends_with(const char *text, const char *end) {
    size_t length = strlen(text), tail = strlen(end);
    return length >= tail && !strcmp(text + length - tail, end);
}

/* The rule for this call, if one is due. */
static struct rule *due(const char *op, const char *path) {
    struct rule *found = 0;
    pthread_mutex_lock(&lock);
    for (int at = 0; at < rule_count; at++) {
        struct rule *rule = &rules[at];
        if (strcmp(rule->op, op) || !ends_with(path, rule->suffix))
            continue;
        rule->met++;
        if (rule->met >= rule->from && rule->met <= rule->to)
            found = rule;
    }
    pthread_mutex_unlock(&lock);
    return found;
}

static int kills(const struct rule *rule) { return rule && !strcmp(rule->what, "kill"); }

/* Whether this call is to fail, with the error set. */
static int fails(const struct rule *rule) {
    if (!rule || kills(rule))
        return 0;
    errno = atoi(rule->what);
    return 1;
}

/* What a call came to, where the process is not to end behind it. */
static long made(const struct rule *rule, long result) {
    if (kills(rule))
        syscall(SYS_kill, syscall(SYS_getpid), SIGKILL);
    return result;
}

static int open_at(int at, const char *path, int flags, int mode) {
    start();
    if (boot && path && !strcmp(path, "/proc/sys/kernel/random/boot_id"))
        return syscall(SYS_openat, at, boot, flags, mode);
    if (!is_in_folder(path))
        return syscall(SYS_openat, at, path, flags, mode);
    struct rule *rule = due("open", path);
    if (fails(rule))
        return -1;
    int descriptor = syscall(SYS_openat, at, path, flags, mode);
    if (descriptor >= 0 && descriptor < DESCRIPTORS) {
        snprintf(paths[descriptor], PATH, "%s", path);
        record_path("open", descriptor, flags, path);
    }
    return made(rule, descriptor);
}

#define MODE_OF(flags)                                                                                                             \
    int mode = 0;                                                                                                                  \
    if ((flags) & (O_CREAT | O_TMPFILE)) {                                                                                         \
        va_list list;                                                                                                              \
        va_start(list, flags);                                                                                                     \
        mode = va_arg(list, int);                                                                                                  \
        va_end(list);                                                                                                              \
    }

int open(const char *path, int flags, ...) {
    MODE_OF(flags)
    return open_at(AT_FDCWD, path, flags, mode);
}
int open64(const char *path, int flags, ...) {
    MODE_OF(flags)
    return open_at(AT_FDCWD, path, flags, mode);
}
int openat(int at, const char *path, int flags, ...) {
    MODE_OF(flags)
    return open_at(at, path, flags, mode);
}
int openat64(int at, const char *path, int flags, ...) {
    MODE_OF(flags)
    return open_at(at, path, flags, mode);
}

int close(int descriptor) {
    if (is_seen(descriptor)) {
        record("close", descriptor, 0, 0, 0);
        paths[descriptor][0] = 0;
    }
    return syscall(SYS_close, descriptor);
}

/* Where the next write of a descriptor goes. */
static long place_of(int descriptor) {
    int whence = syscall(SYS_fcntl, descriptor, F_GETFL) & O_APPEND ? SEEK_END : SEEK_CUR;
    return syscall(SYS_lseek, descriptor, 0, whence);
}

ssize_t write(int descriptor, const void *bytes, size_t count) {
    if (!is_seen(descriptor))
        return syscall(SYS_write, descriptor, bytes, count);
    struct rule *rule = due("write", paths[descriptor]);
    if (fails(rule))
        return -1;
    record("write", descriptor, place_of(descriptor), bytes, count);
    return made(rule, syscall(SYS_write, descriptor, bytes, count));
}

ssize_t pwrite64(int descriptor, const void *bytes, size_t count, off64_t place) {
    if (!is_seen(descriptor))
        return syscall(SYS_pwrite64, descriptor, bytes, count, place);
    struct rule *rule = due("write", paths[descriptor]);
    if (fails(rule))
        return -1;
    record("write", descriptor, place, bytes, count);
    return made(rule, syscall(SYS_pwrite64, descriptor, bytes, count, place));
}
ssize_t pwrite(int descriptor, const void *bytes, size_t count, off_t place) { return pwrite64(descriptor, bytes, count, place); }

int ftruncate64(int descriptor, off64_t length) {
    if (!is_seen(descriptor))
        return syscall(SYS_ftruncate, descriptor, length);
    struct rule *rule = due("cut", paths[descriptor]);
    if (fails(rule))
        return -1;
    record("cut", descriptor, length, 0, 0);
    return made(rule, syscall(SYS_ftruncate, descriptor, length));
}
int ftruncate(int descriptor, off_t length) { return ftruncate64(descriptor, length); }

static int sync_by(const char *op, int number, int descriptor) {
    if (!is_seen(descriptor))
        return syscall(number, descriptor);
    struct rule *rule = due(op, paths[descriptor]);
    long thread = syscall(SYS_gettid);
    record("syncing", descriptor, thread, 0, 0);
    if (delay)
        usleep(delay);
    int result = fails(rule) ? -1 : syscall(number, descriptor);
    int error = errno;
    record(result ? "unsynced" : "synced", descriptor, thread, 0, 0);
    errno = error;
    return made(rule, result);
}
int fsync(int descriptor) { return sync_by("fsync", SYS_fsync, descriptor); }
int fdatasync(int descriptor) { return sync_by("fdatasync", SYS_fdatasync, descriptor); }

/* What is open under a path is open under another one. */
static void move(const char *path, const char *to) {
    for (int at = 0; at < DESCRIPTORS; at++)
        if (!strcmp(paths[at], path))
            snprintf(paths[at], PATH, "%s", to);
}

int rename(const char *path, const char *to) {
    if (!is_in_folder(path) && !is_in_folder(to))
        return syscall(SYS_rename, path, to);
    struct rule *rule = due("rename", to);
    if (fails(rule))
        return -1;
    char both[2 * PATH];
    size_t length = snprintf(both, sizeof both, "%s", path) + 1;
    length += snprintf(both + length, sizeof both - length, "%s", to);
    record("rename", -1, 0, both, length);
    long result = syscall(SYS_rename, path, to);
    if (result == 0)
        move(path, to);
    return made(rule, result);
}
int renameat(int from, const char *path, int into, const char *to) {
    (void)from, (void)into;
    return rename(path, to);
}

int unlinkat(int at, const char *path, int flags) {
    if (!is_in_folder(path))
        return syscall(SYS_unlinkat, at, path, flags);
    struct rule *rule = due("unlink", path);
    if (fails(rule))
        return -1;
    record_path("unlink", -1, 0, path);
    return made(rule, syscall(SYS_unlinkat, at, path, flags));
}
int unlink(const char *path) { return unlinkat(AT_FDCWD, path, 0); }

int mkdir(const char *path, mode_t mode) {
    struct rule *rule = is_in_folder(path) ? due("mkdir", path) : 0;
    if (fails(rule))
        return -1;
    int result = syscall(SYS_mkdir, path, mode);
    if (result == 0 && is_in_folder(path))
        record_path("mkdir", -1, 0, path);
    return made(rule, result);
}
