/* Counts requests for memory and refuses some: those whose numbers, from 1, are from REFUSE to LAST, or REFUSE alone where
   there is no LAST. With COUNT, the number of all requests is written at the end. Loaded before the C library. */
#define _GNU_SOURCE
#include <errno.h>
#include <stdio.h>
#include <stdlib.h>
#include <string.h>
#include <unistd.h>

static unsigned long made, first_refused, last_refused, has_orders;

static unsigned long number(const char *name) {
    const char *text = getenv(name);
    return text ? strtoul(text, 0, 10) : 0;
}

static void start(void) {
    if (!has_orders) {
        first_refused = number("REFUSE");
        last_refused = getenv("LAST") ? number("LAST") : first_refused;
        has_orders = 1;
    }
}

static void report(const char *line) {
    if (write(2, line, strlen(line)) < 0)
        _exit(99);
}

static int refuses(void) {
    start();
    made++;
    if (made < first_refused || made > last_refused || !first_refused)
        return 0;
    /* the tester reads this line to know that a request was refused */
    if (made == first_refused)
        report("refused\n");
    errno = ENOMEM;
    return 1;
}

__attribute__((destructor)) static void end(void) {
    char line[64];
    if (getenv("COUNT")) {
        snprintf(line, sizeof line, "requests %lu\n", made);
        report(line);
    }
}

void *__libc_malloc(size_t);
void *__libc_realloc(void *, size_t);
void *__libc_calloc(size_t, size_t);
void *__libc_memalign(size_t, size_t);

void *malloc(size_t size) { return refuses() ? 0 : __libc_malloc(size); }
void *realloc(void *old, size_t size) { return refuses() ? 0 : __libc_realloc(old, size); }
void *calloc(size_t count, size_t size) { return refuses() ? 0 : __libc_calloc(count, size); }
void *aligned_alloc(size_t to, size_t size) { return refuses() ? 0 : __libc_memalign(to, size); }
int posix_memalign(void **at, size_t to, size_t size) {
    if (refuses())
        return ENOMEM;
    *at = __libc_memalign(to, size);
    return *at ? 0 : ENOMEM;
}
