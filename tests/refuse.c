/* Refuses one call of a program. tests/run refused builds it, and lets the loader put it before the C library. REFUSE
   in the environment is a kind of calls, memory, read or write, and a number from 1. Where REFUSED names a file, it gets
   at the end how many calls of each kind there were. */
#define _GNU_SOURCE
#include <dlfcn.h>
#include <errno.h>
#include <stdio.h>
#include <stdlib.h>
#include <string.h>
#include <sys/types.h>

enum { MEMORY, READ, WRITE };
static const char *const NAMES[] = {"memory", "read", "write"};
static unsigned long calls[3];
static int is_over;

extern void *__libc_malloc(size_t size);
extern void *__libc_realloc(void *old, size_t size);

static int is_refused(int kind) {
    const char *which = getenv("REFUSE");
    size_t length = strlen(NAMES[kind]);
    if (is_over) return 0;
    calls[kind]++;
    return which && !strncmp(which, NAMES[kind], length) && strtoul(which + length, NULL, 10) == calls[kind];
}

void *malloc(size_t size) {
    if (!is_refused(MEMORY)) return __libc_malloc(size);
    errno = ENOMEM;
    return NULL;
}

void *realloc(void *old, size_t size) {
    if (!is_refused(MEMORY)) return __libc_realloc(old, size);
    errno = ENOMEM;
    return NULL;
}

ssize_t read(int file, void *buffer, size_t size) {
    ssize_t (*next)(int, void *, size_t) = dlsym(RTLD_NEXT, "read");
    if (!is_refused(READ)) return next(file, buffer, size);
    errno = EIO;
    return -1;
}

ssize_t write(int file, const void *buffer, size_t size) {
    ssize_t (*next)(int, const void *, size_t) = dlsym(RTLD_NEXT, "write");
    if (!is_refused(WRITE)) return next(file, buffer, size);
    errno = EIO;
    return -1;
}

__attribute__((destructor)) static void tell(void) {
    const char *name = getenv("REFUSED");
    is_over = 1;
    FILE *file = name ? fopen(name, "w") : NULL;
    if (!file) return;
    fprintf(file, "%lu %lu %lu\n", calls[MEMORY], calls[READ], calls[WRITE]);
    fclose(file);
}
