/* The disk of a node under fire. tests/run fire builds it, and lets the loader put it before the C library of a node that serves.
   What is written to the node's two files, cut off them and synced is told in the file that DISK_LOG names, in the order in which it
   came to the disk, so that what a loss of power may leave can be made of it: a write and a cut are told before they are made, a sync
   after it. Where the file that DISK_FAULTS names is there, its first word is the call that fails from now on (sync: EIO, space:
   ENOSPC at each write that makes a file longer; slow: each sync takes 50 ms more), and after that the disk is as it was. */
#define _GNU_SOURCE
#include <dlfcn.h>
#include <errno.h>
#include <fcntl.h>
#include <stdint.h>
#include <stdio.h>
#include <stdlib.h>
#include <string.h>
#include <sys/stat.h>
#include <sys/types.h>
#include <unistd.h>

enum { WRITE = 'w', CUT = 'c', SYNC = 's' };

static int log_file = -1;

/* 'a' or 'b' where the descriptor is one of the node's two files, dNNa and dNNb; 0 for any other. */
static char which(int file) {
    char name[32], path[4096];
    snprintf(name, sizeof name, "/proc/self/fd/%d", file);
    ssize_t length = readlink(name, path, sizeof path - 1);
    if (length < 5) return 0;
    const char *last = path + length - 4;
    return last[-1] == '/' && last[0] == 'd' && (last[3] == 'a' || last[3] == 'b') ? last[3] : 0;
}

static void tell(char kind, char disk, uint64_t at, const void *bytes, uint32_t size) {
    const char *name = getenv("DISK_LOG");
    if (!name) return;
    if (log_file < 0) log_file = open(name, O_WRONLY | O_CREAT | O_APPEND | O_CLOEXEC, 0600);
    if (log_file < 0) abort();
    char head[14] = {kind, disk};
    memcpy(head + 2, &at, 8);
    memcpy(head + 10, &size, 4);
    ssize_t (*put)(int, const void *, size_t) = dlsym(RTLD_NEXT, "write");
    char *whole = malloc(sizeof head + size);
    if (!whole) abort();
    memcpy(whole, head, sizeof head);
    if (size) memcpy(whole + sizeof head, bytes, size);
    if (put(log_file, whole, sizeof head + size) != (ssize_t)(sizeof head + size)) abort();
    free(whole);
}

/* Whether the disk fails calls of this kind. */
static int fails(const char *kind) {
    const char *name = getenv("DISK_FAULTS");
    char found[8] = "";
    int file = name ? open(name, O_RDONLY | O_CLOEXEC) : -1;
    if (file < 0) return 0;
    ssize_t (*get)(int, void *, size_t) = dlsym(RTLD_NEXT, "read");
    ssize_t length = get(file, found, sizeof found - 1);
    close(file);
    return length > 0 && !strncmp(found, kind, strlen(kind));
}

static ssize_t written(int file, const void *bytes, size_t size, off_t at, const char *call) {
    ssize_t (*next)(int, const void *, size_t, off_t) = dlsym(RTLD_NEXT, call);
    char disk = which(file);
    if (!disk) return next(file, bytes, size, at);
    struct stat now;
    if (fails("space") && !fstat(file, &now) && at + (off_t)size > now.st_size) {
        errno = ENOSPC;
        return -1;
    }
    tell(WRITE, disk, at, bytes, size);
    return next(file, bytes, size, at);
}

ssize_t pwrite(int file, const void *bytes, size_t size, off_t at) { return written(file, bytes, size, at, "pwrite"); }

ssize_t pwrite64(int file, const void *bytes, size_t size, off_t at) { return written(file, bytes, size, at, "pwrite64"); }

static int cut(int file, off_t length, const char *call) {
    int (*next)(int, off_t) = dlsym(RTLD_NEXT, call);
    char disk = which(file);
    if (disk) tell(CUT, disk, length, NULL, 0);
    return next(file, length);
}

int ftruncate(int file, off_t length) { return cut(file, length, "ftruncate"); }

int ftruncate64(int file, off_t length) { return cut(file, length, "ftruncate64"); }

static int synced(int file, const char *call) {
    int (*next)(int) = dlsym(RTLD_NEXT, call);
    char disk = which(file);
    if (disk && fails("sync")) {
        errno = EIO;
        return -1;
    }
    if (disk && fails("slow")) usleep(50000);
    int status = next(file);
    if (disk && !status) tell(SYNC, disk, 0, NULL, 0);
    return status;
}

int fsync(int file) { return synced(file, "fsync"); }

int fdatasync(int file) { return synced(file, "fdatasync"); }
