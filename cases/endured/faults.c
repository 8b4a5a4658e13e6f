/* A bad day for a program that is preloaded with this. In the folder that the variable BAD_DAY names there may be
 *
 *     ahead    so many seconds are put on the machine's clock
 *     unsynced  a sync fails with EIO
 *     calls    each write at an offset and each sync is noted there in a line: `write OFFSET SIZE`, or `sync`
 */
#define _GNU_SOURCE
#include <errno.h>
#include <fcntl.h>
#include <stdio.h>
#include <stdlib.h>
#include <string.h>
#include <sys/syscall.h>
#include <time.h>
#include <unistd.h>

static int opened(const char *name, int flags) {
    const char *folder = getenv("BAD_DAY");
    char path[4096];
    if (!folder || (size_t)snprintf(path, sizeof path, "%s/%s", folder, name) >= sizeof path)
        return -1;
    return syscall(SYS_openat, AT_FDCWD, path, flags | O_CLOEXEC);
}

static int is_there(const char *name) {
    int was = errno, file = opened(name, O_RDONLY);
    if (file >= 0)
        syscall(SYS_close, file);
    errno = was;
    return file >= 0;
}

static void note(const char *line) {
    int was = errno, file = opened("calls", O_WRONLY | O_APPEND);
    if (file >= 0) {
        syscall(SYS_write, file, line, strlen(line));
        syscall(SYS_close, file);
    }
    errno = was;
}

int clock_gettime(clockid_t clock, struct timespec *found) {
    int status = syscall(SYS_clock_gettime, clock, found);
    if (status == 0 && clock == CLOCK_REALTIME) {
        char digits[32] = "";
        int was = errno, file = opened("ahead", O_RDONLY);
        if (file >= 0) {
            syscall(SYS_read, file, digits, sizeof digits - 1);
            syscall(SYS_close, file);
            found->tv_sec += atol(digits);
        }
        errno = was;
    }
    return status;
}

static int synced(int call, int file) {
    note("sync\n");
    if (is_there("unsynced")) {
        errno = EIO;
        return -1;
    }
    return syscall(call, file);
}

int fsync(int file) {
    return synced(SYS_fsync, file);
}

int fdatasync(int file) {
    return synced(SYS_fdatasync, file);
}

ssize_t pwrite(int file, const void *bytes, size_t size, off_t at) {
    char line[64];
    snprintf(line, sizeof line, "write %lld %zu\n", (long long)at, size);
    note(line);
    return syscall(SYS_pwrite64, file, bytes, size, at);
}

ssize_t pwrite64(int file, const void *bytes, size_t size, off64_t at) {
    return pwrite(file, bytes, size, at);
}
