/* A clock for a program that is preloaded with this: the machine's, put on by the seconds in the file OFFSET. */
#define _GNU_SOURCE
#include <fcntl.h>
#include <sys/syscall.h>
#include <time.h>
#include <unistd.h>

static long offset(void) {
    char digits[32];
    int file = syscall(SYS_openat, AT_FDCWD, OFFSET, O_RDONLY | O_CLOEXEC);
    if (file < 0)
        return 0;
    long size = syscall(SYS_read, file, digits, sizeof digits), seconds = 0;
    syscall(SYS_close, file);
    for (long at = 0; at < size && digits[at] >= '0' && digits[at] <= '9'; at++)
        seconds = seconds * 10 + digits[at] - '0';
    return seconds;
}

int clock_gettime(clockid_t clock, struct timespec *found) {
    int status = syscall(SYS_clock_gettime, clock, found);
    if (status == 0 && clock == CLOCK_REALTIME)
        found->tv_sec += offset();
    return status;
}
