/* Where the system does not empty a page in a child of fork, as older ones do not, fork itself does: the kernel is refused there. And a child
 * that has its parent's number in another space of numbers, and opens 2^42 nanoseconds later, or a power of two of them, is another process. It
 * is linked with -Wl,--wrap=madvise,--wrap=clock_gettime,--wrap=getpid. */
#define _GNU_SOURCE
#include "histar.h"
#include <errno.h>
#include <sys/wait.h>
#include <unistd.h>

int __wrap_madvise(void *at, size_t len, int advice);
int __wrap_madvise(void *at, size_t len, int advice)
{
    (void)at, (void)len, (void)advice;
    errno = EINVAL;
    return -1;
}

static uint64_t now = 1000000000;
int __wrap_clock_gettime(clockid_t clock, struct timespec *since);
int __wrap_clock_gettime(clockid_t clock, struct timespec *since)
{
    (void)clock;
    since->tv_sec = (time_t)(now / 1000000000);
    since->tv_nsec = (long)(now % 1000000000);
    return 0;
}
pid_t __wrap_getpid(void);
pid_t __wrap_getpid(void) { return 1; }

static histar k;

/* A child's first open so many nanoseconds later. Whether it has another number than its parent. */
static int is_another(uint64_t later)
{
    int status = 0;
    uint64_t number = *histar_process;
    pid_t child = fork();
    if (!child) {
        now += later;
        _exit(histar_process_begins() != number);
    }
    return waitpid(child, &status, 0) == child && status == 1 << 8;
}

int main(void)
{
    int status = 0;
    pid_t child;
    if (histar_open(&k, 8)) return 2;
    for (int bit = 0; bit < 63; bit++)
        if (!is_another((uint64_t)1 << bit)) return 4;
    child = fork();
    if (!child) _exit((int)histar_cat_create(&k, HISTAR_BOOT, NULL));
    if (waitpid(child, &status, 0) != child || histar_cat_create(&k, HISTAR_BOOT, NULL) || histar_close(&k)) return 3;
    return status != HISTAR_UNAVAILABLE << 8;
}
