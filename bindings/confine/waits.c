/* Waits for words of memory that processes share.
 *
 * The machine's kernel knows such a word by its file, which may be one outside: a wait there, or a waking, would be seen by others.
 * So the broker looks at the word itself, each millisecond, and answers once it has changed, or now and then: who waits looks at
 * it again. */
#define _GNU_SOURCE
#include "confine.h"
#include <errno.h>
#include <seccomp.h>
#include <linux/seccomp.h>
#include <string.h>
#include <sys/ioctl.h>
#include <sys/uio.h>
#include <time.h>

enum { MOST_WAITS = 1024, LONGEST = 50 };
static const int64_t MILLISECOND = 1000000;

struct wait {
    uint64_t id;
    uint64_t at;
    pid_t pid;
    int listener;
    uint32_t word;
    int64_t end;   /* when it is answered at the latest, by the steady clock */
    int at_end;    /* with this errno */
};

static struct wait waits[MOST_WAITS];
static int count;

static int64_t now_by(clockid_t clock)
{
    struct timespec now;
    clock_gettime(clock, &now);
    return now.tv_sec * 1000 * MILLISECOND + now.tv_nsec;
}

static bool read_memory(pid_t pid, uint64_t at, void *bytes, size_t length)
{
    struct iovec here = {bytes, length}, there = {(void *)(uintptr_t)at, length};
    return process_vm_readv(pid, &here, 1, &there, 1, 0) == (ssize_t)length;
}

static void answer(const struct wait *wait, int error)
{
    struct seccomp_notif_resp given;
    memset(&given, 0, sizeof given);
    given.id = wait->id;
    given.error = -error;
    ioctl(wait->listener, SECCOMP_IOCTL_NOTIF_SEND, &given);
}

/* How long a wait may take, in nanoseconds from now on; -1 where it says nothing. It says it by a length, or by a time of one of two
 * clocks. */
static int64_t left_of(pid_t pid, const uint64_t *arguments)
{
    enum { KIND = 127, WAIT = 0, REAL = 256 };
    struct timespec said;
    int64_t time;
    if (!arguments[3] || !read_memory(pid, arguments[3], &said, sizeof said)) return -1;
    time = said.tv_sec > INT32_MAX ? INT64_MAX / 2 : said.tv_sec * 1000 * MILLISECOND + said.tv_nsec;
    if ((arguments[1] & KIND) != WAIT) time -= now_by(arguments[1] & REAL ? CLOCK_REALTIME : CLOCK_MONOTONIC);
    return time < 0 ? 0 : time;
}

void delay_wait(int listener, uint64_t id, pid_t pid, const uint64_t *arguments)
{
    struct wait wait = {id, arguments[0], pid, listener, (uint32_t)arguments[2], now_by(CLOCK_MONOTONIC) + LONGEST * MILLISECOND, EAGAIN};
    int64_t left = left_of(pid, arguments);
    uint32_t word;
    if (left >= 0 && left < LONGEST * MILLISECOND) wait.end += left - LONGEST * MILLISECOND, wait.at_end = ETIMEDOUT;
    if (!read_memory(pid, wait.at, &word, sizeof word)) answer(&wait, EFAULT);
    else if (word != wait.word || count == MOST_WAITS) answer(&wait, EAGAIN);
    else waits[count++] = wait;
}

int end_waits(void)
{
    int64_t now = count ? now_by(CLOCK_MONOTONIC) : 0;
    for (int i = count; i-- > 0;) {
        uint32_t word = 0;
        bool is_there = read_memory(waits[i].pid, waits[i].at, &word, sizeof word);
        if (is_there && word == waits[i].word && now < waits[i].end) continue;
        answer(&waits[i], is_there && word == waits[i].word ? waits[i].at_end : EAGAIN);
        waits[i] = waits[--count];
    }
    return count ? 1 : -1;
}
