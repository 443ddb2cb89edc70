/* What a program is told of the machine: the same at each moment, since how much memory is free, and how many processes there are, is
 * what others do. */
#define _GNU_SOURCE
#include "confine.h"
#include <errno.h>
#include <seccomp.h>
#include <linux/seccomp.h>
#include <string.h>
#include <sys/ioctl.h>
#include <sys/sysinfo.h>
#include <sys/uio.h>
#include <time.h>

void answer_machine(int listener, uint64_t id, pid_t pid, uint64_t at)
{
    enum { MEMORY = 8 };
    struct seccomp_notif_resp given;
    struct timespec now;
    struct sysinfo told;
    struct iovec here = {&told, sizeof told}, there = {(void *)(uintptr_t)at, sizeof told};
    memset(&told, 0, sizeof told);
    memset(&given, 0, sizeof given);
    clock_gettime(CLOCK_BOOTTIME, &now);
    told.uptime = now.tv_sec;
    told.totalram = (unsigned long)MEMORY << 30;
    told.freeram = told.totalram / 2;
    told.mem_unit = told.procs = 1;
    given.id = id;
    given.error = process_vm_writev(pid, &here, 1, &there, 1, 0) == sizeof told ? 0 : -EFAULT;
    ioctl(listener, SECCOMP_IOCTL_NOTIF_SEND, &given);
}
