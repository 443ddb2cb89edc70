/* Writes the filters that confine is built with: the system calls that the program has left. All others answer ENOSYS.
 *
 * A filter is the second wall: the world of the program holds nothing that it may not read, and no network. There are two. Where the
 * world has doors (doors.c), the broker is asked of a call only where a file is opened to be written, renamed or made the program's
 * folder. Where it has none, it is asked of each call that names a file. */
#define _GNU_SOURCE
#include <errno.h>
#include <fcntl.h>
#include <linux/bpf_common.h>
#include <linux/filter.h>
#include <linux/seccomp.h>
#include <sched.h>
#include <seccomp.h>
#include <stdbool.h>
#include <stddef.h>
#include <stdint.h>
#include <stdio.h>
#include <sys/ioctl.h>
#include <sys/mman.h>
#include <sys/prctl.h>
#include <sys/resource.h>
#include <sys/socket.h>
#include <sys/syscall.h>
#include <unistd.h>

/* Those that name a file: the broker is asked first, and the call then goes on in the program's world. (And one that it answers.) */
static const char *const ASKED[] = {"creat", "chdir", "rename", "renameat", "renameat2", "sysinfo", NULL};

/* Those of which it is asked where the world has no doors. */
static const char *const LOOKS[] = {
    "stat", "lstat", "statx", "access", "faccessat", "faccessat2", "readlink", "readlinkat", "execve", NULL};

static const char *const FILES[] = {
    "read", "write", "pread64", "pwrite64", "readv", "writev", "preadv", "pwritev", "pwritev2", "close",
    "close_range", "lseek", "fstat", "fstatfs", "statfs", "getdents", "getdents64", "dup", "dup2", "dup3",
    "flock", "ftruncate", "truncate", "fallocate", "fsync", "fdatasync", "sendfile",
    "copy_file_range", "splice", "tee", "vmsplice", "pipe", "pipe2", "fchdir", "getcwd", "mkdir", "mkdirat", "rmdir",
    "unlink", "unlinkat", "link", "linkat", "symlink", "symlinkat", "chmod",
    "fchmod", "fchmodat", "chown", "fchown", "lchown", "fchownat", "utime", "utimes", "utimensat", "futimesat",
    "umask", "getxattr", "lgetxattr", "fgetxattr", "listxattr", "llistxattr", "flistxattr", "sync_file_range", "sync",
    "mknod", "mknodat", NULL};

/* Hints on what the machine keeps of a file in memory: they do nothing, since others would see it. */
static const char *const HINTS[] = {"fadvise64", "readahead", NULL};

/* (Numbers of users and groups can be set to the own ones alone, and so change nothing. A robust list wakes others, also by a
 * file that they share, and so there is none.) */
static const char *const PROCESSES[] = {
    "fork", "vfork", "exit", "exit_group", "wait4", "waitid", "kill", "tkill", "tgkill", "getpid", "getppid",
    "gettid", "getpgid", "getpgrp", "setpgid", "setsid", "getsid", "getuid", "geteuid", "getgid", "getegid",
    "getresuid", "getresgid", "getgroups", "setuid", "setgid", "setreuid", "setregid", "setresuid", "setresgid", "setfsuid",
    "setfsgid", "setgroups", "capget", "arch_prctl", "set_tid_address", "rseq", "membarrier", "sched_yield",
    "sched_getaffinity", "sched_setaffinity", "sched_getparam", "sched_getscheduler", "sched_setscheduler",
    "sched_get_priority_max", "sched_get_priority_min", "getpriority", "setpriority", "getrlimit", "getrusage", "times",
    "getcpu", "personality", "uname", "rt_sigaction", "rt_sigprocmask", "rt_sigreturn", "rt_sigpending",
    "rt_sigsuspend", "rt_sigtimedwait", "rt_sigqueueinfo", "rt_tgsigqueueinfo", "sigaltstack", "restart_syscall", "pause",
    "signalfd4", NULL};

static const char *const MEMORY_AND_TIME[] = {
    "brk", "mmap", "munmap", "mremap", "mprotect", "madvise", "msync", "mlock", "munlock", "mlock2",
    "memfd_create", "pkey_alloc", "pkey_free", "pkey_mprotect", "getrandom", "nanosleep", "clock_nanosleep",
    "clock_gettime", "clock_getres", "gettimeofday", "time", "alarm", "getitimer", "setitimer", "timer_create",
    "timer_settime", "timer_gettime", "timer_getoverrun", "timer_delete", "timerfd_create", "timerfd_settime",
    "timerfd_gettime", "poll", "ppoll", "select", "pselect6", "epoll_create", "epoll_create1", "epoll_ctl",
    "epoll_wait", "epoll_pwait", "epoll_pwait2", "eventfd", "eventfd2", "recvmsg", "recvfrom",
    "shutdown", "getsockopt", "setsockopt", "getsockname", "getpeername", NULL};

enum { NEW_NAMESPACES = CLONE_NEWNS | CLONE_NEWCGROUP | CLONE_NEWUTS | CLONE_NEWIPC | CLONE_NEWUSER | CLONE_NEWPID | CLONE_NEWNET };

/* The same answer for all calls of a list. A name that this library does not know is passed over: it is refused. */
static int add_all(scmp_filter_ctx filter, uint32_t answer, const char *const *names)
{
    int failed = 0;
    for (; *names; names++) {
        int number = seccomp_syscall_resolve_name(*names);
        if (number != __NR_SCMP_ERROR && seccomp_rule_add(filter, answer, number, 0)) failed = -1;
    }
    return failed;
}

/* Allows a call where an argument is one of these numbers, which a number below 0 ends. The whole argument is compared: the kernel of
 * the machine looks at its lower half only, so what is refused by its number alone would go through with another upper half. */
static int allow_of(scmp_filter_ctx filter, int call, unsigned argument, const int *numbers)
{
    int failed = 0;
    for (; *numbers >= 0; numbers++) {
        struct scmp_arg_cmp is = {argument, SCMP_CMP_EQ, (scmp_datum_t)*numbers, 0};
        failed |= seccomp_rule_add_array(filter, SCMP_ACT_ALLOW, call, 1, &is);
    }
    return failed;
}

/* No core's bound is set: a program outside may be given a core where it is 0. */
static int add_bounds(scmp_filter_ctx filter)
{
    static const int BUT_CORE[] = {0, 1, 2, 3, 5, 6, 7, 8, 9, 10, 11, 12, 13, 14, 15, -1};
    return allow_of(filter, SCMP_SYS(setrlimit), 0, BUT_CORE) | allow_of(filter, SCMP_SYS(prlimit64), 1, BUT_CORE)
        | seccomp_rule_add(filter, SCMP_ACT_ALLOW, SCMP_SYS(prlimit64), 2, SCMP_A1(SCMP_CMP_EQ, RLIMIT_CORE), SCMP_A2(SCMP_CMP_EQ, 0));
}

/* Waits for words of memory that processes share never get to the machine's kernel, since a file outside may be such memory: the
 * broker answers the wait (waits.c), and nobody is woken. */
static int add_waits(scmp_filter_ctx filter)
{
    enum { ALL = 255, WAIT = 0, WAKE = 1, WAIT_OF_SOME = 9, WAKE_SOME = 10, OWN = 128 };
    return seccomp_rule_add(filter, SCMP_ACT_ALLOW, SCMP_SYS(futex), 1, SCMP_A1(SCMP_CMP_MASKED_EQ, OWN, OWN))
        | seccomp_rule_add(filter, SCMP_ACT_NOTIFY, SCMP_SYS(futex), 1, SCMP_A1(SCMP_CMP_MASKED_EQ, ALL, WAIT))
        | seccomp_rule_add(filter, SCMP_ACT_NOTIFY, SCMP_SYS(futex), 1, SCMP_A1(SCMP_CMP_MASKED_EQ, ALL, WAIT_OF_SOME))
        | seccomp_rule_add(filter, SCMP_ACT_ERRNO(0), SCMP_SYS(futex), 1, SCMP_A1(SCMP_CMP_MASKED_EQ, ALL, WAKE))
        | seccomp_rule_add(filter, SCMP_ACT_ERRNO(0), SCMP_SYS(futex), 1, SCMP_A1(SCMP_CMP_MASKED_EQ, ALL, WAKE_SOME));
}

/* No read asks what the machine keeps in memory (RWF_NOWAIT), and no message is one out of its turn. */
static int add_reads(scmp_filter_ctx filter)
{
    return seccomp_rule_add(filter, SCMP_ACT_ERRNO(EOPNOTSUPP), SCMP_SYS(preadv2), 1, SCMP_A5(SCMP_CMP_MASKED_EQ, 8, 8))
        | seccomp_rule_add(filter, SCMP_ACT_ALLOW, SCMP_SYS(preadv2), 1, SCMP_A5(SCMP_CMP_MASKED_EQ, 8, 0))
        | seccomp_rule_add(filter, SCMP_ACT_ALLOW, SCMP_SYS(sendto), 1, SCMP_A3(SCMP_CMP_MASKED_EQ, MSG_OOB, 0))
        | seccomp_rule_add(filter, SCMP_ACT_ALLOW, SCMP_SYS(sendmsg), 1, SCMP_A2(SCMP_CMP_MASKED_EQ, MSG_OOB, 0));
}

/* Calls on descriptors. What is typed can't be put into a terminal. No lease is taken, and no hint given to a file. Two sockets may
 * be a pair of their own, from which nothing can be sent to a third; one alone leads nowhere. */
static int add_descriptors(scmp_filter_ctx filter)
{
    enum { TERMINAL = 0x5401, TERMINAL_GROUP = 0x540f, TERMINAL_SIZE = 0x5413, KINDS = 15, FIRST_OF_LINUX = 1024 };
    static const int OF_LINUX[] = {1030, 1031, 1032, 1033, 1034, -1}, HARMLESS[] = {FIONREAD, FIONBIO, FIOCLEX, FIONCLEX, -1};
    static const int OF_TERMINALS[] = {TERMINAL, TERMINAL_GROUP, TERMINAL_SIZE};
    static const char *const ATTRIBUTES[] = {"setxattr", "lsetxattr", "fsetxattr", "removexattr", "lremovexattr", "fremovexattr", NULL};
    int failed = allow_of(filter, SCMP_SYS(ioctl), 1, HARMLESS) | allow_of(filter, SCMP_SYS(fcntl), 1, OF_LINUX);
    failed |= seccomp_rule_add(filter, SCMP_ACT_ALLOW, SCMP_SYS(fcntl), 1, SCMP_A1(SCMP_CMP_LT, FIRST_OF_LINUX));
    for (int i = 0; i < 3; i++)
        failed |= seccomp_rule_add(filter, SCMP_ACT_ERRNO(ENOTTY), SCMP_SYS(ioctl), 1, SCMP_A1(SCMP_CMP_EQ, (scmp_datum_t)OF_TERMINALS[i]));
    failed |= seccomp_rule_add(filter, SCMP_ACT_ALLOW, SCMP_SYS(socketpair), 2, SCMP_A0(SCMP_CMP_EQ, AF_UNIX), SCMP_A1(SCMP_CMP_MASKED_EQ, KINDS, SOCK_STREAM));
    failed |= seccomp_rule_add(filter, SCMP_ACT_ALLOW, SCMP_SYS(socketpair), 2, SCMP_A0(SCMP_CMP_EQ, AF_UNIX), SCMP_A1(SCMP_CMP_MASKED_EQ, KINDS, SOCK_SEQPACKET));
    return failed | add_all(filter, SCMP_ACT_ERRNO(ENOTSUP), ATTRIBUTES);
}

/* Whether a file is opened without asking, where the world has doors: it is only read, or it is made. What is made is no report that was
 * given: what stands for one is there. (A new file in a report's place is asked for at the end.) A folder that is only named, by O_PATH,
 * asks at no door. */
static bool opens_freely(scmp_datum_t flags)
{
    bool is_made = (flags & O_CREAT) && (flags & O_EXCL);
    return !(flags & O_PATH) && (is_made || !(flags & O_ACCMODE));
}

/* A file is opened by these, with the flags as this argument. */
static int add_opens(scmp_filter_ctx filter, bool has_doors)
{
    enum { OPENS = 2, FLAGS = 5 };
    static const struct { int call; unsigned flags; } CALLS[OPENS] = {{SCMP_SYS(open), 1}, {SCMP_SYS(openat), 2}};
    static const scmp_datum_t NAMED[FLAGS] = {O_WRONLY, O_RDWR, O_PATH, O_CREAT, O_EXCL};
    int failed = 0;
    for (int i = 0; i < OPENS; i++) {
        failed |= seccomp_syscall_priority(filter, CALLS[i].call, UINT8_MAX);
        for (int set = 0; set < 1 << FLAGS; set++) {
            struct scmp_arg_cmp is = {CALLS[i].flags, SCMP_CMP_MASKED_EQ, 0, 0};
            for (int j = 0; j < FLAGS; j++) {
                is.datum_a |= NAMED[j];
                if (set & 1 << j) is.datum_b |= NAMED[j];
            }
            failed |= seccomp_rule_add_array(filter, has_doors && opens_freely(is.datum_b) ? SCMP_ACT_ALLOW : SCMP_ACT_NOTIFY, CALLS[i].call, 1, &is);
        }
    }
    return failed;
}

/* Who looks at a file that is open already (as fstat does) names none, and where he names one all the same it is looked for in the
 * world. */
static int add_looks(scmp_filter_ctx filter, bool has_doors)
{
    int failed = add_all(filter, has_doors ? SCMP_ACT_ALLOW : SCMP_ACT_NOTIFY, LOOKS);
    if (has_doors) return failed | seccomp_rule_add(filter, SCMP_ACT_ALLOW, SCMP_SYS(newfstatat), 0);
    failed |= seccomp_rule_add(filter, SCMP_ACT_NOTIFY, SCMP_SYS(newfstatat), 1, SCMP_A3(SCMP_CMP_MASKED_EQ, AT_EMPTY_PATH, 0));
    return failed | seccomp_rule_add(filter, SCMP_ACT_ALLOW, SCMP_SYS(newfstatat), 1, SCMP_A3(SCMP_CMP_MASKED_EQ, AT_EMPTY_PATH, AT_EMPTY_PATH));
}

/* Calls of which some arguments are refused, or asked for. A clone3 tells its flags where no filter can look: programs then use
 * clone. No filter is loaded over this one: its answers would be of another. */
static int add_some(scmp_filter_ctx filter)
{
    static const int CONTROLS[] = {
        PR_SET_PDEATHSIG, PR_GET_PDEATHSIG, PR_GET_DUMPABLE, PR_SET_DUMPABLE, PR_GET_KEEPCAPS, PR_SET_KEEPCAPS, PR_SET_NAME, PR_GET_NAME,
        PR_GET_SECCOMP, PR_CAPBSET_READ, PR_SET_TIMERSLACK, PR_GET_TIMERSLACK, PR_SET_CHILD_SUBREAPER, PR_GET_CHILD_SUBREAPER,
        PR_SET_NO_NEW_PRIVS, PR_GET_NO_NEW_PRIVS, PR_SET_THP_DISABLE, PR_GET_THP_DISABLE, PR_CAP_AMBIENT, 0x53564d41, -1}; /* (a name for memory) */
    int failed = add_all(filter, SCMP_ACT_ERRNO(0), HINTS) | add_reads(filter) | add_bounds(filter) | add_waits(filter) | add_descriptors(filter) | allow_of(filter, SCMP_SYS(prctl), 0, CONTROLS);
    failed |= seccomp_rule_add(filter, SCMP_ACT_ALLOW, SCMP_SYS(clone), 1, SCMP_A0(SCMP_CMP_MASKED_EQ, NEW_NAMESPACES, 0));
    return failed;
}

static scmp_filter_ctx make_filter(bool has_doors)
{
    scmp_filter_ctx filter = seccomp_init(SCMP_ACT_ERRNO(ENOSYS));
    bool is_made = filter && !add_all(filter, SCMP_ACT_NOTIFY, ASKED) && !add_opens(filter, has_doors) && !add_looks(filter, has_doors)
        && !add_all(filter, SCMP_ACT_ALLOW, FILES) && !add_all(filter, SCMP_ACT_ALLOW, PROCESSES)
        && !add_all(filter, SCMP_ACT_ALLOW, MEMORY_AND_TIME) && !add_some(filter)
        && !seccomp_attr_set(filter, SCMP_FLTATR_ACT_BADARCH, SCMP_ACT_ERRNO(ENOSYS));
    if (is_made || !filter) return filter;
    seccomp_release(filter);
    return NULL;
}

/* Prints a filter as an array of its steps. Whether it was made. */
static bool print_filter(const char *name, bool has_doors)
{
    static struct sock_filter steps[BPF_MAXINSNS];
    scmp_filter_ctx filter = make_filter(has_doors);
    int made = memfd_create("filter", MFD_CLOEXEC);
    ssize_t size;
    if (!filter || made < 0 || seccomp_export_bpf(filter, made)) return false;
    size = pread(made, steps, sizeof steps, 0);
    if (size <= 0) return false;
    printf("static const struct sock_filter %s[] = {\n", name);
    for (size_t i = 0; i < (size_t)size / sizeof *steps; i++)
        printf("    {0x%02x, %u, %u, 0x%08x},\n", steps[i].code, steps[i].jt, steps[i].jf, steps[i].k);
    puts("};");
    seccomp_release(filter);
    return !close(made);
}

int main(void)
{
    return !print_filter("WITH_DOORS", true) || !print_filter("WITHOUT_DOORS", false) || fflush(stdout);
}
