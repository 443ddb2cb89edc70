/* The broker's answers to the program's calls that name a file. */
#define _GNU_SOURCE
#include "confine.h"
#include <errno.h>
#include <fcntl.h>
#include <seccomp.h>
#include <stdlib.h>
#include <string.h>
#include <sys/ioctl.h>
#include <sys/syscall.h>
#include <sys/uio.h>
#include <linux/seccomp.h>
#include <unistd.h>

enum { PAGE = 4096 };

/* A call that names a file: where its folder, its path and its flags stand among the arguments; -1 for none. */
struct naming {
    int call, folder, path, flags;
    enum { USES, LOOKS, RENAMES } kind; /* it looks at what is named, and goes no further; it gives a file that name */
};

static const struct naming NAMINGS[] = {
    {SYS_open, -1, 0, 1, USES},         {SYS_openat, 0, 1, 2, USES},        {SYS_creat, -1, 0, -1, USES},
    {SYS_stat, -1, 0, -1, LOOKS},       {SYS_lstat, -1, 0, -1, LOOKS},      {SYS_newfstatat, 0, 1, -1, LOOKS},
    {SYS_statx, 0, 1, -1, LOOKS},       {SYS_access, -1, 0, -1, LOOKS},     {SYS_faccessat, 0, 1, -1, LOOKS},
    {SYS_faccessat2, 0, 1, -1, LOOKS},  {SYS_readlink, -1, 0, -1, LOOKS},   {SYS_readlinkat, 0, 1, -1, LOOKS},
    {SYS_chdir, -1, 0, -1, USES},       {SYS_execve, -1, 0, -1, USES},      {SYS_rename, -1, 1, -1, RENAMES},
    {SYS_renameat, 2, 3, -1, RENAMES},  {SYS_renameat2, 2, 3, -1, RENAMES}};

static const struct naming *naming_of(int call)
{
    for (size_t i = 0; i < sizeof NAMINGS / sizeof *NAMINGS; i++)
        if (NAMINGS[i].call == call) return &NAMINGS[i];
    return NULL;
}

/* A text in the program's memory. It is read page by page, since the next page may not be there. */
static bool read_text(pid_t pid, uint64_t at, char *text)
{
    size_t length = 0;
    while (length < PATH_MAX - 1) {
        size_t count = PAGE - (size_t)((at + length) % PAGE);
        if (count > PATH_MAX - 1 - length) count = PATH_MAX - 1 - length;
        struct iovec here = {text + length, count}, there = {(void *)(uintptr_t)(at + length), count};
        ssize_t got = process_vm_readv(pid, &here, 1, &there, 1, 0);
        if (got <= 0) return false;
        if (memchr(text + length, 0, (size_t)got)) return true;
        length += (size_t)got;
    }
    return false;
}

/* The folder that a path begins at, as a path of the program's world. */
static bool folder_of(pid_t pid, const struct seccomp_notif *asked, const struct naming *naming, char *folder)
{
    char link[64];
    int descriptor = naming->folder < 0 ? AT_FDCWD : (int)asked->data.args[naming->folder];
    ssize_t length;
    if (descriptor == AT_FDCWD) snprintf(link, sizeof link, "/proc/%d/cwd", pid);
    else snprintf(link, sizeof link, "/proc/%d/fd/%d", pid, descriptor);
    length = readlink(link, folder, PATH_MAX - 1);
    if (length < 0) return false;
    folder[length] = 0;
    return true;
}

/* Adds a path's parts to a path: "." and empty ones add nothing, ".." takes one away, and a link of the plan leads on. */
static bool add_parts(const struct plan *plan, char *path, const char *parts)
{
    size_t length = strlen(path);
    const char *real;
    while (*parts) {
        size_t count = strcspn(parts, "/");
        if (count == 2 && !strncmp(parts, "..", 2)) {
            while (length && path[--length] != '/') {}
        } else if (count && !(count == 1 && *parts == '.')) {
            if (length + count + 2 > PATH_MAX) return false;
            path[length++] = '/';
            memcpy(path + length, parts, count);
            length += count;
        }
        path[length] = 0;
        if (count && (real = link_at(plan, path))) length = strlen(strcpy(path, strcmp(real, "/") ? real : ""));
        parts += count;
        while (*parts == '/') parts++;
    }
    return true;
}

/* The path that a call names, from the root of the world, without a link being followed but those of the plan. */
static bool path_of(const struct plan *plan, pid_t pid, const struct seccomp_notif *asked, const struct naming *naming, char *path)
{
    char text[PATH_MAX], folder[PATH_MAX] = "";
    if (!read_text(pid, asked->data.args[naming->path], text)) return false;
    if (*text != '/' && !folder_of(pid, asked, naming, folder)) return false;
    *path = 0;
    return add_parts(plan, path, folder) && add_parts(plan, path, text);
}

int open_secret(struct plan *plan, struct family *family, int i)
{
    int answer = EIO;
    if (family->is_open[i]) return 0;
    before_rise(plan, family);
    if (!opens_secret(plan, family, i)) return EACCES;
    after_rise(family);
    family->is_open[i] = true;
    if (write(family->world.keeper_socket, &i, sizeof i) != sizeof i) return EIO;
    if (read(family->world.keeper_socket, &answer, sizeof answer) != sizeof answer) return EIO;
    return answer;
}

static int flags_of(const struct seccomp_notif *asked, const struct naming *naming)
{
    if (naming->call == SYS_creat) return O_WRONLY | O_CREAT | O_TRUNC;
    return naming->flags < 0 ? 0 : (int)asked->data.args[naming->flags];
}

/* Whether a call asks for a file that may be written. */
static bool writes_to(const struct seccomp_notif *asked, const struct naming *naming)
{
    return naming->kind == RENAMES || (flags_of(asked, naming) & O_ACCMODE) != O_RDONLY;
}

/* The program goes on to write the file that stands for a report in its world. An errno, 0 where it may. Who writes a report of a
 * secret is at the secret's level: the kernel lets nobody modify what he doesn't observe. */
static int open_report(struct plan *plan, struct family *family, int i, const struct naming *naming, int flags)
{
    before_rise(plan, family);
    if (!holds_report(plan, family, i)) return EACCES;
    after_rise(family);
    return naming->kind == RENAMES ? 0 : begin_report(plan, family, i, flags);
}

/* What leads to a gate's program; -1 with errno where it may not be written to. */
static int open_gate(struct plan *plan, struct family *family, int i, int flags)
{
    errno = (flags & O_CREAT) && (flags & O_EXCL) ? EEXIST : EACCES;
    if (errno == EEXIST || ((flags & O_ACCMODE) == O_RDWR && !plan->gates[i].answers) || !enters_gate(plan, family, i, family)) return -1;
    return open_way(plan, family, i);
}

static void respond(int listener, uint64_t id, int error)
{
    struct seccomp_notif_resp answer;
    memset(&answer, 0, sizeof answer);
    answer.id = id;
    answer.error = -error;
    answer.flags = error ? 0 : SECCOMP_USER_NOTIF_FLAG_CONTINUE;
    ioctl(listener, SECCOMP_IOCTL_NOTIF_SEND, &answer);
}

/* Answers once the program has of reports what it observes. */
static void respond_risen(const struct plan *plan, struct family *family, uint64_t id, int error)
{
    if (!bring_reports(plan, family)) return;
    respond(family->world.listener, id, error);
    end_bringing();
}

/* Puts a descriptor into the program as the answer of its call. */
static void hand_over(int listener, uint64_t id, int file, int flags)
{
    struct seccomp_notif_addfd given;
    memset(&given, 0, sizeof given);
    given.id = id;
    given.flags = SECCOMP_ADDFD_FLAG_SEND;
    given.srcfd = (uint32_t)file;
    given.newfd_flags = (uint32_t)flags & O_CLOEXEC;
    if (ioctl(listener, SECCOMP_IOCTL_NOTIF_ADDFD, &given) < 0) respond(listener, id, errno);
    close(file);
}

/* The report that a path names, or -1. */
static int report_at(const struct plan *plan, const char *path)
{
    for (int i = 0; i < plan->report_count; i++)
        if (!strcmp(path, plan->reports[i].path)) return i;
    return -1;
}

/* The gate that a path names, or -1. */
static int gate_at(const struct plan *plan, const char *path)
{
    for (int i = 0; i < plan->gate_count; i++)
        if (is_below(path, GATES) && !strcmp(path + strlen(GATES) + 1, plan->gates[i].name)) return i;
    return -1;
}

/* Opens each secret that a path leads into. To look at its folder alone opens none. An errno, 0 where it may. */
static int open_secrets_at(struct plan *plan, struct family *family, const struct naming *naming, const char *path)
{
    int error = 0;
    for (int i = 0; i < plan->secret_count && !error; i++) {
        const char *secret = plan->secrets[i].path;
        if (is_below(path, secret) && !(naming->kind == LOOKS && !strcmp(path, secret))) error = open_secret(plan, family, i);
    }
    return error;
}

/* Whether a call may go on whatever path it names: it asks for nothing to write, and all secrets are in the world. */
static bool leads_nowhere_new(const struct plan *plan, const struct family *family, const struct seccomp_notif *asked, const struct naming *naming)
{
    for (int i = 0; i < plan->secret_count; i++)
        if (!family->is_open[i]) return false;
    return !writes_to(asked, naming);
}

/* Whether a path lies in what may only be read. (The world would refuse to write there too, but a pipe with a name would wait.) */
static bool is_read_only(const struct plan *plan, const char *path)
{
    for (int i = 0; i < plan->open_count; i++)
        if (is_below(path, plan->open[i])) return true;
    for (int i = 0; i < plan->secret_count; i++)
        if (is_below(path, plan->secrets[i].path)) return true;
    return false;
}

static void answer_run(struct family *family, uint64_t id)
{
    int file = open_run(family);
    if (file < 0) respond(family->world.listener, id, errno);
    else hand_over(family->world.listener, id, file, O_CLOEXEC);
}

/* Answers a call that names a path. */
static void answer_naming(struct plan *plan, struct family *family, const struct seccomp_notif *asked, const struct naming *naming, const char *path)
{
    int listener = family->world.listener, flags = flags_of(asked, naming), file;
    int report = writes_to(asked, naming) ? report_at(plan, path) : -1, gate = writes_to(asked, naming) ? gate_at(plan, path) : -1;
    if (report >= 0) respond_risen(plan, family, asked->id, open_report(plan, family, report, naming, flags));
    else if (naming->kind == RENAMES) respond(listener, asked->id, 0);
    else if (writes_to(asked, naming) && is_read_only(plan, path)) respond(listener, asked->id, EROFS);
    else if (gate < 0 && !strcmp(path, RUN)) answer_run(family, asked->id);
    else if (gate < 0) respond_risen(plan, family, asked->id, open_secrets_at(plan, family, naming, path));
    else if ((file = open_gate(plan, family, gate, flags)) < 0) respond(listener, asked->id, errno);
    else hand_over(listener, asked->id, file, flags);
}

void answer_call(struct plan *plan, struct family *family)
{
    struct seccomp_notif asked;
    char path[PATH_MAX];
    const struct naming *naming;
    int listener = family->world.listener;
    memset(&asked, 0, sizeof asked);
    if (ioctl(listener, SECCOMP_IOCTL_NOTIF_RECV, &asked) < 0) return;
    naming = naming_of(asked.data.nr);
    if (asked.data.nr == SYS_futex) delay_wait(listener, asked.id, (pid_t)asked.pid, (const uint64_t *)asked.data.args);
    else if (asked.data.nr == SYS_sysinfo) answer_machine(listener, asked.id, (pid_t)asked.pid, asked.data.args[0]);
    /* A path that can't be read is one that the call itself will not find. */
    else if (!naming || leads_nowhere_new(plan, family, &asked, naming) || !path_of(plan, (pid_t)asked.pid, &asked, naming, path))
        respond(listener, asked.id, 0);
    else answer_naming(plan, family, &asked, naming, path);
}

void wake_at_once(int listener, bool does)
{
    enum { SET_FLAGS = SECCOMP_IOW(4, uint64_t), SYNC_WAKE_UP = 1 };
    ioctl(listener, SET_FLAGS, does ? SYNC_WAKE_UP : 0);
}

bool begin_answers(const struct plan *plan, struct family *family)
{
    wake_at_once(family->world.listener, true);
    if (!note_reports(plan, family)) return false;
    begin_program(&family->world, bring_reports(plan, family));
    end_bringing();
    return true;
}
