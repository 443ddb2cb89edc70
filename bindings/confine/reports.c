/* Reports. The program writes a file of its own, which stands for the report in its world, in a folder that goes with the world.
 * What it leaves there is copied out once it has ended. So no inode of a report is ever in its hands: its rights, times and locks
 * say nothing, and the program may read, replace and rename what it wrote.
 *
 * What stood in a report before may have been left there by another run, at the report's label. So it is put into a world once the
 * program there observes the report. It is mapped at the start: nobody outside sees when it is looked at. */
#define _GNU_SOURCE
#include "confine.h"
#include <errno.h>
#include <fcntl.h>
#include <linux/openat2.h>
#include <stdlib.h>
#include <string.h>
#include <sys/mman.h>
#include <sys/stat.h>
#include <sys/statvfs.h>
#include <sys/prctl.h>
#include <sys/syscall.h>
#include <signal.h>
#include <unistd.h>

/* How much of reports the broker puts into a world by itself, and how much it puts there at all. */
enum { MOST_AT_ONCE = 1 << 16, MOST_BROUGHT = 1 << 29 };

static void find(struct report *report)
{
    report->file = open(report->path, O_PATH | O_CLOEXEC | O_NOFOLLOW);
    report->staged = -1;
    if (report->file < 0) fail(ENDS_FAULT, report->path);
}

void find_reports(struct plan *plan)
{
    for (int i = 0; i < plan->report_count; i++) find(&plan->reports[i]);
    for (int i = 0; i < plan->faults_count; i++) find(&plan->faults[i]);
}

/* The file that stands for a report, by O_PATH; -1 where there is none. The program may have put links there: none is followed. */
static int placed(const struct family *family, const struct report *report)
{
    struct open_how how = {.flags = O_PATH | O_NOFOLLOW | O_CLOEXEC, .resolve = RESOLVE_BENEATH | RESOLVE_NO_SYMLINKS | RESOLVE_NO_XDEV};
    char name[PATH_MAX + 16];
    snprintf(name, sizeof name, "%d%s", report->folder, strrchr(report->path, '/'));
    return (int)syscall(SYS_openat2, family->world.scratch, name, &how, sizeof how);
}

/* Opens anew what a descriptor leads to. */
static int reopen(int file, int flags)
{
    char link[64];
    snprintf(link, sizeof link, "/proc/self/fd/%d", file);
    return open(link, flags | O_CLOEXEC | O_NONBLOCK);
}

static bool allow(int file, mode_t mode)
{
    char link[64];
    snprintf(link, sizeof link, "/proc/self/fd/%d", file);
    return !chmod(link, mode);
}

void keep_old(struct plan *plan)
{
    for (int i = 0; i < plan->faults_count; i++) begin_faults(&plan->faults[i]);
    for (int i = 0; i < plan->report_count; i++) {
        struct report *report = &plan->reports[i];
        struct stat found;
        int file;
        if (fstat(report->file, &found)) fail(ENDS_FAULT, report->path);
        if (!found.st_size) continue;
        file = reopen(report->file, O_RDONLY | O_NOATIME);
        report->old_size = (size_t)found.st_size;
        report->old = file < 0 ? MAP_FAILED : mmap(NULL, report->old_size, PROT_READ, MAP_PRIVATE, file, 0);
        if (report->old == MAP_FAILED) fail(ENDS_FAULT, report->path);
        close(file);
    }
}

/* (The broker keeps what stands for a report at first, so that its number is given to no other file.) */
bool note_reports(const struct plan *plan, struct family *family)
{
    for (int i = 0; i < plan->report_count; i++)
        if ((family->world.placed[i] = placed(family, &plan->reports[i])) < 0) return false;
    return true;
}

bool stage(struct report *report)
{
    if (report->staged < 0) report->staged = memfd_create("gate", MFD_CLOEXEC);
    return report->staged >= 0;
}

int staged_of(const struct report *report)
{
    char link[64];
    snprintf(link, sizeof link, "/proc/self/fd/%d", report->staged);
    return open(link, O_WRONLY | O_APPEND | O_CLOEXEC);
}

static bool write_all(int to, const char *text, size_t length)
{
    for (size_t at = 0; at < length;) {
        ssize_t written = write(to, text + at, length - at);
        if (written < 0) return false;
        at += (size_t)written;
    }
    return true;
}

static bool copy(int from, int to)
{
    static char text[65536];
    ssize_t count;
    while ((count = read(from, text, sizeof text)) > 0)
        if (!write_all(to, text, (size_t)count)) return false;
    return !count;
}

/* Whether a report still has its name: what is written to one that has none is lost. */
static bool is_there(const struct report *report)
{
    struct stat found;
    errno = ENOENT;
    return !fstat(report->file, &found) && found.st_nlink;
}

/* Whether there is room for a file in place of what another has: else that is left as it is. */
static bool has_room(int from, int to)
{
    struct stat found;
    return !fstat(from, &found) && (!found.st_size || !fallocate(to, FALLOC_FL_KEEP_SIZE, 0, found.st_size) || errno == EOPNOTSUPP || errno == ENOSYS);
}

bool copy_out(const struct report *report, int file, bool replaces, off_t begin)
{
    int from = reopen(file, O_RDONLY), to = reopen(report->file, O_WRONLY | (replaces ? 0 : O_APPEND));
    bool is_copied = from >= 0 && to >= 0 && is_there(report) && lseek(from, begin, SEEK_SET) == begin && (!replaces || has_room(from, to))
        && copy(from, to) && (!replaces || !ftruncate(to, lseek(to, 0, SEEK_CUR)));
    if (from >= 0) close(from);
    if (to >= 0) close(to);
    return is_copied;
}

/* What a program has left of a report, and what the kernel allowed of it, until all is laid. */
struct left {
    struct left *next;
    int report, file;
    bool is_plain, replaces, is_told; /* whether a fault may be told */
    int faults;             /* where it is noted else; -1 where it is not */
    off_t begin, end;       /* what of the file is added */
};

static struct left *first, **last = &first;

/* What stands in a report by now: the last file that was left in its place, or what it had at first, and all that is added. */
static const struct left *base_of(int report, off_t *size)
{
    const struct left *base = NULL;
    for (const struct left *it = first; it; it = it->next)
        if (it->report == report && it->is_plain && it->replaces) base = it;
    *size = base ? base->end : 0;
    for (const struct left *it = base ? base->next : first; it; it = it->next)
        if (it->report == report && it->is_plain) *size += it->end - it->begin;
    return base;
}

/* Puts what stands in a report into a file. */
static bool put_old(const struct plan *plan, int report, int to)
{
    off_t size;
    const struct left *base = base_of(report, &size);
    bool is_put = base || write_all(to, plan->reports[report].old, plan->reports[report].old_size);
    for (const struct left *it = base ? base : first; it && is_put; it = it->next) {
        int from;
        if (it->report != report || !it->is_plain) continue;
        from = allow(it->file, 0600) ? reopen(it->file, O_RDONLY) : -1;
        is_put = from >= 0 && lseek(from, it->begin, SEEK_SET) == it->begin && copy(from, to);
        close(from);
    }
    return is_put;
}

/* How much stands in a report before a program opens it for the first time; 0 where the program has that, or what is its own. */
static off_t missing(const struct plan *plan, const struct family *family, int i)
{
    off_t size;
    if (family->old[i] || family->is_begun[i] || family->empties[i]) return 0;
    return base_of(i, &size) ? size : size + (off_t)plan->reports[i].old_size;
}

static bool fits(const struct family *family, off_t size)
{
    struct statvfs space;
    return size <= MOST_BROUGHT && !fstatvfs(family->world.scratch, &space) && (unsigned long)size <= space.f_bavail * space.f_bsize;
}

int begin_report(const struct plan *plan, struct family *family, int i, int flags)
{
    int file = placed(family, &plan->reports[i]);
    off_t size = flags & (O_TRUNC | O_APPEND) ? 0 : missing(plan, family, i);
    bool is_too_large = size && !fits(family, size);
    if (!is_too_large && is_same(file, family->world.placed[i])) allow(file, 0600);
    if (file >= 0) close(file);
    if (is_too_large) return EFBIG;
    if (flags & O_TRUNC) family->empties[i] = true;
    else if (flags & O_APPEND) family->adds[i] = true;
    else family->replaces[i] = true;
    return 0;
}

/* (Who opens it meanwhile by a name of his own is not given the report by that: leave asks anew.) */
static bool bring(const struct plan *plan, struct family *family, int i)
{
    int file = placed(family, &plan->reports[i]), to = -1;
    bool is_there = is_same(file, family->world.placed[i]) && allow(file, 0600), is_brought;
    if (is_there) to = reopen(file, O_WRONLY);
    is_brought = to >= 0 && put_old(plan, i, to);
    if (to >= 0 && !is_brought && ftruncate(to, 0)) {}
    if (is_there && !family->holds_report[i]) allow(file, 0400);
    if (to >= 0) close(to);
    if (file >= 0) close(file);
    return is_brought;
}

static bool is_elsewhere; /* this process goes on in place of the broker */

/* Goes on in another process, which first waits until an earlier one has brought what it was to bring. */
static void go_elsewhere(struct family *family, bool brings, pid_t *other)
{
    struct pollfd earlier = {family->bringer > 0 ? family->bringer : -1, POLLIN, 0};
    if ((*other = fork())) {
        if (*other < 0) return;
        if (brings && family->bringer > 0) close(family->bringer);
        if (brings) family->bringer = (int)syscall(SYS_pidfd_open, *other, 0);
        note_ending(*other);
        return;
    }
    prctl(PR_SET_PDEATHSIG, SIGKILL, 0, 0, 0);
    if (earlier.fd > 0) poll(&earlier, 1, -1);
    is_elsewhere = true;
}

bool bring_reports(const struct plan *plan, struct family *family)
{
    off_t sizes[MOST_REPORTS], all = 0;
    pid_t other = 0;
    bool waits = family->bringer > 0 && !came_now(family->bringer, POLLIN);
    for (int i = 0; i < plan->report_count; i++) {
        sizes[i] = missing(plan, family, i);
        if (sizes[i] && (!observes_report(plan, family, i) || !fits(family, all + sizes[i]))) sizes[i] = 0;
        all += sizes[i];
    }
    if (all > MOST_AT_ONCE || waits) go_elsewhere(family, all > MOST_AT_ONCE, &other);
    for (int i = 0; i < plan->report_count; i++) {
        if (sizes[i] && (other > 0 || bring(plan, family, i))) family->old[i] = sizes[i];
        family->is_begun[i] = family->is_begun[i] || family->adds[i] || family->replaces[i] || family->empties[i];
    }
    return other <= 0;
}

void end_bringer(struct family *family)
{
    if (family->bringer > 0) close(family->bringer);
    family->bringer = 0;
}

void end_bringing(void)
{
    if (is_elsewhere) _exit(0);
}

/* Keeps what stands for a report, with what of it is added where it was opened only for that. */
static void keep(const struct plan *plan, const struct family *family, struct left it)
{
    struct left *left = malloc(sizeof *left);
    if (!left) fail(ENDS_FAULT, "a report");
    it.is_told = family->prints;
    it.faults = family->prints ? -1 : takes_faults(plan, family);
    *left = it;
    *last = left;
    last = &left->next;
}

/* Keeps what stands for a report, if the program was given it, or has put another file there. Whether it is of use. */
static bool leave(struct plan *plan, struct family *family, int i, int file)
{
    struct stat found;
    bool is_new = !is_same(file, family->world.placed[i]), is_plain = !fstat(file, &found) && S_ISREG(found.st_mode);
    off_t old = family->old[i];
    bool replaces = is_new || family->replaces[i] || family->empties[i] || found.st_size < old;
    if (!is_new && !family->holds_report[i]) return false;
    if (!is_new && !family->empties[i] && found.st_size == old && (!replaces || !old)) return false;
    if (is_plain && !holds_report(plan, family, i)) return false;
    keep(plan, family, (struct left){.report = i, .file = file, .is_plain = is_plain, .replaces = replaces, .begin = replaces ? 0 : old, .end = found.st_size});
    return true;
}

void leave_reports(struct plan *plan, struct family *family)
{
    for (int i = 0; i < plan->report_count; i++) {
        int file = placed(family, &plan->reports[i]);
        if (file >= 0 && !leave(plan, family, i, file)) close(file);
    }
}

/* Lays what a program has left. Whether all of it is there. */
static bool lay(const struct plan *plan, const struct left *left)
{
    const struct report *report = &plan->reports[left->report];
    const char *why = "the program left no plain file there";
    if (left->is_plain && allow(left->file, 0600) && copy_out(report, left->file, left->replaces, left->begin)) return true;
    if (left->is_plain) why = strerror(errno);
    if (left->is_told) fprintf(stderr, "confine: %s: %s\n", report->path, why);
    else note_line(plan, left->faults, "confine: %s: %s\n", report->path, why);
    return !left->is_told;
}

bool lay_reports(struct plan *plan)
{
    bool are_laid = true;
    for (int i = 0; i < plan->report_count; i++)
        if (plan->reports[i].staged >= 0 && !copy_out(&plan->reports[i], plan->reports[i].staged, false, 0)) are_laid = false;
    for (const struct left *it = first; it; it = it->next) are_laid = lay(plan, it) && are_laid;
    return are_laid;
}
