/* What may not lie in what: what is reached by two names would be read, or written, by the one that asks for less. */
#define _GNU_SOURCE
#include "confine.h"
#include <stdlib.h>
#include <string.h>
#include <sys/stat.h>

bool is_below(const char *path, const char *folder)
{
    size_t length = strlen(folder);
    return !strncmp(path, folder, length) && (!path[length] || path[length] == '/' || folder[length - 1] == '/');
}

static void keep_names_apart(const char *one, const char *other)
{
    if (is_below(one, other) || is_below(other, one)) refuse("%s and %s: one lies in the other", one, other);
}

static void keep_two_apart(const char *one, const char *other)
{
    if (is_placed_below(one, other) || is_placed_below(other, one)) refuse("%s and %s: one lies in the other", one, other);
}

/* The real path of one of those things that each program finds; "" where it isn't there. */
static const char *real_of(size_t i)
{
    static char real[MOST_ALWAYS][PATH_MAX];
    static bool is_known[MOST_ALWAYS];
    if (!is_known[i] && !realpath(ALWAYS[i], real[i])) *real[i] = 0;
    is_known[i] = true;
    return real[i];
}

/* A secret has nothing of what each program finds. */
static void keep_from_all(const char *secret)
{
    for (size_t i = 0; ALWAYS[i]; i++)
        if (*real_of(i)) {
            keep_two_apart(secret, real_of(i));
            keep_names_apart(secret, ALWAYS[i]);
            if (is_mounted_below(secret, real_of(i))) refuse("%s: it is mounted in %s too", secret, real_of(i));
        }
    keep_names_apart(secret, "/proc");
}

/* What is mounted in a folder can't be overlaid: a lock or a pipe there would lead outside, or to what another label has. */
static void keep_whole(const char *folder)
{
    const char *mounted = mounted_in(folder);
    if (mounted) refuse("%s: something is mounted in it, at %s", folder, mounted);
}

static bool are_equal(const struct levels *one, const struct levels *other) { return !memcmp(one, other, sizeof *one); }

/* A report that lies in a secret's folder has the folder's label: who reads the folder would read the report too. One that
 * lies in a public folder would be read by all. */
static void keep_report_apart(const struct plan *plan, const struct report *report)
{
    for (int i = 0; i < plan->secret_count; i++)
        if (!are_equal(&report->levels, &plan->secrets[i].levels) && is_placed_below(report->path, plan->secrets[i].path))
            refuse("%s: it lies in %s, of which it is no report", report->path, plan->secrets[i].path);
    for (int i = 0; i < plan->open_count; i++)
        if (is_placed_below(report->path, plan->open[i])) refuse("%s: it lies in %s, which is public", report->path, plan->open[i]);
    for (size_t i = 0; ALWAYS[i]; i++)
        if (*real_of(i) && is_placed_below(report->path, real_of(i))) refuse("%s: it lies in %s, which is public", report->path, real_of(i));
}

/* A report is reached by its own name alone, and is its user's alone. */
static void keep_private(const struct report *report)
{
    char link[64];
    struct stat found;
    snprintf(link, sizeof link, "/proc/self/fd/%d", report->file);
    if (fstat(report->file, &found)) fail(ENDS_FAULT, report->path);
    if (found.st_nlink != 1) refuse("%s: it has another name, by which it may be read", report->path);
    if ((found.st_mode & 07777) != 0600 && chmod(link, 0600)) refuse("%s: it is another's, so it can't be kept from others", report->path);
}

/* One file under two names has one label. */
static void keep_files_apart(const struct report *one, const struct report *other)
{
    struct stat first, second;
    if (fstat(one->file, &first) || fstat(other->file, &second)) fail(ENDS_FAULT, one->path);
    if (first.st_dev == second.st_dev && first.st_ino == second.st_ino && !are_equal(&one->levels, &other->levels))
        refuse("%s and %s: one file with two labels", one->path, other->path);
}

/* A file of faults is written by confine alone, in place of what it has. */
static void keep_faults_apart(const struct plan *plan, int i)
{
    const struct report *faults = &plan->faults[i];
    keep_private(faults);
    keep_report_apart(plan, faults);
    for (int j = 0; j < plan->secret_count; j++)
        if (is_placed_below(faults->path, plan->secrets[j].path)) refuse("%s: it lies in %s, and is no secret", faults->path, plan->secrets[j].path);
    for (int j = 0; j < plan->report_count; j++)
        if (is_same(faults->file, plan->reports[j].file)) refuse("%s: it is a report, and can't have faults", faults->path);
    for (int j = 0; j < i; j++)
        if (is_same(faults->file, plan->faults[j].file)) refuse("%s: it is to have the faults of two", faults->path);
}

void keep_apart(const struct plan *plan)
{
    for (int i = 0; i < plan->secret_count; i++) {
        const char *path = plan->secrets[i].path;
        keep_from_all(path);
        for (int j = 0; j < i; j++) keep_two_apart(path, plan->secrets[j].path);
        for (int j = 0; j < plan->open_count; j++) keep_two_apart(path, plan->open[j]);
    }
    for (int i = 0; i < plan->secret_count; i++) keep_whole(plan->secrets[i].path);
    for (int i = 0; i < plan->open_count; i++) keep_whole(plan->open[i]);
    for (int i = 0; i < plan->report_count; i++) {
        keep_private(&plan->reports[i]);
        keep_report_apart(plan, &plan->reports[i]);
        for (int j = 0; j < i; j++) keep_files_apart(&plan->reports[i], &plan->reports[j]);
    }
    for (int i = 0; i < plan->faults_count; i++) keep_faults_apart(plan, i);
}

/* Whether a folder of the world may be the program's own: it is no secret's, and nothing that each program finds is below. */
static bool may_be_whole(const struct plan *plan, const char *path)
{
    for (const char *const *it = ALWAYS; *it; it++)
        if (is_below(*it, path)) return false;
    for (int i = 0; i < plan->secret_count; i++)
        if (is_below(path, plan->secrets[i].path)) return false;
    return !is_below(path, "/proc");
}

static int folder_of(struct plan *plan, const char *path)
{
    struct folder *folder;
    int i = 0;
    while (i < plan->folder_count && strcmp(plan->folders[i].path, path)) i++;
    if (i < plan->folder_count) return i;
    folder = &plan->folders[plan->folder_count++];
    strcpy(folder->path, path);
    folder->is_whole = may_be_whole(plan, path);
    return i;
}

void find_folders(struct plan *plan)
{
    for (int i = 0; i < plan->report_count; i++) {
        char path[PATH_MAX];
        strcpy(path, plan->reports[i].path);
        *strrchr(path, '/') = 0;
        plan->reports[i].folder = folder_of(plan, *path ? path : "/");
    }
}
