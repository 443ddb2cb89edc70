/* Files of faults: what a program prints as errors once its output is withheld, how it ended then, and what of its reports could not be
 * written. Each piece is a write by the program's thread, and is kept until all has ended.
 *
 * The file has its room from the start, and is written in any case: so neither a full disk nor its time tells what was noted. */
#define _GNU_SOURCE
#include "confine.h"
#include <errno.h>
#include <fcntl.h>
#include <stdarg.h>
#include <string.h>
#include <sys/mman.h>
#include <sys/stat.h>
#include <unistd.h>

/* How much a file has, and for its last line. */
enum { MOST_NOTED = 1 << 20, MOST_LINE = PATH_MAX + 256 };

void begin_faults(struct report *faults)
{
    char link[64];
    int file;
    snprintf(link, sizeof link, "/proc/self/fd/%d", faults->file);
    file = open(link, O_WRONLY | O_CLOEXEC);
    faults->staged = memfd_create("faults", MFD_CLOEXEC);
    if (file < 0 || faults->staged < 0) fail(ENDS_FAULT, faults->path);
    if (fallocate(file, FALLOC_FL_KEEP_SIZE, 0, MOST_NOTED) && errno != EOPNOTSUPP) fail(ENDS_FAULT, faults->path);
    close(file);
}

/* What does not fit is left out, and so is what comes after it. */
static void note(const struct report *faults, const char *text, size_t length)
{
    static const char MORE[] = "\nconfine: what came then is left out\n";
    const off_t most = MOST_NOTED - (off_t)strlen(MORE);
    off_t size = lseek(faults->staged, 0, SEEK_END);
    bool is_most = size >= 0 && size <= most && length > (size_t)(most - size);
    if (size < 0 || size > most) return;
    if (write(faults->staged, text, is_most ? (size_t)(most - size) : length) < 0) {}
    if (is_most && write(faults->staged, MORE, strlen(MORE)) < 0) {}
}

void note_errors(const struct plan *plan, const struct family *family, const char *text, size_t length)
{
    int i = family->prints ? -1 : takes_faults(plan, family);
    if (i >= 0) note(&plan->faults[i], text, length);
}

void note_line(const struct plan *plan, int faults, const char *form, ...)
{
    char line[MOST_LINE];
    va_list parts;
    int length;
    if (faults < 0) return;
    va_start(parts, form);
    length = vsnprintf(line, sizeof line, form, parts);
    va_end(parts);
    if (length > 0) note(&plan->faults[faults], line, (size_t)length < sizeof line ? (size_t)length : sizeof line - 1);
}

void note_end(const struct plan *plan, const struct family *family, int status)
{
    if (!family->prints) note_line(plan, takes_faults(plan, family), "confine: the status is %d\n", status);
}

bool lay_faults(const struct plan *plan, bool prints)
{
    bool are_laid = true;
    for (int i = 0; i < plan->faults_count; i++) {
        const struct report *faults = &plan->faults[i];
        bool may_tell = prints && !lseek(faults->staged, 0, SEEK_END);
        if (copy_out(faults, faults->staged, true, 0) || !may_tell) continue;
        fprintf(stderr, "confine: %s: %s\n", faults->path, strerror(errno));
        are_laid = false;
    }
    return are_laid;
}
