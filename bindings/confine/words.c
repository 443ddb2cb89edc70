/* The command line, and what is asked of each part of a plan. */
#define _GNU_SOURCE
#include "confine.h"
#include <fcntl.h>
#include <stdarg.h>
#include <stdlib.h>
#include <string.h>
#include <sys/stat.h>
#include <unistd.h>

ENDS void refuse(const char *form, ...)
{
    va_list parts;
    va_start(parts, form);
    fputs("confine: ", stderr);
    vfprintf(stderr, form, parts);
    fputs("; confine --help prints the words\n", stderr);
    va_end(parts);
    exit(ENDS_USAGE);
}

/* The real path of a folder or of a file. The links that lead there are noted. */
static void resolve(struct plan *plan, const char *word, const char *path, bool is_folder, char *real)
{
    struct stat found;
    if (!realpath(path, real) || stat(real, &found)) refuse("%s: %s is not there", word, path);
    if (S_ISDIR(found.st_mode) != is_folder) refuse("%s: %s is no %s", word, path, is_folder ? "folder" : "file");
    if (!is_folder && !S_ISREG(found.st_mode)) refuse("%s: %s is no plain file", word, path);
    note_links(plan, word, path);
}

static struct levels plain(void)
{
    struct levels levels;
    memset(levels.in, 1, sizeof levels.in);
    return levels;
}

int add_category(struct plan *plan, const char *name)
{
    if (plan->category_count == MOST_CATEGORIES) refuse("at most %d categories, of which each --secret makes one", MOST_CATEGORIES);
    memmove(plan->categories[plan->category_count].name, name, strlen(name) + 1);
    plan->clearance.in[plan->category_count] = 3;
    return plan->category_count++;
}

struct secret *add_secret(struct plan *plan, const char *word, const char *path)
{
    struct secret *secret = &plan->secrets[plan->secret_count];
    if (plan->secret_count == MOST_SECRETS) refuse("at most %d secrets", MOST_SECRETS);
    resolve(plan, word, path, true, secret->path);
    secret->levels = plain();
    plan->secret_count++;
    return secret;
}

/* A file that isn't there is made, empty, and for its user alone. */
static void find_file(struct plan *plan, const char *word, const char *path, struct report *file)
{
    int made = open(path, O_WRONLY | O_APPEND | O_CREAT | O_NONBLOCK | O_CLOEXEC, 0600);
    if (made < 0) refuse("%s: %s can't be written", word, path);
    close(made);
    resolve(plan, word, path, false, file->path);
    file->levels = plain();
}

struct report *add_report(struct plan *plan, const char *word, const char *path)
{
    struct report *report = &plan->reports[plan->report_count];
    if (plan->report_count == MOST_REPORTS) refuse("at most %d reports", MOST_REPORTS);
    find_file(plan, word, path, report);
    plan->report_count++;
    return report;
}

struct report *add_faults(struct plan *plan, const char *word, const char *path)
{
    struct report *faults = &plan->faults[plan->faults_count];
    if (plan->faults_count == MOST_FAULTS) refuse("at most %d files of faults", MOST_FAULTS);
    find_file(plan, word, path, faults);
    plan->faults_count++;
    return faults;
}

void add_open(struct plan *plan, const char *word, const char *path)
{
    if (plan->open_count == MOST_OPEN) refuse("at most %d public folders", MOST_OPEN);
    resolve(plan, word, path, true, plan->open[plan->open_count++]);
}

struct gate *add_gate(struct plan *plan, const char *name)
{
    struct gate *gate = &plan->gates[plan->gate_count];
    if (plan->gate_count == MOST_GATES) refuse("at most %d gates", MOST_GATES);
    snprintf(gate->name, sizeof gate->name, "%s", name);
    gate->report = SHOWN;
    plan->gate_count++;
    return gate;
}

/* What --secret and --report ask for: a category for each secret, in which its folder and its reports are at 3. */
struct words {
    int category; /* the last secret's, or -1 */
    bool is_born_tainted;
};

static void take_secret(struct plan *plan, struct words *words, const char *path)
{
    struct secret *secret = add_secret(plan, "--secret", path);
    words->category = add_category(plan, secret->path);
    secret->levels.in[words->category] = 3;
}

static void take_report(struct plan *plan, const struct words *words, const char *path)
{
    struct report *report = add_report(plan, "--report", path);
    if (words->category >= 0) report->levels.in[words->category] = 3;
}

/* Errors that are shown need no file: so its label is a secret's. */
static void take_faults(struct plan *plan, const struct words *words, const char *path)
{
    if (words->category < 0) refuse("--faults: it stands after the --secret whose errors it has");
    add_faults(plan, "--faults", path)->levels.in[words->category] = 3;
}

static void take_passed(struct plan *plan, const char *name)
{
    if (!*name || strchr(name, '=')) refuse("--env: %s is no name", name);
    if (plan->passed_count == MOST_PASSED) refuse("at most %d names of the environment", MOST_PASSED);
    plan->passed[plan->passed_count++] = name;
}

static bool takes_value(struct plan *plan, struct words *words, const char *word, const char *value)
{
    static const char *const NAMES[] = {"--secret", "--report", "--public", "--audit", "--policy", "--env", "--faults"};
    const size_t count = sizeof NAMES / sizeof *NAMES;
    size_t at = 0;
    while (at < count && strcmp(word, NAMES[at])) at++;
    if (at == count) return false;
    if (!value || !strcmp(value, "--")) refuse("%s wants a value", word);
    if (at == 0) take_secret(plan, words, value);
    if (at == 1) take_report(plan, words, value);
    if (at == 2) add_open(plan, word, value);
    if (at == 3) plan->dump = value;
    if (at == 4) read_policy(value, plan);
    if (at == 5) take_passed(plan, value);
    if (at == 6) take_faults(plan, words, value);
    return true;
}

/* The label of a program that has read all secrets. */
static void taint(struct plan *plan)
{
    for (int i = 0; i < plan->secret_count; i++)
        for (int j = 0; j < MOST_CATEGORIES; j++)
            if (plan->secrets[i].levels.in[j] > plan->born.in[j]) plan->born.in[j] = plan->secrets[i].levels.in[j];
}

void read_words(int count, char **texts, struct plan *plan)
{
    struct words words = {-1, false};
    int at = 1;
    if (count == 2 && (!strcmp(texts[1], "--help") || !strcmp(texts[1], "-h"))) print_help();
    if (count == 2 && (!strcmp(texts[1], "--version") || !strcmp(texts[1], "-V"))) {
        puts("confine " HISTAR_VERSION);
        exit(fflush(stdout) ? ENDS_FAULT : 0);
    }
    plan->born = plan->clearance = plain();
    for (; at < count && strcmp(texts[at], "--"); at++) {
        if (!strcmp(texts[at], "--born-tainted")) words.is_born_tainted = true;
        else if (!strcmp(texts[at], "--explain")) plan->explains = true;
        else if (takes_value(plan, &words, texts[at], texts[at + 1])) at++;
        else refuse("%s is no word of confine", texts[at]);
    }
    if (at + 1 >= count) refuse("no program: it stands after --");
    plan->program = texts + at + 1;
    if (words.is_born_tainted) taint(plan);
}
