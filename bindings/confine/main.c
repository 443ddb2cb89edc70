/* confine: a program runs over secrets that it may read and can't send on. confine.h says how. */
#define _GNU_SOURCE
#include "confine.h"
#include <errno.h>
#include <fcntl.h>
#include <signal.h>
#include <stdlib.h>
#include <string.h>
#include <unistd.h>

ENDS void fail(int status, const char *what)
{
    fprintf(stderr, "confine: %s: %s\n", what, strerror(errno));
    exit(status);
}

/* What is typed at a terminal is not for a program that has secrets. */
static bool has_input(const struct plan *plan)
{
    if (fcntl(0, F_GETFD) < 0) return false;
    if (!isatty(0) || !plan->secret_count) return true;
    fputs("confine: what is typed here is not given to a program that has secrets\n", stderr);
    return false;
}

/* Where the program begins: where confine was called, if that is a public folder or one of the program's own; else NULL, the root. */
static const char *begins_in(const struct plan *plan, char *here)
{
    if (!getcwd(here, PATH_MAX)) return NULL;
    for (int i = 0; i < plan->folder_count; i++)
        if (plan->folders[i].is_whole && !strcmp(here, plan->folders[i].path)) return here;
    for (int i = 0; i < plan->open_count; i++)
        if (is_below(here, plan->open[i])) return here;
    return NULL;
}

static int own_end(int file, int access)
{
    int made = unblocked(file, access);
    return made >= 0 ? made : fcntl(file, F_DUPFD_CLOEXEC, 3);
}

/* What the program is given and prints. */
static void make_own_streams(struct plan *plan, struct program *program)
{
    const struct world *world = &program->family->world;
    for (int i = 0; i < STREAMS; i++) {
        struct stream *stream = &program->streams[i];
        stream->plan = plan;
        stream->kind = i ? PRINTED : TYPED;
        stream->is_errors = i == 2;
        stream->from = i ? world->printed[i - 1] : world->input < 0 ? -1 : own_end(0, O_RDONLY);
        stream->to = i ? own_end(i, O_WRONLY) : world->input;
        if (i) stream->writer = program->family;
        else stream->reader = program->family;
    }
    program->stage = RUNNING;
}

static bool is_run(const char *word)
{
    const char *last = strrchr(word, '/');
    return !strcmp(last ? last + 1 : word, RUN_NAME);
}

int main(int count, char **words)
{
    static struct plan plan;
    static struct family family;
    struct program *program;
    struct begun begun = {NULL, NULL, NULL, false};
    char here[PATH_MAX];
    int status;
    if (count && is_run(words[0])) return ask_run(count, words);
    signal(SIGPIPE, SIG_IGN);
    read_words(count, words, &plan);
    find_reports(&plan);
    find_folders(&plan);
    begun.words = plan.program;
    begun.environment = environment_of(&plan);
    begun.folder = begins_in(&plan, here);
    begun.has_input = has_input(&plan);
    raise_files();
    if (!begin_start(&plan, &begun, &family.world)) unable("a start");
    keep_apart(&plan);
    keep_old(&plan);
    go_on(&family.world);
    make_objects(&plan);
    if (!is_born(&plan, &family)) refuse("the program's label is above its clearance");
    if ((status = end_start(&family.world))) return status;
    if (!(program = add_program(NULL, &family)) || !begin_answers(&plan, &family)) fail(ENDS_FAULT, "the program's reports");
    make_own_streams(&plan, program);
    status = serve(&plan, program);
    if (!write_dump(&plan)) fail(ENDS_FAULT, plan.dump);
    return status;
}
