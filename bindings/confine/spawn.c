/* Programs that a program starts, each at a label and in a world of its own.
 *
 * A program asks by a socket, which it gets by opening /gate/run (requests.c has what it sends). Its thread makes the other's: the
 * kernel says whether it may, at that label. What the one prints the other reads where the kernel allows it: each piece is a write by
 * the one and a read by the other, and so is each end.
 *
 * So many run at each label. More wait for their place, and who may know of their end waits with them. Who may not know is told of an
 * end at once, so how many places there are at another label is seen by none.
 *
 * What a program prints that who asked may not read goes to one that reads the same pipe of the asker's, if that may read it. */
#define _GNU_SOURCE
#include "confine.h"
#include <errno.h>
#include <fcntl.h>
#include <stdlib.h>
#include <string.h>
#include <sys/socket.h>
#include <sys/stat.h>
#include <unistd.h>

/* How many sockets a family has by which it asks. The bound is its own. */
static int asked_by(const struct family *by)
{
    int count = 0;
    for (const struct program *it = first_program(); it; it = it->next) count += it->by == by && it->socket >= 0;
    return count;
}

int open_run(const struct family *by)
{
    int ends[2];
    struct family *family = asked_by(by) < MOST_RUNS ? calloc(1, sizeof *family) : NULL;
    struct program *program = family ? add_program(by, family) : NULL;
    errno = EAGAIN;
    if (!program) return free(family), -1;
    if (socketpair(AF_UNIX, SOCK_SEQPACKET | SOCK_CLOEXEC, 0, ends)) return take_away(program), errno = EAGAIN, -1;
    program->stage = ASKED;
    program->socket = ends[0];
    return ends[1];
}

static bool is_pipe(int file)
{
    struct stat found;
    return !fstat(file, &found) && S_ISFIFO(found.st_mode);
}

/* The three descriptors, so that none makes the broker wait. A pipe is kept by a descriptor that reads and writes nothing, so that
 * another program that has it is told by it. Whether all can be used. */
static bool ready(struct program *program)
{
    int *files = program->request->files;
    for (int i = 0; i < STREAMS; i++) {
        int made = -1;
        if (i) program->gates[i] = lend_way(program->by, files[i], &program->ways[i]);
        if (program->gates[i] < 0) {
            program->pins[i] = is_pipe(files[i]) ? pin(files[i]) : -1;
            made = unblocked(files[i], i ? O_WRONLY : O_RDONLY);
            if (made < 0 && errno != ENXIO) return false;
        }
        close(files[i]);
        files[i] = made;
    }
    return true;
}

/* Whether what the first prints that its asker may not read goes to the second. */
static bool may_join(const struct program *first, int i, const struct program *second)
{
    return first != second && first->by == second->by && first->out.id && is_same(first->pins[i], second->pins[0])
        && reads_between(second->family, first->out);
}

static void join(struct program *first, struct program *second)
{
    for (int i = 1; i < STREAMS; i++) {
        struct stream *from = &first->streams[i], *to = &second->streams[0];
        if (!from->is_held || to->to < 0 || !may_join(first, i, second)) continue;
        if ((from->to = fcntl(to->to, F_DUPFD_CLOEXEC, 3)) < 0) continue;
        from->reader = second->family;
        from->back = second->out;
        from->is_held = false;
        settle(from);
        end_if_empty(from);
    }
}

static void join_all(struct program *program)
{
    for (struct program *it = first_program(); it; it = it->next)
        if (it->by && (it->stage == RUNNING || it->stage == ENDING || it->stage == ENDED)) join(it, program), join(program, it);
}

/* What leads to a gate goes through it as this program. */
static void lead_to_gate(struct plan *plan, struct program *program, struct stream *stream, int i)
{
    stream->kind = TO_GATE;
    stream->gate = program->gates[i];
    stream->reader = NULL;
    stream->forth = behind_gate(plan, stream->gate, program->by);
    if (enters_gate(plan, program->family, stream->gate, program->by)) stream->to = begin_gate(plan, program->family, stream->gate, program->ways[i]);
}

/* Its streams, between the world that was made and the descriptors of who asked. */
static void make_streams(struct plan *plan, struct program *program)
{
    const struct world *world = &program->family->world;
    for (int i = 0; i < STREAMS; i++) {
        struct stream *stream = &program->streams[i];
        int file = program->request->files[i];
        *stream = no_stream();
        stream->plan = plan;
        stream->kind = BETWEEN;
        stream->is_errors = i == 2;
        stream->writer = i ? program->family : program->by;
        stream->reader = i ? program->by : program->family;
        stream->forth = i ? program->out : program->in;
        stream->back = i ? program->in : program->out;
        stream->from = i ? world->printed[i - 1] : file;
        stream->to = i ? file : world->input;
        if (program->gates[i] >= 0) lead_to_gate(plan, program, stream, i);
        else if (i && program->is_hidden) hold(stream);
        else settle(stream);
        if (stream->to < 0 && !stream->is_held) end_reader(stream);
        end_if_empty(stream);
        program->request->files[i] = -1;
    }
}

void end_begun(struct plan *plan, struct program *program)
{
    struct family *family = program->family;
    int status = end_start(&family->world);
    if (!status) {
        program->stage = RUNNING;
        if (!begin_answers(plan, family)) kill_program(program);
        make_streams(plan, program);
        join_all(program);
        drop_request(program->request);
        program->request = NULL;
        mask(program);
        return;
    }
    tell_end(program, ENDS_UNABLE, "it can't be started");
    forget(family->thread);
    program->stage = ENDED;
}

/* Whether a program that waits has a place. Of those that are hidden all are counted, and those at its label. */
static bool has_place(const struct program *program)
{
    int count = 0, hidden = 0;
    if (!program->is_hidden) return true;
    for (const struct program *it = first_program(); it; it = it->next) {
        if (!it->is_hidden || !is_running(it)) continue;
        count += !memcmp(&it->family->levels, &program->family->levels, sizeof it->family->levels);
        hidden++;
    }
    return count < MOST_AT_LABEL && hidden < MOST_HIDDEN && !are_most_made();
}

/* What a program is for the kernel that waited without it. */
static void make_again(struct plan *plan, struct program *program)
{
    if (program->out.id) return;
    spawn_again(plan, program->family);
    program->in = make_between(plan, &program->by_levels);
    program->out = make_between(plan, &program->family->levels);
}

static void let_go(struct program *program)
{
    forget(program->family->thread);
    forget(program->in);
    forget(program->out);
    program->in = program->out = HISTAR_NOTHING;
}

void begin_waiting(struct plan *plan)
{
    for (struct program *it = first_program(), *next; it; it = next) {
        next = it->next;
        if (it->stage != WAITING || !(it->is_killed || has_place(it))) continue;
        if (!it->is_killed) {
            make_again(plan, it);
            it->stage = STARTING;
            if (begin_start(plan, &it->request->begun, &it->family->world)) {
                go_on(&it->family->world);
                continue;
            }
            tell_end(it, ENDS_UNABLE, "it can't be started");
        }
        if (it->out.id) let_go(it);
        take_away(it);
    }
}

/* Makes what a program is for the kernel; a line says why not. */
static const char *make(struct plan *plan, struct program *program)
{
    static char line[128];
    const struct request *request = program->request;
    struct levels levels;
    uint32_t refusal;
    program->family->clearance = program->by->clearance;
    if (!read_label(plan, request->label, &levels)) return "no such label";
    if (*request->most && !read_label(plan, request->most, &program->family->clearance)) return "no such label";
    if (are_most_made()) return "no place";
    if (!ready(program)) return "a stream is no pipe, socket or file";
    if ((refusal = is_spawned(plan, program->by, &levels, program->family))) {
        snprintf(line, sizeof line, "refused %u %s", (unsigned)refusal, histar_refusal_name(refusal));
        return line;
    }
    program->by_levels = program->by->levels;
    program->in = make_between(plan, &program->by_levels);
    program->out = make_between(plan, &program->family->levels);
    return NULL;
}

void take_request(struct plan *plan, struct program *program)
{
    const char *line;
    if (!(program->request = read_request(program->socket))) {
        tell_end(program, ENDS_USAGE, "nothing was asked for");
        take_away(program);
    } else if ((line = make(plan, program))) {
        tell_end(program, ENDS_UNABLE, line);
        take_away(program);
    } else {
        program->stage = WAITING;
        mask(program);
        if (program->is_hidden) let_go(program);
    }
}
