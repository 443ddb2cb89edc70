/* The programs of a confine: the one that it was started for, and those that programs start at a label (spawn.c). Each has a thread
 * of the kernel and a world, and goes from asked for to ended without the broker ever waiting for it.
 *
 * Who may not read what a program writes is told of its end at once; whatever it does then is told to nobody who may not know it. */
#define _GNU_SOURCE
#include "confine.h"
#include <errno.h>
#include <fcntl.h>
#include <stdlib.h>
#include <string.h>
#include <sys/socket.h>
#include <sys/wait.h>
#include <unistd.h>

static struct program *programs, **last = &programs;
static bool is_withheld; /* something that a program printed got nowhere */

struct program *first_program(void) { return programs; }

struct program *add_program(const struct family *by, struct family *family)
{
    static unsigned long numbers;
    struct program *program = calloc(1, sizeof *program);
    if (!program) return NULL;
    program->by = by;
    program->family = family;
    program->socket = program->socket_place = program->own_place = program->call_place = -1;
    for (int i = 0; i < STREAMS; i++) {
        program->streams[i] = no_stream();
        program->pins[i] = program->gates[i] = -1;
    }
    family->number = ++numbers;
    *last = program;
    last = &program->next;
    return program;
}

void tell_end(struct program *program, int status, const char *line)
{
    char text[256];
    if (program->socket < 0) return;
    snprintf(text, sizeof text, "%d%s%s", status, *line ? " " : "", line);
    if (send(program->socket, text, strlen(text), MSG_NOSIGNAL | MSG_DONTWAIT) < 0) {}
    close(program->socket);
    program->socket = -1;
}

void take_away(struct program *program)
{
    struct program **at = &programs;
    while (*at != program) at = &(*at)->next;
    *at = program->next;
    if (last == &program->next) last = at;
    for (int i = 0; i < STREAMS; i++) {
        struct stream *stream = &program->streams[i];
        is_withheld = is_withheld || (program->by && i && (stream->is_dropped || stream->begin < stream->count));
        drop_stream(stream);
        if (program->pins[i] >= 0) close(program->pins[i]);
    }
    if (program->socket >= 0) close(program->socket);
    if (program->in.id) forget(program->in);
    if (program->out.id) forget(program->out);
    drop_request(program->request);
    if (program->by) free(program->family);
    free(program);
}

/* Whether who asked for a program may know what it does. */
static bool is_known(const struct program *program)
{
    return writes_between(program->family, program->out) && reads_between(program->by, program->out);
}

bool is_running(const struct program *program) { return program->stage == STARTING || program->stage == RUNNING || program->stage == ENDING; }

/* How many programs run that are hidden from who asked for them, or how many wait. */
static int count_hidden(bool running)
{
    int count = 0;
    for (const struct program *it = programs; it; it = it->next) count += it->is_hidden && (running ? is_running(it) : it->stage == WAITING);
    return count;
}

void kill_program(struct program *program)
{
    int none = -1;
    if (program->stage == STARTING || program->stage == RUNNING)
        if (send(program->family->world.keeper_socket, &none, sizeof none, MSG_NOSIGNAL | MSG_DONTWAIT) < 0) {}
    program->is_killed = true;
}

/* A program that who asked may not know any more is hidden, and its end is told. One too many is ended: that is seen by nobody who
 * would learn from it how many there are. */
void mask(struct program *program)
{
    if (!program->by || !program->out.id || program->is_hidden || program->stage == ENDED || is_known(program)) return;
    program->is_hidden = true;
    tell_end(program, 0, "");
    if (count_hidden(true) <= MOST_HIDDEN && count_hidden(false) <= MOST_QUEUED) return;
    kill_program(program);
    is_withheld = true;
}

/* Calls this for each stream that a family writes or reads. */
static void each_stream(const struct family *family, void (*call)(struct stream *stream, const struct family *family))
{
    for (struct program *it = programs; it; it = it->next)
        for (int i = 0; i < STREAMS; i++)
            if (it->streams[i].writer == family || it->streams[i].reader == family) call(&it->streams[i], family);
}

static void take_if_writer(struct stream *stream, const struct family *family)
{
    if (stream->writer == family) take_before(stream);
}

static void give_if_reader(struct stream *stream, const struct family *family)
{
    if (stream->reader == family) give(stream);
}

static void settle_one(struct stream *stream, const struct family *family)
{
    (void)family;
    settle(stream);
}

void before_rise(struct plan *plan, const struct family *family)
{
    each_stream(family, give_if_reader);
    each_stream(family, take_if_writer);
    take_ways_before(plan, family);
}

void after_rise(const struct family *family)
{
    each_stream(family, settle_one);
    for (struct program *it = programs; it; it = it->next)
        if (it->family == family || it->by == family) mask(it);
}

/* A family is at its end: what it read is read no more, and what it wrote is all there. */
static void end_of(struct stream *stream, const struct family *family)
{
    if (stream->writer == family) stream->writer = NULL;
    if (stream->reader != family) return;
    if (!stream->is_held) end_reader(stream);
    stream->reader = NULL;
}

/* A program has ended: its reports are kept. */
static void finish(struct plan *plan, struct program *program)
{
    struct family *family = program->family;
    mask(program);
    each_stream(family, end_of);
    leave_reports(plan, family);
    end_bringer(family);
    end_answers(family);
    forget_answers(family);
    if (program->by) forget(program->in);
    program->in = HISTAR_NOTHING;
    close_world(&family->world);
    forget(family->thread);
    program->stage = ENDED;
}

/* Whether a program has nothing left that the broker would have to do before it can end. */
static bool is_silent(const struct program *program)
{
    return program->family->world.listener < 0 && program->streams[1].from < 0 && program->streams[2].from < 0 && !has_ways(program->family);
}

static void end_if_silent(struct program *program)
{
    if (program->stage != RUNNING || !is_silent(program)) return;
    shutdown(program->family->world.keeper_socket, SHUT_WR);
    program->stage = ENDING;
}

int status_of(const struct program *program)
{
    bool is_lost = program->streams[1].is_lost || program->streams[2].is_lost;
    return program->status < 0 || (is_lost && !program->status) ? ENDS_FAULT : program->status;
}

/* The keeper tells the status once it has seen the program's end. */
static void serve_ending(struct plan *plan, struct program *program)
{
    const int size = sizeof program->status;
    if (program->stage != ENDING || !came(program->own_place)) return;
    if (recv(program->family->world.keeper_socket, &program->status, (size_t)size, MSG_DONTWAIT) != size) program->status = -1;
    note_end(plan, program->family, status_of(program));
    finish(plan, program);
}

/* Whether what it asked for holds one that asked for nothing yet, or has not ended: it stays until then. */
static bool has_own(const struct program *program)
{
    for (const struct program *it = programs; it; it = it->next)
        if (it->by == program->family) return true;
    return false;
}

/* Whether a stream of what was printed has come where it goes, or goes nowhere. */
static bool is_given(const struct stream *stream) { return stream->to < 0 || stream->begin == stream->count || stream->is_held; }

static bool is_done(const struct program *program) { return program->stage == ENDED && is_given(&program->streams[1]) && is_given(&program->streams[2]); }

/* Whether a later program may have what this one printed: it leads to a pipe of who asked for it. */
static bool waits_for_reader(const struct program *program)
{
    for (int i = 1; i < STREAMS; i++) {
        const struct stream *stream = &program->streams[i];
        if (stream->is_held && stream->begin < stream->count && program->pins[i] >= 0) return true;
    }
    return false;
}

/* The oldest programs of a label whose text waits make room. */
static bool is_too_old(const struct program *program)
{
    int count = 0;
    for (const struct program *it = program; it; it = it->next)
        count += it->stage == ENDED && waits_for_reader(it) && !memcmp(&it->family->levels, &program->family->levels, sizeof it->family->levels);
    return count > MOST_HELD;
}

static bool may_go(const struct program *program)
{
    if (!program->by || program->stage != ENDED || !is_done(program) || has_own(program) || program->streams[0].from >= 0) return false;
    return !waits_for_reader(program) || is_too_old(program);
}

bool are_most_made(void)
{
    int count = 0;
    for (const struct program *it = programs; it; it = it->next) count += it->out.id != 0;
    return count >= MOST_MADE;
}

/* Whether a family may have one more program started: its own are counted that it may know of. (One that was itself started does not
 * wait for what may wait for it.) */
static bool may_ask(const struct family *by)
{
    int count = 0;
    for (const struct program *it = programs; it; it = it->next) count += it->by == by && it->stage != ASKED && it->stage != ENDED && !it->is_hidden;
    return count < MOST_SHOWN && (by != programs->family || !are_most_made());
}

static void await_program(struct plan *plan, struct program *program)
{
    struct world *world = &program->family->world;
    bool calls;
    end_if_silent(program);
    calls = program->stage == RUNNING;
    program->is_served = false;
    program->socket_place = program->stage == ASKED && !may_ask(program->by) ? -1 : await(program->socket, program->stage == ASKED ? POLLIN : 0);
    program->own_place = await(program->stage == STARTING ? world->program_socket : program->stage == ENDING ? world->keeper_socket : -1, POLLIN);
    program->call_place = calls ? await(world->listener, POLLIN) : -1;
    for (int i = 0; i < STREAMS; i++) await_stream(&program->streams[i]);
    if (calls) await_doors(plan, world);
}

void await_programs(struct plan *plan)
{
    for (struct program *it = programs; it; it = it->next) await_program(plan, it);
}

/* Who asked and ends before it was told of an end wants none of it any more, where the program may know that. */
static void end_by_client(struct program *program)
{
    if (writes_between(program->by, program->in) && reads_between(program->family, program->in)) kill_program(program);
    close(program->socket);
    program->socket = -1;
}

/* Answers what a program calls, up to so many calls. */
static void answer_calls(struct plan *plan, struct program *program)
{
    struct world *world = &program->family->world;
    answer_doors(plan, program->family);
    if (came(program->call_place) & POLLIN) {
        answer_call(plan, program->family);
        for (int i = 1; program->family->prints && i < MOST_CALLS && came_now(world->listener, POLLIN) & POLLIN; i++) answer_call(plan, program->family);
    } else if (came(program->call_place)) {
        close(world->listener);
        world->listener = -1;
    }
}

void serve_program(struct plan *plan, struct program *program)
{
    if (program->is_served) return;
    program->is_served = true;
    if (program->stage == ASKED) {
        if (came(program->socket_place)) take_request(plan, program);
        return;
    }
    if (came(program->socket_place)) end_by_client(program);
    if (program->stage == STARTING && came(program->own_place)) end_begun(plan, program);
    for (int i = 0; i < STREAMS; i++) serve_stream(&program->streams[i]);
    if (program->stage == RUNNING) answer_calls(plan, program);
    serve_ending(plan, program);
}

void put_away_programs(void)
{
    for (struct program *it = programs, *next; it; it = next) {
        next = it->next;
        if (is_done(it)) tell_end(it, status_of(it), "");
        if (may_go(it)) take_away(it);
    }
}

bool are_programs_done(void)
{
    for (const struct program *it = programs; it; it = it->next)
        if (it->stage != ASKED && !is_done(it)) return false;
    return true;
}

void kill_programs(void)
{
    for (struct program *it = programs, *next; it; it = next) {
        next = it->next;
        if (it->stage == ASKED || it->stage == WAITING) take_away(it);
        else kill_program(it);
    }
}

void end_programs(struct plan *plan)
{
    for (struct program *it = programs; it; it = it->next)
        if (it->stage == RUNNING || it->stage == ENDING) finish(plan, it);
    for (struct program *it = programs; it; it = it->next) tell_end(it, status_of(it), "");
    while (programs) take_away(programs);
    if (is_withheld) fputs("confine: some of what a program printed that was started at a label is withheld\n", stderr);
}
