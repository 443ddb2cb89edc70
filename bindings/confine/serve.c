/* The broker's rounds: in each it waits for what its programs, gates and streams have for it, and serves them.
 *
 * Once a program is at another label than the one that confine was started for, rounds begin at fixed times, one after each turn. First
 * come all programs whose output may be shown, then, in one turn of some, the others, of which none has more than what is left of the
 * turn: so how much those have the broker do is hardly seen in how long it takes to answer the first. */
#define _GNU_SOURCE
#include "confine.h"
#include <errno.h>
#include <signal.h>
#include <stdlib.h>
#include <string.h>
#include <sys/prctl.h>
#include <sys/signalfd.h>
#include <sys/wait.h>
#include <time.h>
#include <unistd.h>

/* A turn, and how much of it those have whose output is withheld; how long what is asked to end may take, and what does not end then
 * until it is given up. In nanoseconds. */
static const int64_t TURN = 500000, HIDDEN_TURN = 250000, GRACE = 600000000, LAST_GRACE = 850000000;

enum { HIDDEN_EVERY = 4 };

static bool has_turns;
static int64_t next_turn;
static unsigned turns; /* so many were there */

static bool is_turn_of_hidden(void) { return !has_turns || turns % HIDDEN_EVERY == 0; }

static int64_t now(void)
{
    struct timespec time;
    clock_gettime(CLOCK_MONOTONIC, &time);
    return time.tv_sec * INT64_C(1000000000) + time.tv_nsec;
}

/* Whether a program is at another label than the first: from then on there are turns, for good. */
static void look_for_turns(void)
{
    for (const struct program *it = first_program(); it && !has_turns; it = it->next)
        if (it->stage != ASKED && memcmp(&it->family->levels, &first_program()->family->levels, sizeof it->family->levels)) has_turns = true;
    if (has_turns && !next_turn) prctl(PR_SET_TIMERSLACK, 1, 0, 0, 0), next_turn = now();
    for (struct program *it = first_program(); it && has_turns; it = it->next)
        if (it->stage == RUNNING && !it->family->prints && !it->is_slow) it->is_slow = true, wake_at_once(it->family->world.listener, false);
}

static void wait_for_turn(void)
{
    struct timespec time;
    if (!has_turns) return;
    for (int64_t at = now(); next_turn <= at;) next_turn += (1 + (at - next_turn) / TURN) * TURN;
    time = (struct timespec){next_turn / 1000000000, next_turn % 1000000000};
    while (clock_nanosleep(CLOCK_MONOTONIC, TIMER_ABSTIME, &time, NULL) == EINTR) {}
}

/* What tells that confine is asked to end. */
static int ends_of(void)
{
    sigset_t ends;
    sigemptyset(&ends);
    sigaddset(&ends, SIGINT);
    sigaddset(&ends, SIGTERM);
    sigaddset(&ends, SIGHUP);
    sigprocmask(SIG_BLOCK, &ends, NULL);
    return signalfd(-1, &ends, SFD_CLOEXEC | SFD_NONBLOCK);
}

static void serve_all_of(struct plan *plan, bool prints, int64_t end)
{
    static unsigned turn;
    static struct program *all[512];
    unsigned count = 0;
    for (struct program *it = first_program(); it && count < sizeof all / sizeof *all; it = it->next)
        if (it->stage != WAITING && (it->family->prints == prints || it->stage == ASKED)) all[count++] = it;
    for (unsigned i = 0; i < count && (!end || now() < end); i++) serve_program(plan, all[end ? turn++ % count : i]);
}

/* One round. The time that it may take, in milliseconds, or -1. */
static int begin(struct plan *plan, int ends, int *end_place)
{
    begin_round();
    *end_place = await(ends, POLLIN);
    await_programs(plan);
    await_gates();
    return is_turn_of_hidden() ? end_waits() : 2;
}

static void serve_round(struct plan *plan)
{
    serve_all_of(plan, true, 0);
    if (is_turn_of_hidden()) serve_all_of(plan, false, has_turns ? next_turn + HIDDEN_TURN : 0);
    turns++;
    serve_gates(plan);
    put_away_programs();
    begin_waiting(plan);
    reap_ended();
    look_for_turns();
}

/* Ends all that is left of gates' programs, which have become this one's children. */
static void kill_children(void)
{
    char path[64];
    FILE *list;
    int child;
    snprintf(path, sizeof path, "/proc/self/task/%d/children", getpid());
    if (!(list = fopen(path, "re"))) return;
    while (fscanf(list, "%d", &child) == 1) kill(child, SIGKILL);
    fclose(list);
}

/* How far an end is that was asked for. */
struct ending {
    int signal; /* 0 where none was asked for */
    int64_t at;
    bool is_hard;
};

/* Goes on with an end that was asked for. Whether it is to be waited for. */
static bool goes_on(struct ending *ending)
{
    int64_t past = now() - ending->at;
    if (!ending->signal) return true;
    if (past > GRACE && !ending->is_hard) {
        ending->is_hard = true;
        kill_gates(SIGKILL);
        kill_children();
    }
    return past < LAST_GRACE;
}

static void begin_end(struct ending *ending, int ends)
{
    struct signalfd_siginfo told;
    if (read(ends, &told, sizeof told) != sizeof told || ending->signal) return;
    ending->signal = (int)told.ssi_signo;
    ending->at = now();
    kill_programs();
    end_input_of_gates();
}

/* Serves all until it has ended. Gives the signal that ended it before, or 0. */
static int serve_all(struct plan *plan)
{
    struct ending ending = {0, 0, false};
    int ends = ends_of(), end_place;
    prctl(PR_SET_CHILD_SUBREAPER, 1, 0, 0, 0);
    while (!(are_programs_done() && are_gates_done()) && goes_on(&ending)) {
        int soon = begin(plan, ends, &end_place);
        if (!wait_round(ending.signal ? 20 : soon) && errno != EINTR) break;
        if (has_turns) {
            wait_for_turn();
            begin(plan, ends, &end_place);
            if (!wait_round(0)) continue;
        }
        if (came(end_place)) begin_end(&ending, ends);
        serve_round(plan);
    }
    if (ending.signal) kill_gates(SIGKILL), kill_children();
    close(ends);
    return ending.signal;
}

int serve(struct plan *plan, struct program *program)
{
    int ended_by = serve_all(plan), status = status_of(program);
    bool prints = program->family->prints, are_laid;
    end_programs(plan);
    are_laid = lay_reports(plan);
    are_laid = lay_faults(plan, prints) && are_laid;
    tell_refused(plan, prints);
    if (ended_by) return 128 + ended_by;
    if (!prints) return 0;
    if (!are_laid) return ENDS_FAULT;
    return status;
}
