/* Gates: programs outside, each trusted with what its categories keep. A program that may know more than it may tell writes
 * to a gate; what the gate makes of it goes where the gate's label allows.
 *
 * Who opens a gate is given a socket, whose other end the broker alone has: so nothing can be read back there, nor by opening it anew,
 * but the answer of a gate that answers. That is a write by a thread which has entered the gate as the writer did, and a read by who
 * opened it.
 * What is written there is decided as a write of the writer's, and goes to a run of the gate's program that is the writer's own. A
 * program that is started with such a socket as its output has a way and a run of its own.
 *
 * The kernel decides whether a thread at the program's label may enter the gate and write behind it. The gate's program runs as
 * the user, without a sandbox. It has as standard input what the program writes, and nothing else from it. */
#define _GNU_SOURCE
#include "confine.h"
#include <errno.h>
#include <fcntl.h>
#include <signal.h>
#include <stdlib.h>
#include <string.h>
#include <sys/prctl.h>
#include <sys/socket.h>
#include <sys/syscall.h>
#include <sys/wait.h>
#include <unistd.h>

/* A start of a gate's program, until it has ended. */
struct run {
    struct run *next;
    unsigned long by; /* whose it is */
    int gate, place;
    int process; /* what tells that it has ended; -1 once it has */
    pid_t pid;
    struct stream answer;
};

/* What was handed out. Its gate's program starts once something is written to it, or it ends unused. */
struct way {
    struct way *next;
    unsigned long number, by;
    int pin; /* what was handed out, by O_PATH: so its number is given to nothing else */
    bool is_begun, is_lent;
    struct stream stream;
};

static struct run *runs;
static struct way *ways;

/* The gate's program prints to its report or as its answer, its errors too, or as confine itself. Whether it can. */
static bool print_as(const struct plan *plan, const struct gate *gate, int answer)
{
    int output = gate->answers ? answer : gate->report == SHOWN ? 1 : staged_of(&plan->reports[gate->report]);
    return output >= 0 && (output == 1 || (dup2(output, 1) == 1 && dup2(output, 2) == 2));
}

_Noreturn static void become_gate(const struct plan *plan, const struct gate *gate, int input, int answer)
{
    char *words[MOST_WORDS + 1] = {NULL};
    sigset_t none;
    sigemptyset(&none);
    for (int i = 0; i < gate->word_count; i++) words[i] = (char *)gate->words[i];
    prctl(PR_SET_PDEATHSIG, SIGKILL, 0, 0, 0);
    lower_files();
    if (!print_as(plan, gate, answer) || dup2(input, 0) < 0 || close_range(3, ~0U, 0)) _exit(ENDS_FAULT);
    signal(SIGPIPE, SIG_DFL);
    sigprocmask(SIG_SETMASK, &none, NULL);
    execvp(words[0], words);
    dprintf(2, "confine: %s: %s\n", words[0], strerror(errno));
    _exit(errno == ENOENT ? 127 : 126);
}

/* That a gate failed is told where what it makes goes: here, or in its report. */
static void tell_failed(struct plan *plan, const struct run *run)
{
    const struct gate *gate = &plan->gates[run->gate];
    int file = shows_gate(plan, run->gate, &run->answer.given) ? 2 : gate->report == SHOWN ? -1 : staged_of(&plan->reports[gate->report]);
    if (file < 0) return;
    dprintf(file, "confine: the gate %s failed\n", gate->name);
    if (file != 2) close(file);
}

/* What a gate answers goes back by a way, if that is still there. Whether that can be. */
static bool answer_by(struct plan *plan, struct run *run, unsigned long number, int output)
{
    struct stream *answer = &run->answer;
    const struct way *way = ways;
    while (way && way->number != number) way = way->next;
    if (!way || way->stream.from < 0 || fcntl(output, F_SETFL, O_NONBLOCK)) return false;
    answer->plan = plan;
    answer->kind = ANSWERED;
    answer->gate = run->gate;
    answer->reader = way->stream.writer;
    answer->forth = way->stream.forth;
    answer->from = output;
    return (answer->to = fcntl(way->stream.from, F_DUPFD_CLOEXEC, 3)) >= 0;
}

int begin_gate(struct plan *plan, const struct family *family, int i, unsigned long way)
{
    struct run *run = calloc(1, sizeof *run);
    int ends[4] = {-1, -1, -1, -1}, report = plan->gates[i].report;
    bool answers = plan->gates[i].answers;
    if (run) *run = (struct run){.by = family->number, .gate = i, .place = -1, .process = -1, .answer = no_stream()};
    if (!run || (report != SHOWN && !stage(&plan->reports[report])) || pipe2(ends, O_CLOEXEC) || fcntl(ends[1], F_SETFL, O_NONBLOCK)
        || (answers && (pipe2(ends + 2, O_CLOEXEC) || !answer_by(plan, run, way, ends[2]))) || (run->pid = fork()) < 0) {
        if (run) run->answer.from = -1, drop_stream(&run->answer);
        free(run);
        for (int j = 0; j < 4; j++) close(ends[j]);
        errno = EAGAIN;
        return -1;
    }
    if (!run->pid) become_gate(plan, &plan->gates[i], ends[0], ends[3]);
    close(ends[0]), close(ends[3]);
    run->answer.given = family->levels;
    run->process = (int)syscall(SYS_pidfd_open, run->pid, 0);
    run->next = runs;
    runs = run;
    return ends[1];
}

/* How many ways and runs a family has: the bound is its own, so that it learns nothing of others. */
static int held_by(const struct family *family)
{
    int count = 0;
    for (const struct run *run = runs; run; run = run->next) count += run->by == family->number;
    for (const struct way *way = ways; way; way = way->next) count += way->by == family->number && !way->is_begun;
    return count;
}

int open_way(struct plan *plan, const struct family *family, int gate)
{
    static unsigned long numbers;
    struct way *way = held_by(family) < MOST_RUNS ? calloc(1, sizeof *way) : NULL;
    int ends[2] = {-1, -1};
    if (!way || socketpair(AF_UNIX, SOCK_STREAM | SOCK_CLOEXEC, 0, ends) || (!plan->gates[gate].answers && shutdown(ends[0], SHUT_WR)) || (way->pin = pin(ends[1])) < 0) {
        free(way);
        close(ends[0]), close(ends[1]);
        errno = EAGAIN;
        return -1;
    }
    way->number = ++numbers;
    way->by = family->number;
    way->stream = no_stream();
    way->stream.plan = plan;
    way->stream.kind = TO_GATE;
    way->stream.gate = gate;
    way->stream.writer = family;
    way->stream.forth = behind_gate(plan, gate, family);
    way->stream.from = ends[0];
    way->next = ways;
    ways = way;
    return ends[1];
}

int lend_way(const struct family *family, int file, unsigned long *number)
{
    for (struct way *way = ways; way; way = way->next)
        if (way->by == family->number && is_same(way->pin, file)) return way->is_lent = true, *number = way->number, way->stream.gate;
    return -1;
}

bool has_ways(const struct family *family)
{
    for (const struct way *way = ways; way; way = way->next)
        if (way->by == family->number && way->stream.from >= 0) return true;
    return false;
}

void await_gates(void)
{
    for (struct way *way = ways; way; way = way->next) await_stream(&way->stream);
    for (struct run *run = runs; run; run = run->next) {
        run->place = await(run->process, POLLIN);
        await_stream(&run->answer);
    }
}

/* Begins what leads on from a way, once something was written to it. One that ends unused, and was not lent, is one of nothing. */
static void begin_way(struct plan *plan, struct way *way)
{
    char byte;
    ssize_t count = recv(way->stream.from, &byte, 1, MSG_PEEK | MSG_DONTWAIT);
    if (count < 0 && (errno == EAGAIN || errno == EINTR)) return;
    way->is_begun = true;
    if (count > 0 || !way->is_lent) way->stream.to = begin_gate(plan, way->stream.writer, way->stream.gate, way->number);
}

static void serve_way(struct plan *plan, struct way *way)
{
    if (!way->is_begun && came(way->stream.from_place)) begin_way(plan, way);
    if (way->is_begun) serve_stream(&way->stream);
}

static void take_away_way(struct way **at)
{
    struct way *way = *at;
    *at = way->next;
    close(way->pin);
    drop_stream(&way->stream);
    free(way);
}

static void end_run(struct plan *plan, struct run *run)
{
    int status;
    if (waitpid(run->pid, &status, WNOHANG) != run->pid) return;
    if (!WIFEXITED(status) || WEXITSTATUS(status)) tell_failed(plan, run);
    close(run->process);
    run->process = -1;
}

static void take_away_run(struct run **at)
{
    struct run *run = *at;
    *at = run->next;
    drop_stream(&run->answer);
    free(run);
}

void end_answers(const struct family *family)
{
    for (struct run *run = runs; run; run = run->next)
        if (run->answer.reader == family) drop_stream(&run->answer);
}

void serve_gates(struct plan *plan)
{
    for (struct way **at = &ways; *at;) {
        serve_way(plan, *at);
        if ((*at)->is_begun && (*at)->stream.from < 0 && (*at)->stream.to < 0) take_away_way(at);
        else at = &(*at)->next;
    }
    for (struct run **at = &runs; *at;) {
        struct run *run = *at;
        serve_stream(&run->answer);
        if (came(run->place)) end_run(plan, run);
        if (run->process < 0 && run->answer.from < 0 && run->answer.to < 0) take_away_run(at);
        else at = &run->next;
    }
}

void take_ways_before(struct plan *plan, const struct family *family)
{
    for (struct way *way = ways; way; way = way->next) {
        if (way->by != family->number) continue;
        if (!way->is_begun) begin_way(plan, way);
        if (way->is_begun) take_before(&way->stream);
    }
}

bool are_gates_done(void) { return !runs && !ways; }

void end_input_of_gates(void)
{
    while (ways) take_away_way(&ways);
    kill_gates(SIGTERM);
}

void kill_gates(int signal)
{
    for (struct run *run = runs; run; run = run->next) kill(run->pid, signal);
}
