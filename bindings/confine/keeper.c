/* The keeper, which has the program's world, and the program's start in it. */
#define _GNU_SOURCE
#include "confine.h"
#include <errno.h>
#include <fcntl.h>
#include <limits.h>
#include <sched.h>
#include <signal.h>
#include <stdlib.h>
#include <string.h>
#include <sys/prctl.h>
#include <sys/socket.h>
#include <sys/stat.h>
#include <sys/wait.h>
#include <unistd.h>

/* Where the first process finds what it goes on with. */
struct ends {
    int streams[3]; /* the program's standard streams */
    int program;    /* the program's socket to the broker */
    int proc;       /* the machine's /proc */
    int entered;    /* it is written to once the world is the root */
    const struct begun *begun;
};

/* Where the keeper is told to go on, until it was. */
static int go = -1;

/* (What this machine lacks is not said of a plan that is found wrong meanwhile.) */
ENDS void unable(const char *what)
{
    int error = errno;
    char byte;
    if (go >= 0 && read(go, &byte, 1) != 1) _exit(ENDS_UNABLE);
    errno = error;
    fprintf(stderr, "confine: this machine can't confine: %s: %s\n", what, strerror(errno));
    exit(ENDS_UNABLE);
}

void must(long result, const char *what)
{
    if (result < 0) unable(what);
}

static void write_file(const char *path, const char *text)
{
    int file = open(path, O_WRONLY | O_CLOEXEC);
    if (file < 0 || write(file, text, strlen(text)) < 0) unable(path);
    close(file);
}

/* The user has his own number inside, and no other. */
static void take_user(uid_t user, gid_t group)
{
    char map[64];
    write_file("/proc/self/setgroups", "deny");
    snprintf(map, sizeof map, "%u %u 1", user, user);
    write_file("/proc/self/uid_map", map);
    snprintf(map, sizeof map, "%u %u 1", group, group);
    write_file("/proc/self/gid_map", map);
}

/* The program finds what asks for a start among its programs. */
static void add_run(void)
{
    static char path[PATH_MAX];
    const char *own = getenv("PATH");
    if (!own || strstr(own, RUN_FOLDER)) return;
    snprintf(path, sizeof path, "%s:" RUN_FOLDER, own);
    setenv("PATH", path, 1);
}

/* Goes to the folder where the program begins. One of the asker's own folders is made, since the world has its own of these. */
static void go_to(const char *folder)
{
    char at[PATH_MAX];
    if (!folder || !chdir(folder)) return;
    snprintf(at, sizeof at, "%s", folder);
    for (char *end = at; (end = strchr(end + 1, '/'));) {
        *end = 0;
        mkdir(at, 0777);
        *end = '/';
    }
    mkdir(at, 0777);
    if (!chdir(folder)) return;
    dprintf(2, "confine: %s: %s\n", folder, strerror(errno));
    _exit(126);
}

/* The program. Its standard error is confine's own until nothing can fail any more but the program itself. 0 to 2 stay, and the
 * socket and the fourth go as the program begins. */
_Noreturn static void become_program(const struct ends *ends)
{
    const struct begun *begun = ends->begun;
    char may_go;
    int listener, error;
    raise_walls();
    NEEDS(dup2(ends->streams[0], 0));
    NEEDS(dup2(ends->streams[1], 1));
    NEEDS(error = fcntl(ends->streams[2], F_DUPFD, 5));
    NEEDS(dup2(ends->program, 3));
    NEEDS(dup2(error, 4));
    NEEDS(fcntl(3, F_SETFD, FD_CLOEXEC));
    NEEDS(close_range(5, ~0U, 0));
    setsid();
    signal(SIGPIPE, SIG_DFL);
    if ((listener = load_filter(doors_of() != NULL)) < 0) unable("seccomp's notifications");
    if (!send_descriptor(3, listener) || close(listener) || read(3, &may_go, 1) != 1) _exit(ENDS_FAULT);
    if (dup2(4, 2) < 0 || close(4)) _exit(ENDS_FAULT);
    environ = begun->environment;
    add_run();
    go_to(begun->folder);
    execvp(begun->words[0], begun->words);
    dprintf(2, "confine: %s: %s\n", begun->words[0], strerror(errno));
    _exit(errno == ENOENT ? 127 : 126);
}

static void close_all(const int *files, int count)
{
    for (int i = 0; i < count; i++) close(files[i]);
}

static int ended_with(int status)
{
    return WIFEXITED(status) ? WEXITSTATUS(status) : 128 + WTERMSIG(status);
}

/* The first process of the world: it ends as the program does, and with it all that the program left running. */
_Noreturn static void run_first(const struct ends *ends)
{
    int status;
    pid_t program, ended;
    NEEDS(prctl(PR_SET_PDEATHSIG, SIGKILL, 0, 0, 0));
    limit_numbers(ends->proc);
    add_proc();
    enter_world();
    NEEDS(program = fork());
    if (!program) become_program(ends);
    leave_machine();
    NEEDS(write(ends->entered, "e", 1));
    close_all(ends->streams, 3);
    close(ends->program);
    while ((ended = wait(&status)) != program)
        if (ended < 0 && errno != EINTR) _exit(ENDS_FAULT);
    _exit(ended_with(status));
}

/* Ends as the first process of the world did. */
_Noreturn static void exit_as(pid_t first)
{
    int status;
    _exit(waitpid(first, &status, 0) == first ? ended_with(status) : ENDS_FAULT);
}

/* Puts secrets into the world as the broker names them, until the program has ended, and tells its status. A name below
 * 0 ends the program. (The broker does not wait for the end of this process, in which the world's mounts go.) */
_Noreturn static void keep(const struct plan *plan, pid_t first, int socket)
{
    int asked, answer = 0, status;
    if (write(socket, &answer, sizeof answer) != sizeof answer) kill(first, SIGKILL);
    while (read(socket, &asked, sizeof asked) == sizeof asked) {
        if (asked < 0) {
            kill(first, SIGKILL);
            break;
        }
        answer = put_secret(plan, asked);
        if (write(socket, &answer, sizeof answer) != sizeof answer) break;
    }
    if (waitpid(first, &status, 0) != first) _exit(ENDS_FAULT);
    answer = ended_with(status);
    if (write(socket, &answer, sizeof answer) < 0) {}
    _exit(answer);
}

/* Hands the broker what it needs of the world: the program's own folders, and the doors, which stay with it alone. */
static bool send_world(const struct plan *plan, int socket)
{
    const int *doors = doors_of();
    int scratch = open_scratch(), count = doors ? plan->secret_count : 0;
    bool is_sent = send_descriptor(socket, scratch) && write(socket, &count, sizeof count) == sizeof count;
    for (int i = 0; i < count; i++) is_sent = is_sent && send_descriptor(socket, doors[i]) && !close(doors[i]);
    return is_sent && !close(scratch);
}

_Noreturn static void run_keeper(const struct plan *plan, struct ends *ends, int socket)
{
    uid_t user = getuid();
    gid_t group = getgid();
    int entered[2];
    char byte;
    pid_t first;
    go = socket;
    lower_files();
    setsid();
    NEEDS(ends->proc = open("/proc", O_PATH | O_DIRECTORY | O_CLOEXEC));
    NEEDS(pipe2(entered, O_CLOEXEC));
    ends->entered = entered[1];
    make_devices();
    NEEDS(unshare(CLONE_NEWUSER | CLONE_NEWNS | CLONE_NEWNET | CLONE_NEWIPC | CLONE_NEWPID | CLONE_NEWUTS));
    NEEDS(prctl(PR_SET_PDEATHSIG, SIGKILL, 0, 0, 0));
    take_user(user, group);
    if (read(socket, &byte, 1) != 1) _exit(ENDS_FAULT);
    go = -1;
    make_world(plan);
    if (!send_world(plan, socket)) _exit(ENDS_FAULT);
    NEEDS(first = fork());
    if (!first) {
        close(socket);
        run_first(ends);
    }
    close_all(ends->streams, 3);
    close_all((int[]){ends->program, ends->proc, ends->entered}, 3);
    if (read(entered[0], &byte, 1) == 1) NEEDS(chdir("/"));
    else exit_as(first);
    keep(plan, first, socket);
}

/* Closes all descriptors but the standard streams and these. */
static void keep_only(const int *files, int count)
{
    int next = 2;
    while (next < INT_MAX) {
        int file = next + 1;
        next = INT_MAX;
        for (int i = 0; i < count; i++)
            if (files[i] >= file && files[i] < next) next = files[i];
        if (next > file) close_range((unsigned)file, (unsigned)next - 1, 0);
    }
}

static void set(struct world *world, int input, const int *printed, int keeper, int program)
{
    world->keeper_socket = keeper;
    world->program_socket = program;
    world->listener = world->scratch = -1;
    world->input = input;
    world->printed[0] = printed[0];
    world->printed[1] = printed[1];
    for (int i = 0; i < MOST_SECRETS; i++) world->doors[i] = world->door_places[i] = -1;
    for (int i = 0; i < MOST_REPORTS; i++) world->placed[i] = -1;
}

bool begin_start(const struct plan *plan, const struct begun *begun, struct world *world)
{
    int all[10] = {-1, -1, -1, -1, -1, -1, -1, -1, -1, -1}, *in = all, *out = all + 2, *error = all + 4, *keeper = all + 6, *program = all + 8;
    if (pipe2(in, O_CLOEXEC) || pipe2(out, O_CLOEXEC) || pipe2(error, O_CLOEXEC) || socketpair(AF_UNIX, SOCK_STREAM | SOCK_CLOEXEC, 0, keeper)
        || socketpair(AF_UNIX, SOCK_STREAM | SOCK_CLOEXEC, 0, program) || fcntl(in[1], F_SETFL, O_NONBLOCK)
        || fcntl(out[0], F_SETFL, O_NONBLOCK) || fcntl(error[0], F_SETFL, O_NONBLOCK) || (world->keeper = fork()) < 0) {
        close_all(all, 10);
        return false;
    }
    if (!world->keeper) {
        struct ends ends = {{in[0], out[1], error[1]}, program[1], -1, -1, begun};
        keep_only((int[]){in[0], out[1], error[1], program[1], keeper[1]}, 5);
        run_keeper(plan, &ends, keeper[1]);
    }
    close_all((int[]){keeper[1], program[1], in[0], out[1], error[1]}, 5);
    if (!begun->has_input) close(in[1]), in[1] = -1;
    set(world, in[1], (int[]){out[0], error[0]}, keeper[0], program[0]);
    return true;
}

/* (A keeper that has ended already tells its status, or has none.) */
void go_on(const struct world *world)
{
    if (write(world->keeper_socket, "g", 1) < 0) {}
}

static bool receive_number(int socket, int *number) { return recv(socket, number, sizeof *number, MSG_WAITALL) == sizeof *number; }

/* Takes what the keeper hands over. Whether all came. */
static bool receive_world(struct world *world)
{
    int count = 0;
    if ((world->scratch = receive_descriptor(world->keeper_socket)) < 0) return false;
    if (!receive_number(world->keeper_socket, &count)) return false;
    for (int i = 0; i < count; i++)
        if ((world->doors[i] = receive_descriptor(world->keeper_socket)) < 0) return false;
    return true;
}

/* The processes that are to end, so that none is left as one that nobody waited for. */
static pid_t *ending;
static int ending_count;

void reap_ended(void)
{
    for (int i = ending_count; i-- > 0;)
        if (waitpid(ending[i], NULL, WNOHANG)) ending[i] = ending[--ending_count];
}

void note_ending(pid_t process)
{
    pid_t *more = realloc(ending, (size_t)(ending_count + 1) * sizeof *ending);
    if (!more) return;
    ending = more;
    ending[ending_count++] = process;
}

static void close_one(int *file)
{
    if (*file >= 0) close(*file);
    *file = -1;
}

void close_world(struct world *world)
{
    close_one(&world->keeper_socket);
    close_one(&world->program_socket);
    close_one(&world->listener);
    close_one(&world->scratch);
    for (int i = 0; i < MOST_SECRETS; i++) close_one(&world->doors[i]);
    for (int i = 0; i < MOST_REPORTS; i++) close_one(&world->placed[i]);
    note_ending(world->keeper);
}

/* The status of a keeper that told none. */
static int status_of_keeper(struct world *world)
{
    int status, told;
    bool is_told;
    shutdown(world->keeper_socket, SHUT_WR);
    is_told = receive_number(world->keeper_socket, &told);
    if (!is_told && waitpid(world->keeper, &status, 0) == world->keeper && WIFEXITED(status)) told = WEXITSTATUS(status);
    else if (!is_told) told = ENDS_FAULT;
    return told;
}

/* (One that has ended already makes none: its end is told later.) */
void begin_program(struct world *world, bool is_here)
{
    if (is_here && send(world->program_socket, "g", 1, MSG_NOSIGNAL) < 0) {}
    close_one(&world->program_socket);
}

int end_start(struct world *world)
{
    int status;
    bool is_there;
    if (receive_world(world)) world->listener = receive_descriptor(world->program_socket);
    is_there = receive_number(world->keeper_socket, &status);
    if (is_there && world->listener >= 0) return 0;
    close_one(&world->program_socket);
    status = status_of_keeper(world);
    close_one(&world->input);
    close_one(&world->printed[0]);
    close_one(&world->printed[1]);
    close_world(world);
    return status > 0 ? status : ENDS_FAULT;
}
