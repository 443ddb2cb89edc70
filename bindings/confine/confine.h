/* confine: a program runs over secrets that it may read and can't send on.
 *
 * Three processes take part.
 * - The broker (main.c, serve.c, broker.c) has the label kernel. It is asked before the program looks into a secret (doors.c) or opens
 *   a file to write it, relays what the program prints (streams.c), and copies its reports out once all has ended.
 * - The keeper (keeper.c, world.c) makes the program's world, a mount namespace, and puts a secret into it when the broker
 *   says so.
 * - The program runs in that world under Landlock and limits (walls.c) and a filter of system calls (filter.c), with all
 *   that it starts.
 * Gates (gates.c) are programs outside that are trusted with a secret: what they make of it may go where the secret may not.
 *
 * At each moment the world holds just what the program may read at the label that it then has: the public folders, folders
 * of its own, and the secrets that it has opened so far. So a name that changes between the broker's look and the program's
 * use leads to nothing else. No file that may be written outside is in the world, and no descriptor of one: a report is
 * written in a folder of the program's own (reports.c). */
#ifndef CONFINE_H
#define CONFINE_H

#include "histar.h"
#include <limits.h>
#include <poll.h>
#include <stdbool.h>
#include <stdint.h>
#include <stdio.h>
#include <sys/types.h>

#ifdef __cplusplus
extern "C" {
#define ENDS [[noreturn]]
#else
#define ENDS _Noreturn
#endif

enum { MOST_CATEGORIES = 8, MOST_SECRETS = 8, MOST_REPORTS = 8, MOST_OPEN = 32, MOST_GATES = 8, MOST_WORDS = 16, MOST_RUNS = 16, MOST_PASSED = 64, MOST_FAULTS = 8, MOST_LINKS = 64 };

/* The longest name of a category that a policy gives, or of a gate, in bytes. */
enum { MOST_NAME = 31 };

/* How confine ends where no program's status is told. */
enum { ENDS_USAGE = 2, ENDS_UNABLE = 69, ENDS_FAULT = 70 };

/* A label: a level from 0 to 3 in each category of the plan. It is 1 in all others. */
struct levels {
    uint8_t in[MOST_CATEGORIES];
};

/* A category. Its name is what lines call it by: a secret's path where it was made for that secret alone. */
struct category {
    char name[PATH_MAX];
    histar_category category;
};

/* A folder that the program may read once its label has risen to the folder's. */
struct secret {
    char path[PATH_MAX];
    struct levels levels;
    histar_object object;
    bool is_refused; /* the program was refused it once */
};

/* A file that the program may write as long as its label is at most the file's. */
struct report {
    char path[PATH_MAX];
    struct levels levels;
    histar_object object;
    int file;        /* where it lies, by O_PATH */
    int staged;      /* what gates have printed for it, or all that goes into a file of faults, until the end; -1 where there is none */
    char *old;       /* what stood in it at the start, and how much; NULL where nothing did */
    size_t old_size;
    int folder;      /* which of the plan's folders it stands in */
    bool is_refused; /* the program was refused it once */
};

/* A folder of reports. In the world it is a folder of the program's own, or only the report in it is where other things of the
 * world stand there too. */
struct folder {
    char path[PATH_MAX];
    bool is_whole;
};

/* A gate: a program outside, which is trusted with what some categories keep. It reads what is written to /gate/NAME, and
 * what it prints goes to a report, to who opened it, or is shown. */
struct gate {
    char name[MOST_NAME + 1];
    char words[MOST_WORDS][PATH_MAX]; /* the program and its arguments */
    int word_count;
    bool owns[MOST_CATEGORIES];
    int report; /* SHOWN where it has none */
    bool answers;
    histar_object object;
    bool is_refused; /* the program was refused it once */
};

enum { SHOWN = -1 };

/* A link that a path of the plan goes through: the world has it too. */
struct link {
    char *path, *text, *real;
};

struct plan {
    struct category categories[MOST_CATEGORIES];
    struct secret secrets[MOST_SECRETS];
    struct report reports[MOST_REPORTS];
    struct folder folders[MOST_REPORTS];
    struct report faults[MOST_FAULTS]; /* where errors go that nobody is shown */
    struct gate gates[MOST_GATES];
    struct link links[MOST_LINKS];
    char open[MOST_OPEN][PATH_MAX]; /* folders that it may read at any label */
    int category_count, secret_count, report_count, faults_count, folder_count, gate_count, link_count, open_count;
    struct levels born, clearance; /* the program's label at its start, and the highest that it may have */
    const char *passed[MOST_PASSED]; /* names of the environment that the program is given too */
    int passed_count;
    bool explains;
    const char *dump; /* where the log's dump goes, or NULL */
    char **program;
};

/* What the broker has of a world. */
struct world {
    pid_t keeper;
    int keeper_socket; /* to the keeper: a secret's number; from it: an errno */
    int program_socket; /* to the program, until it has begun */
    int listener;      /* notifications of system calls */
    int input;         /* what the program reads of its standard input; -1 where it has none */
    int printed[2];    /* what the program prints: its standard output and its standard error */
    int scratch;       /* the folder of the program's own folders: /tmp is "tmp", and the plan's folder 0 is "0" */
    int doors[MOST_SECRETS]; /* where the broker is asked for a secret; -1 where it has no door */
    int door_places[MOST_SECRETS];
    int placed[MOST_REPORTS]; /* what stood for each report at first */
};

/* The program with all that it starts: one thread of the kernel, and one world. Its processes share pipes, signals and
 * memory, which nobody looks at, so what one of them has read all may have. */
struct family {
    histar_object thread;
    unsigned long number;            /* its own */
    struct levels levels, clearance; /* its label, and the highest that it may have */
    bool prints;                     /* what it prints may be shown */
    bool is_open[MOST_SECRETS];      /* it has the secret in its world */
    bool holds_report[MOST_REPORTS]; /* it was given the report to write, for good */
    bool holds_gate[MOST_GATES];     /* it was given a way to the gate, for good */
    histar_object answers[MOST_GATES]; /* what a gate answers it is written to, */
    histar_object lent[MOST_GATES];    /* and what is answered to who has lent it a way */
    off_t old[MOST_REPORTS];         /* so much of what stood in the report before is in its world */
    bool is_begun[MOST_REPORTS];     /* it opened the report before: what stands there is its own */
    bool adds[MOST_REPORTS];         /* it opened the report to add to it, */
    bool replaces[MOST_REPORTS];     /* not only to add to it, */
    bool empties[MOST_REPORTS];      /* or as an empty one */
    int bringer;                     /* what tells that much of reports is in its world; 0 where nothing was to be brought */
    struct world world;
};

/* ---- help.c ---- */

/* Prints how confine is used, and ends. */
ENDS void print_help(void);

/* ---- words.c ---- */

/* The plan that the words make. It ends with ENDS_USAGE and a line where they make none. */
void read_words(int count, char **words, struct plan *plan);

/* Ends with ENDS_USAGE and this line. */
ENDS void refuse(const char *form, ...);

/* A new category, by its place, in which all labels have 1 and the clearance 3. */
int add_category(struct plan *plan, const char *name);

/* What the plan gets more, with the label of a plain thing. The word is where it was asked for. */
struct secret *add_secret(struct plan *plan, const char *word, const char *path);
struct report *add_report(struct plan *plan, const char *word, const char *path);
struct report *add_faults(struct plan *plan, const char *word, const char *path);
void add_open(struct plan *plan, const char *word, const char *path);
struct gate *add_gate(struct plan *plan, const char *name);

/* ---- links.c ---- */

/* Notes each link that a path goes through. */
void note_links(struct plan *plan, const char *word, const char *path);

/* What a link of the plan leads to, by its path; NULL where that is none. */
const char *link_at(const struct plan *plan, const char *path);

/* ---- apart.c: what may not lie in what ---- */

/* Whether a path is a folder's or lies below it. */
bool is_below(const char *path, const char *folder);

/* Ends with ENDS_USAGE and a line where one thing of the plan would be reached by the name of another. */
void keep_apart(const struct plan *plan);

/* The folders that the plan's reports stand in. */
void find_folders(struct plan *plan);

/* ---- mounts.c ---- */

/* Whether a path lies in a folder, by whatever name that is reached too. */
bool is_placed_below(const char *path, const char *folder);

/* Whether something of a path, or that it lies in, is mounted below a folder. */
bool is_mounted_below(const char *path, const char *folder);

/* Where below a folder something is mounted, or NULL. */
const char *mounted_in(const char *folder);

/* ---- policy.cpp ---- */

/* Adds what a policy file says. It ends with ENDS_USAGE and a line where the file is none. */
void read_policy(const char *path, struct plan *plan);

/* ---- environment.c ---- */

/* The environment that the program is given. */
char **environment_of(const struct plan *plan);

/* ---- decisions.c: what the label kernel says ---- */

/* Makes an object for each thing outside. Where the plan explains, a line tells each one's id. */
void make_objects(struct plan *plan);

/* Makes a thread for the program, at the label of its birth. False where that is above its clearance. */
bool is_born(struct plan *plan, struct family *family);

/* Whether the program may read a secret: its label rises to the secret's, unless that passes its clearance, or it was given a
 * report or a gate that must not get it. */
bool opens_secret(struct plan *plan, struct family *family, int secret);

/* Whether the program may write a report. Its label rises to what the report observes. From then on it has it, for good. */
bool holds_report(struct plan *plan, struct family *family, int report);

/* Whether the program observes a report, and so what stood in it before. */
bool observes_report(const struct plan *plan, const struct family *family, int report);

/* The first file of faults that the program may write, by a thread that it makes at the file's label; -1 where there is none. */
int takes_faults(const struct plan *plan, const struct family *family);

/* Whether the program may write to a gate, whose answer another may get, or itself: a thread at its label enters the gate, and may
 * write what the gate writes. From then on the program has it, for good. */
bool enters_gate(struct plan *plan, struct family *family, int gate, const struct family *answered);

/* What a gate writes, whose answer a family gets. */
histar_object behind_gate(const struct plan *plan, int gate, const struct family *answered);

/* Whether a piece that a program of these levels writes to a gate gets through it to what the gate writes; and so whether the gate,
 * which has such pieces, may write there. */
bool passes_gate(const struct plan *plan, const struct levels *levels, int gate, histar_object behind);

/* Whether what a gate's program makes of pieces of these levels may be shown, also where it goes to a report or is an answer. */
bool shows_gate(const struct plan *plan, int gate, const struct levels *levels);

/* Makes a thread for a program that another starts, at a label and with the family's clearance: the other makes it. The refusal, or 0. */
uint32_t is_spawned(const struct plan *plan, const struct family *by, const struct levels *levels, struct family *family);

/* Makes the thread anew of a family that waited, and was let go meanwhile: whether it may be made was asked before. */
void spawn_again(const struct plan *plan, struct family *family);

/* A new object of a label, which one family writes and another reads. */
histar_object make_between(const struct plan *plan, const struct levels *levels);

/* An object or a thread goes; and what gates answered to a family. */
void forget(histar_object object);
void forget_answers(struct family *family);

/* Whether a family may write what is between it and another, and read it. */
bool writes_between(const struct family *writer, histar_object between);
bool reads_between(const struct family *reader, histar_object between);

/* Writes the dump of all decisions, where one is asked for. Whether it was written. */
bool write_dump(const struct plan *plan);

/* ---- explain.c: lines for refusals. They have no name that the program chose, which may be at the level of a secret. ---- */

/* For the first refusal of each thing: a line says why, where the plan explains. */
void explain_write(const struct plan *plan, struct report *report, const struct levels *own);
void explain_gate(const struct plan *plan, struct gate *gate, const struct levels *own, const struct levels *behind);
void explain_held(const struct plan *plan, const char *path, bool *is_refused, const char *held);
void explain_clearance(const struct plan *plan, const struct family *family, const char *path, bool *is_refused, const struct levels *levels);

/* Once the program has ended: what was withheld, and a line for each thing that was refused and not explained. */
void tell_refused(const struct plan *plan, bool prints);

/* ---- keeper.c: the keeper, and the program's start ---- */

/* What is started. */
struct begun {
    char **words, **environment;
    const char *folder;          /* where it begins; NULL where that is the world's root */
    bool has_input;              /* the broker fills its standard input */
};

/* Begins to start a program in namespaces of its own. Whether that could be begun. The plan may be looked at meanwhile: nothing of it is
 * used before the start goes on. */
bool begin_start(const struct plan *plan, const struct begun *begun, struct world *world);
void go_on(const struct world *world);

/* Waits until the program waits for its first step. Where that fails a line said why, and it gives the status that confine ends
 * with; else 0. */
int end_start(struct world *world);

/* The program makes its first step, unless another process has it do so. */
void begin_program(struct world *world, bool is_here);

/* The broker has done with a world; its keeper ends by itself, and is waited for then, as are others that end by themselves. */
void close_world(struct world *world);
void note_ending(pid_t process);
void reap_ended(void);

/* Ends with ENDS_UNABLE and a line: this machine lacks something. */
ENDS void unable(const char *what);

/* Ends as unable does where the result of a call is below 0. */
void must(long result, const char *what);
#define NEEDS(call) must((long)(call), #call)

/* ---- world.c ---- */

/* Folders, files and devices that each program finds, up to NULL. */
enum { MOST_ALWAYS = 32 };
extern const char *const ALWAYS[MOST_ALWAYS];

/* Makes devices that are this world's alone, where the machine's root may; before it has its own users. */
void make_devices(void);

/* Makes the world in a new mount namespace, but for /proc. */
void make_world(const struct plan *plan);

/* The world's own /proc, of its own processes, where the machine allows it. The first process of the world makes it. */
void add_proc(void);

/* Makes the world the root, and takes the machine's own files away; the program is made ready meanwhile. */
void enter_world(void);
void leave_machine(void);

/* Where the world's own folders lie, until it is the root: as struct world has them. */
int open_scratch(void);

/* How many descriptors lead to what the program may write, and which they are. */
int own_of(const int **files);

/* Where the broker is asked for each secret, in the order of the plan; NULL where the world has no doors. */
const int *doors_of(void);

/* Puts a secret into the world, in place of its door. An errno, 0 where it is there. */
int put_secret(const struct plan *plan, int secret);

/* ---- walls.c ---- */

/* The program's second wall round the files, its bounds, and the loss of its privileges. */
void raise_walls(void);

/* Bounds the processes of the world. It is given the machine's /proc, which is closed then. */
void limit_numbers(int proc);

/* ---- filter.c ---- */

/* Leaves the process a list of system calls, and gives the descriptor by which others are asked; -1 with errno. */
int load_filter(bool has_doors);

/* ---- doors.c ---- */

/* Awaits the doors of a world; and answers what was asked there. */
void await_doors(const struct plan *plan, struct world *world);
void answer_doors(struct plan *plan, struct family *family);

/* ---- descriptors.c ---- */

/* Sends a descriptor through a socket. Whether it was sent. */
bool send_descriptor(int socket, int descriptor);

/* Takes one, or -1. */
int receive_descriptor(int socket);

/* A descriptor that neither reads nor writes, but keeps what another leads to, so that its number is given to nothing else; -1. */
int pin(int file);

/* The broker may have as many as its user may, since it has some for each program; and what it starts as many as before. */
void raise_files(void);
void lower_files(void);

/* Whether two lead to the same. */
bool is_same(int one, int other);

/* ---- gates.c ---- */

/* Where gates stand in the program's world. */
#define GATES "/gate"

/* What leads a family to a gate, to be handed out; -1 with errno. A family has at most MOST_RUNS of them. */
int open_way(struct plan *plan, const struct family *family, int gate);

/* The gate that a family's descriptor leads to, which is given to another from now on; -1 where it leads to none. And the number of
 * the way. */
int lend_way(const struct family *family, int file, unsigned long *number);

/* Starts a gate's program for a family, and gives what leads to its input; -1 with errno. What it answers goes back by the way of this
 * number to who was given that. */
int begin_gate(struct plan *plan, const struct family *family, int gate, unsigned long way);

/* A family is at its end: no gate answers it. */
void end_answers(const struct family *family);

/* Whether something that a family wrote may be on its way. */
bool has_ways(const struct family *family);

/* Takes all that a family has written so far. */
void take_ways_before(struct plan *plan, const struct family *family);

void await_gates(void);
void serve_gates(struct plan *plan);
bool are_gates_done(void);

/* No gate is given more, and each is asked to end; and sends a signal to each. */
void end_input_of_gates(void);
void kill_gates(int signal);

/* ---- reports.c ---- */

/* Each report and file of faults by where it lies, so that no later name leads elsewhere. */
void find_reports(struct plan *plan);

/* Keeps what stands in each report, in case that a program may have it. */
void keep_old(struct plan *plan);

/* Notes the files that stand for the reports in a world that was just made. Whether all are there. */
bool note_reports(const struct plan *plan, struct family *family);

/* The program, which holds a report, opens it to write it, with these flags. An errno, 0 where it may. */
int begin_report(const struct plan *plan, struct family *family, int report, int flags);

/* Puts what stood in reports into a world whose program observes them. Where that is much another process of the broker's goes on
 * here: true for that one, which answers the program in the broker's place and ends by end_bringing; and false for the broker. */
bool bring_reports(const struct plan *plan, struct family *family);
void end_bringing(void);
void end_bringer(struct family *family);

/* Begins to keep what gates print for a report; and what leads to the end of it, or -1. */
bool stage(struct report *report);
int staged_of(const struct report *report);

/* Keeps what the program has left of each report, as far as the kernel allows it. */
void leave_reports(struct plan *plan, struct family *family);

/* Once all has ended: adds all that was kept to the reports. Whether all was written, as far as that may be told. */
bool lay_reports(struct plan *plan);

/* Puts a file in place of what another has, or adds it from a byte on. Whether all of it was written; with errno. */
bool copy_out(const struct report *report, int file, bool replaces, off_t from);

/* ---- faults.c: errors and ends that nobody is shown ---- */

/* Begins a file of faults, which has room from then on. */
void begin_faults(struct report *faults);

/* Notes what a program printed as errors, or how it ended, where it may write that. */
void note_errors(const struct plan *plan, const struct family *family, const char *text, size_t length);
void note_end(const struct plan *plan, const struct family *family, int status);

/* Adds a line to a file of faults of the plan. */
void note_line(const struct plan *plan, int faults, const char *form, ...) __attribute__((format(printf, 3, 4)));

/* Once all has ended: each file of faults has what was noted, and nothing else. Whether all was written, as far as that may be told. */
bool lay_faults(const struct plan *plan, bool prints);

/* ---- broker.c ---- */

/* Begins to answer a family's calls. Whether its world is as it has to be. */
bool begin_answers(const struct plan *plan, struct family *family);

/* Puts a secret into a family's world, once its label has risen to it. An errno, 0 where it is there. */
int open_secret(struct plan *plan, struct family *family, int secret);

/* Whether the program waits for an answer on the processor that gives it, where the machine's kernel can do that (Linux 6.6). */
void wake_at_once(int listener, bool does);

/* Answers the next call of a family. */
void answer_call(struct plan *plan, struct family *family);

/* ---- polls.c: what a round of the broker waits for ---- */

void begin_round(void);

/* Waits for this too. Where it is found in this round; -1 where there is none. */
int await(int file, short events);

/* Waits so long, for good where that is below 0. False with errno. */
bool wait_round(int milliseconds);

/* What came there; and what there is now, without a wait. */
short came(int place);
short came_now(int file, short events);

/* ---- streams.c: what is relayed ---- */

enum { STREAMS = 3 };

/* What waits to go from one descriptor to another. Each piece is a write of the writer's and a read of the reader's, and its end too;
 * that the reader ends, or how fast it takes, is a write of the reader's and a read of the writer's. */
struct stream {
    const struct plan *plan;
    enum { TYPED, PRINTED, BETWEEN, TO_GATE, ANSWERED } kind; /* from outside, to outside, from one family to another, through a gate, or back */
    int gate;
    char *text;
    size_t size, count, begin;
    int from, to;                          /* -1 once it is at its end */
    int from_place, to_place;
    const struct family *writer, *reader;  /* NULL where it is outside, or has ended */
    histar_object forth, back;             /* between two families: what the writer writes, and what the reader writes; or behind a gate */
    struct levels given;                   /* the highest that a gate which answers was given */
    bool is_held;                          /* its reader may not have it: it waits for another */
    bool is_cut;                           /* its writer may not write it any more */
    bool is_stuck;                         /* its writer's end may not be seen */
    bool is_dropped;                       /* some of it was */
    bool is_lost;                          /* what it leads to could not be written */
    bool is_errors;                        /* it has the errors of its writer */
};

/* A stream from nowhere to nowhere; and back to that. */
struct stream no_stream(void);
void drop_stream(struct stream *stream);

/* A descriptor of another's as one that never makes the broker wait, to read or to write; -1 with errno where it can't be that. */
int unblocked(int file, int access);

/* Awaits what a stream waits for, and takes what is there and gives what can be written. Whether it took something. */
void await_stream(struct stream *stream);
bool serve_stream(struct stream *stream);

/* Gives what can be given now. */
void give(struct stream *stream);

/* Takes all that its writer has written so far. */
void take_before(struct stream *stream);

/* The reader is told of the end, if there is one and nothing waits. */
void end_if_empty(struct stream *stream);

/* Nobody reads any more: the writer is told so, where it may know that. */
void end_reader(struct stream *stream);

/* What is written waits for another reader: the first is told of its end. */
void hold(struct stream *stream);

/* Where the reader may not have what is written, it is told of the stream's end at once; and where the writer may write no more, once
 * all is given that it wrote before. So the end of the writer is not seen by it. */
void settle(struct stream *stream);

/* ---- requests.c: what is asked for ---- */

struct request {
    char *bytes, **texts, **words;
    struct begun begun;
    int files[STREAMS];
    const char *label, *most; /* the highest that it may have; "" where that is the asker's */
};

/* Takes what a socket has; NULL where that is no request. */
struct request *read_request(int socket);
void drop_request(struct request *request);

/* A label as its categories, each with a level or at 3: "health,money=2"; or "none". */
bool read_label(const struct plan *plan, const char *text, struct levels *levels);

/* ---- programs.c, spawn.c: the program, and those that it starts at a label ---- */

/* Where a program asks for a start, and where the program is that does so. */
#define RUN GATES "/run"
#define RUN_FOLDER "/confine"
#define RUN_NAME "confine-run"

/* So many run of which who asked may know; so many at one label and at all of which he may not, and so many of these wait; the texts of
 * so many that have ended wait at one label; so many are made in all; and so many calls of one are answered in a turn. */
enum { MOST_SHOWN = 16, MOST_AT_LABEL = 8, MOST_HIDDEN = 24, MOST_QUEUED = 1000, MOST_HELD = 2, MOST_MADE = 64, MOST_CALLS = 8 };

struct program {
    struct program *next;
    const struct family *by; /* who asked for it; NULL for the first one */
    struct family *family;
    enum { ASKED, WAITING, STARTING, RUNNING, ENDING, ENDED } stage;
    struct request *request;      /* until it runs */
    int socket;                   /* to who asked; -1 once it was told of an end */
    int socket_place, own_place, call_place;
    struct stream streams[STREAMS];
    int pins[STREAMS];            /* the pipes of the asker's that they lead to, or -1 */
    int gates[STREAMS];           /* the gates, or -1; and the ways */
    unsigned long ways[STREAMS];
    histar_object in, out;        /* what is between the asker and what was started */
    struct levels by_levels;      /* the asker's label as he asked */
    bool is_hidden, is_killed, is_served; /* in this round */
    bool is_slow;                 /* it has no processor of the broker's */
    int status;
};

struct program *first_program(void); /* and others by their next */

/* Whether there are as many programs as the kernel has room for. */
bool are_most_made(void);
struct program *add_program(const struct family *by, struct family *family);
void take_away(struct program *program);

/* Whether a program is being started, runs, or is about to have ended. */
bool is_running(const struct program *program);

/* The status of a program that has ended: a fault where what it printed could not be written. */
int status_of(const struct program *program);

/* Tells who asked of an end, with a status and a line, or none. */
void tell_end(struct program *program, int status, const char *line);

/* Who asked and may not know of a program is told of an end at once. */
void mask(struct program *program);

void await_programs(struct plan *plan);
void serve_program(struct plan *plan, struct program *program);
void put_away_programs(void);
bool are_programs_done(void);
void kill_program(struct program *program);
void kill_programs(void);

/* Whatever has not ended is taken as ended, and a line tells whether something that was printed got nowhere. */
void end_programs(struct plan *plan);

/* Before a family's label may rise, and once it has. */
void before_rise(struct plan *plan, const struct family *family);
void after_rise(const struct family *family);

/* What leads a family to the broker, to ask for a start; -1 with errno. */
int open_run(const struct family *by);

/* Takes what was asked for; begins what waits and has a place; goes on with what was begun. */
void take_request(struct plan *plan, struct program *program);
void begin_waiting(struct plan *plan);
void end_begun(struct plan *plan, struct program *program);

/* ---- serve.c ---- */

/* Serves until the program and all that it started have ended, and tells with which status; it is 0 where that may not be told. */
int serve(struct plan *plan, struct program *program);

/* ---- run.c: the program that asks for a start ---- */

/* Asks the broker, and ends as what was started ends. */
int ask_run(int count, char **words);

/* ---- waits.c ---- */

/* Answers a wait for a word of memory that processes share: after a short while the program looks again. */
void delay_wait(int listener, uint64_t id, pid_t pid, const uint64_t *arguments);

/* Answers what is due. How long it may take until the next is, in milliseconds; -1 where none is. */
int end_waits(void);

/* ---- machine.c ---- */

/* Answers a call that asks for the machine's counters. */
void answer_machine(int listener, uint64_t id, pid_t pid, uint64_t at);

/* ---- all ---- */

/* Ends with a line of this kind: "confine: WHAT: what the system says". */
ENDS void fail(int status, const char *what);

#ifdef __cplusplus
}
#endif
#endif
