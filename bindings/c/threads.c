/* Threads share one kernel, each through a seat of its own, with no lock but one for the notes that they leave one another. Each makes
 * segments and writes numbers, some of them in batches, and reads what the others write: no id is given twice or left out, no read goes
 * back, each thread sees its own writes and what it was told of, no batch is seen in part, and a seat that comes late is in the state of
 * the others. This is done again and again, for so many seconds. Then a thread is stopped in the middle of adding a call: reads go on,
 * and a write is refused 46 and is made once the thread goes on. For that the thread is stopped wherever it is, until it is there; with
 * 0 tries it is left out. At last each seat of a shorter history writes the dump of what it has seen into a folder, if one is given.
 *
 * threads [SECONDS TRIES FOLDER]   2 seconds and 3,000 tries without words */
#define _GNU_SOURCE
#include "histar.h"
#include <pthread.h>
#include <signal.h>
#include <stdio.h>
#include <stdlib.h>
#include <time.h>

/* With -DLOGS=1 no list gives anything back: the sanitizer of threads does not see the library's steps, and so takes memory that one
 * thread has of the library and another gives back for a race. */
#ifndef LOGS
#define LOGS 0
#endif

enum { THREADS = 8, MOST = 5000, FEW = 200, BATCH_EACH = 4 };

static histar seats[THREADS], late;
static histar_object segments[THREADS], left[THREADS], right[THREADS], made[THREADS][MOST];
static long rounds;
static uint64_t told[THREADS];       /* the number that each thread wrote last, in ordinary memory */
static pthread_barrier_t start;

/* What each thread last noted. */
static histar_note notes[THREADS];
static pthread_mutex_t notes_lock = PTHREAD_MUTEX_INITIALIZER;

static void must(int holds, const char *what)
{
    if (holds) return;
    fprintf(stderr, "threads: %s\n", what);
    exit(1);
}
static void done(uint32_t refusal)
{
    if (refusal) fprintf(stderr, "threads: refused %u %s\n", refusal, histar_refusal_name(refusal));
    must(!refusal, "a call was refused");
}
static histar_entry in_root(histar_object object) { return histar_in(HISTAR_ROOT, object); }

/* Eight numbers, all alike unless a write is seen in part. */
static void writes(histar *seat, histar_object segment, uint64_t number)
{
    uint64_t eight[8];
    for (int i = 0; i < 8; i++) eight[i] = number;
    done(histar_segment_write(seat, HISTAR_BOOT, in_root(segment), 0, eight, 64));
}
static uint64_t reads(histar *seat, histar_object segment)
{
    uint64_t eight[8];
    done(histar_segment_read(seat, HISTAR_BOOT, in_root(segment), 0, eight, 64));
    for (int i = 1; i < 8; i++) must(eight[i] == eight[0], "a write was seen in part");
    return eight[0];
}

/* The record of such a write. */
static histar_request writing(histar_object segment, uint64_t number)
{
    histar_request request;
    memset(&request, 0, sizeof request);
    request.call = HISTAR_CALL_SEGMENT_WRITE;
    request.container = HISTAR_ROOT.id;
    request.object = segment.id;
    request.len = 64;
    for (int i = 0; i < 8; i++) memcpy(request.bytes + 8 * i, &number, 8);
    return request;
}

/* One batch: a number into two segments, with a call between them that is refused and changes nothing. */
static void writes_both(histar *seat, size_t me, uint64_t number)
{
    histar_request calls[3] = {writing(left[me], number), writing(HISTAR_DEVICE, number), writing(right[me], number)};
    histar_answer answers[3];
    done(histar_batch(seat, HISTAR_BOOT, calls, 3, answers));
    must(answers[0].reply == 0 && answers[2].reply == 0, "a call of a batch was refused");
    must(answers[1].reply == 12 && answers[1].numbers[0] == HISTAR_WRONG_TYPE, "a call of a batch was not refused");
}

static void *work(void *given)
{
    size_t me = (size_t)given;
    histar *seat = &seats[me];
    histar_label plain = histar_level(1);
    uint64_t last[THREADS] = {0};
    pthread_barrier_wait(&start);
    for (long round = 0; round < rounds; round++) {
        done(histar_segment_create(seat, HISTAR_BOOT, HISTAR_ROOT, &plain, 1, 0, &made[me][round]));
        done(histar_unref(seat, HISTAR_BOOT, in_root(made[me][round])));
        writes(seat, segments[me], (uint64_t)round);
        __atomic_store_n(&told[me], (uint64_t)round, __ATOMIC_SEQ_CST);
        if (round % BATCH_EACH == 0) writes_both(seat, me, (uint64_t)round);
        if (round % 16 == 0) {
            histar_note note;
            size_t from = (me + 1) % THREADS;
            pthread_mutex_lock(&notes_lock);
            note = notes[from];
            pthread_mutex_unlock(&notes_lock);
            if (note.at) done(histar_learn(seat, note));
            done(histar_seen(seat, &note));
            pthread_mutex_lock(&notes_lock);
            notes[me] = note;
            pthread_mutex_unlock(&notes_lock);
        }
        for (size_t other = 0; other < THREADS; other++) {
            uint64_t at_least = __atomic_load_n(&told[other], __ATOMIC_SEQ_CST), read = reads(seat, segments[other]);
            must(read >= last[other], "a read went back");
            must(read >= at_least, "a read did not see a call that had returned");
            must(other != me || read == (uint64_t)round, "a thread does not see its own write");
            last[other] = read;
            read = reads(seat, left[other]);
            must(reads(seat, right[other]) >= read, "a batch was seen in part");
            must(other != me || read == (uint64_t)(round - round % BATCH_EACH), "a thread does not see its own batch");
        }
    }
    return NULL;
}

static int compare(const void *one, const void *other)
{
    uint64_t a = *(const uint64_t *)one, b = *(const uint64_t *)other;
    return a < b ? -1 : a > b;
}

/* Each id was given once, and no number between is left out: the calls are one list. */
static void counts_ids(void)
{
    static uint64_t all[THREADS * MOST];
    size_t count = THREADS * (size_t)rounds;
    for (size_t i = 0; i < count; i++) all[i] = made[i % THREADS][i / THREADS].id;
    qsort(all, count, sizeof *all, compare);
    for (size_t i = 0; i < count; i++) must(all[i] == right[THREADS - 1].id + 1 + i, "an id was given twice, or left out");
}

/* A shared kernel with a seat and a segment for each thread. With a log the seats have dumps. */
static void opens(int logs)
{
    histar_label plain = histar_level(1);
    done(histar_share_with(&seats[0], 64, 1, 4, 1, HISTAR_ANY_NUMBER, logs));
    for (size_t i = 1; i < THREADS; i++) done(histar_seat_open(&seats[i], &seats[i - 1]));
    for (size_t i = 0; i < THREADS; i++) {
        done(histar_segment_create(&seats[i], HISTAR_BOOT, HISTAR_ROOT, &plain, 2, 1, &segments[i]));
        told[i] = 0;
        memset(&notes[i], 0, sizeof notes[i]);
    }
    for (size_t i = 0; i < THREADS; i++) {
        done(histar_segment_create(&seats[i], HISTAR_BOOT, HISTAR_ROOT, &plain, 2, 1, &left[i]));
        done(histar_segment_create(&seats[i], HISTAR_BOOT, HISTAR_ROOT, &plain, 2, 1, &right[i]));
    }
}

/* The dump of what a seat has seen, in a file of the folder. */
static void dumps(histar *seat, const char *folder, size_t number)
{
    char name[4096];
    size_t needed = 0;
    char *text;
    FILE *file;
    snprintf(name, sizeof name, "%s/seat-%zu", folder, number);
    must(histar_dump(seat, NULL, 0, &needed) == HISTAR_BOUNDS, "the length of a dump was not told");
    text = malloc(needed);
    must(text != NULL, "no room for a dump");
    done(histar_dump(seat, text, needed, &needed));
    file = fopen(name, "wb");
    must(file != NULL, "no file for a dump");
    needed -= fwrite(text, 1, needed, file);
    needed += (size_t)(fclose(file) != 0);
    must(!needed, "a dump was not written");
    free(text);
}

/* A seat that comes late is in the state of the others. */
static void closes(const char *folder)
{
    done(histar_seat_open(&late, &seats[0]));
    for (size_t i = 0; folder && i < THREADS; i++) dumps(&seats[i], folder, i);
    for (size_t i = 0; i < THREADS; i++) must(reads(&late, segments[i]) == reads(&seats[THREADS - 1 - i], segments[i]), "a late seat is in another state");
    for (size_t i = 0; i < THREADS; i++) done(histar_close(&seats[i]));
    done(histar_close(&late));
}

static void storm(long so_many, const char *folder)
{
    pthread_t threads[THREADS];
    rounds = so_many;
    opens(LOGS || folder != NULL);
    pthread_barrier_init(&start, NULL, THREADS);
    for (size_t i = 0; i < THREADS; i++) must(!pthread_create(&threads[i], NULL, work, (void *)i), "no thread");
    for (size_t i = 0; i < THREADS; i++) pthread_join(threads[i], NULL);
    pthread_barrier_destroy(&start);
    counts_ids();
    closes(folder);
}

/* ---- Readers of one seat at once, beside an owner that writes through another seat ---- */

enum { READERS = 4, READS = 20000 };
static histar readers[READERS];

static void *reads_on(void *given)
{
    histar *reader = given;
    pthread_barrier_wait(&start);
    for (long round = 0; round < READS; round++) must(reads(reader, segments[0]) == 7, "a reader does not read what its seat had seen");
    return NULL;
}

/* They read what the seat had seen, whatever is written meanwhile; it sees that once they are closed. */
static void reads_one_seat(void)
{
    pthread_t threads[READERS];
    opens(LOGS);
    pthread_barrier_init(&start, NULL, READERS + 1);
    writes(&seats[0], segments[0], 7);
    for (size_t i = 0; i < READERS; i++) done(histar_reader_open(&readers[i], &seats[0]));
    for (size_t i = 0; i < READERS; i++) must(!pthread_create(&threads[i], NULL, reads_on, &readers[i]), "no thread");
    pthread_barrier_wait(&start);
    for (uint64_t number = 8; number < READS; number++) writes(&seats[1], segments[0], number);
    for (size_t i = 0; i < READERS; i++) pthread_join(threads[i], NULL);
    pthread_barrier_destroy(&start);
    for (size_t i = 0; i < READERS; i++) done(histar_close(&readers[i]));
    must(reads(&seats[0], segments[0]) == READS - 1, "a seat lacks what was written while it was read");
    closes(NULL);
}

/* ---- A thread that is stopped in the middle of adding a call ---- */

static int held, go_on, stop;
static pthread_t writer;

/* The writer stands here, in the middle of whatever it did, until it may go on. */
static void stands(int signal)
{
    (void)signal;
    __atomic_store_n(&held, 1, __ATOMIC_SEQ_CST);
    while (!__atomic_load_n(&go_on, __ATOMIC_SEQ_CST)) sched_yield();
    __atomic_store_n(&held, 0, __ATOMIC_SEQ_CST);
}

static void *writes_on(void *given)
{
    (void)given;
    for (uint64_t number = 0; !__atomic_load_n(&stop, __ATOMIC_RELAXED); number++) writes(&seats[0], segments[0], number);
    return NULL;
}

/* How often the writer was stopped until a write was refused because of it. */
static long stops_in_the_middle(long most)
{
    long tries = 0;
    uint64_t eight[8] = {0};
    uint32_t refusal = HISTAR_DONE;
    signal(SIGUSR1, stands);
    opens(0);
    must(!pthread_create(&writer, NULL, writes_on, NULL), "no thread");
    while (refusal != HISTAR_BUSY && tries++ < most) {
        __atomic_store_n(&go_on, 0, __ATOMIC_SEQ_CST);
        pthread_kill(writer, SIGUSR1);
        while (!__atomic_load_n(&held, __ATOMIC_SEQ_CST)) sched_yield();
        refusal = histar_segment_write(&seats[1], HISTAR_BOOT, in_root(segments[1]), 0, eight, 64);
        must(refusal == HISTAR_DONE || refusal == HISTAR_BUSY, "a write was refused otherwise");
        for (size_t other = 1; other < THREADS; other++) reads(&seats[other], segments[0]);
        __atomic_store_n(&go_on, 1, __ATOMIC_SEQ_CST);
        while (__atomic_load_n(&held, __ATOMIC_SEQ_CST)) sched_yield();
        for (volatile int wait = 0; wait < 200 + (int)(tries % 37); wait++);
    }
    done(histar_segment_write(&seats[1], HISTAR_BOOT, in_root(segments[1]), 0, eight, 64));
    __atomic_store_n(&stop, 1, __ATOMIC_SEQ_CST);
    pthread_join(writer, NULL);
    must(refusal == HISTAR_BUSY, "the writer was never stopped in the middle of adding its call");
    closes(NULL);
    return tries;
}

int main(int count, char **words)
{
    time_t until = time(NULL) + (count > 1 ? atoi(words[1]) : 2);
    long most = count > 2 ? atol(words[2]) : 3000, storms = 0;
    do storm(MOST, NULL), storms++;
    while (time(NULL) < until);
    printf("%d threads: %ld histories of %d calls that write, each one list\n", THREADS, storms, (3 * MOST + 3 * MOST / BATCH_EACH + 3) * THREADS);
    reads_one_seat();
    printf("%d readers of one seat read at once, beside a writer\n", READERS);
    if (most) printf("a thread was stopped in the middle of adding a call, at try %ld, and reads went on\n", stops_in_the_middle(most));
    if (count > 3) storm(FEW, words[3]);
}
