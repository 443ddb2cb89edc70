/* What all seats of a shared kernel have seen is given back. Two seats make write calls in turn while others open beside them, read
 * and close: the memory in use does not grow. A seat that stands idle keeps what it lacks: then it grows, up to the bound, where
 * a write is refused 47, until the idle seat makes a call. A list with a log gives nothing back.
 *
 * Then threads do it at once: each writes and reads through a seat of its own, closes it and opens another beside that of the thread
 * before it, so that no block may go that a seat lacks: each new seat is in the state of the one beside it, and sees what comes.
 *
 * given_back [CALLS SECONDS]   1,000,000 calls and 2 seconds without words */
#define _GNU_SOURCE
#include "histar.h"
#include "wrapped.h"
#include <malloc.h>
#include <pthread.h>
#include <stdio.h>
#include <stdlib.h>
#include <time.h>

/* The bytes of blocks that are out. */
static long in_use;

static void counts(void *block, int sign)
{
    if (block) __atomic_fetch_add(&in_use, sign * (long)malloc_usable_size(block), __ATOMIC_RELAXED);
}
void *__wrap_malloc(size_t len)
{
    void *made = __real_malloc(len);
    counts(made, 1);
    return made;
}
void *__wrap_realloc(void *old, size_t len)
{
    void *made;
    counts(old, -1);
    made = __real_realloc(old, len);
    counts(made ? made : old, 1);
    return made;
}
void __wrap_free(void *old)
{
    counts(old, -1);
    __real_free(old);
}

enum { BLOCK = 256, MOST = 2000, THREADS = 4 };

static histar first, second, idle, passing;
static histar_object segment;

static void must(int holds, const char *what)
{
    if (holds) return;
    fprintf(stderr, "given_back: %s\n", what);
    exit(1);
}
static void done(uint32_t refusal)
{
    if (refusal) fprintf(stderr, "given_back: refused %u %s\n", refusal, histar_refusal_name(refusal));
    must(!refusal, "a call was refused");
}
static uint32_t writes(histar *seat, uint64_t number)
{
    return histar_segment_write(seat, HISTAR_BOOT, histar_in(HISTAR_ROOT, segment), 0, &number, sizeof number);
}
static uint64_t reads(histar *seat)
{
    uint64_t number = 0;
    done(histar_segment_read(seat, HISTAR_BOOT, histar_in(HISTAR_ROOT, segment), 0, &number, sizeof number));
    return number;
}
static void shares(uint64_t most, int logs)
{
    histar_label plain = histar_level(1);
    done(histar_share_with(&first, 64, 1, 4, 1, most, logs));
    done(histar_segment_create(&first, HISTAR_BOOT, HISTAR_ROOT, &plain, 2, 1, &segment));
}

/* The most that is in use while two seats write in turn, and others come and go. */
static long most_in_use(uint64_t from, uint64_t calls)
{
    long most = 0;
    for (uint64_t number = from; number < from + calls; number++) {
        done(writes(number % 2 ? &first : &second, number));
        if (number % 1000 == 0) {
            done(histar_seat_open(&passing, &second));
            must(reads(&passing) == number, "a seat that was opened lacks what the one beside it has seen");
            must(reads(&first) == number, "a seat does not see what another wrote");
            done(histar_close(&passing));
        }
        if (in_use > most) most = in_use;
    }
    return most;
}

static void is_flat(uint64_t calls)
{
    long before, early, late;
    shares(MOST, 0);
    done(histar_seat_open(&second, &first));
    before = in_use;
    early = most_in_use(1, 4 * BLOCK);
    late = most_in_use(4 * BLOCK, calls);
    must(late <= early, "memory grew while all seats went on");
    printf("%llu calls: at most %ld bytes more than %ld\n", (unsigned long long)calls, late - before, before);
}

/* What an idle seat lacks is kept, and given back once it has seen it. */
static void keeps_for_the_idle(void)
{
    uint64_t made = 0;
    long before, full;
    uint32_t refusal;
    done(histar_seat_open(&idle, &first));
    before = in_use;
    while ((refusal = writes(&first, made + 1)) == HISTAR_DONE) made++, reads(&second);
    must(refusal == HISTAR_LIST_FULL, "a write beside an idle seat was refused otherwise");
    must(made >= MOST && made < MOST + 3 * BLOCK, "another number of calls is kept for an idle seat");
    must(reads(&first) == made && reads(&second) == made, "a refused call was made");
    full = in_use;
    must(full > before + 100 * (long)made, "nothing was kept for an idle seat");
    must(reads(&idle) == made, "an idle seat does not see what it lacked");
    done(writes(&first, made + 1));
    must(in_use < before + (full - before) / 2, "what an idle seat lacked is not given back");
    done(histar_close(&idle));
    /* A seat that is closed lacks nothing. */
    done(histar_seat_open(&idle, &first));
    while ((refusal = writes(&first, made + 1)) == HISTAR_DONE) made++, reads(&second);
    must(refusal == HISTAR_LIST_FULL, "a write beside an idle seat was refused otherwise");
    done(histar_close(&idle));
    done(writes(&first, made + 1));
    printf("an idle seat keeps %ld bytes for %llu calls\n", full - before, (unsigned long long)made);
}

/* A list with a log keeps all, and is full at its bound. */
static void keeps_a_log(void)
{
    uint64_t made = 0;
    uint32_t refusal;
    size_t needed;
    shares(MOST, 1);
    while ((refusal = writes(&first, made + 1)) == HISTAR_DONE) made++;
    must(refusal == HISTAR_LIST_FULL, "a write to a full log was refused otherwise");
    must(made >= MOST && made < MOST + 3 * BLOCK, "another number of calls is in a full log");
    must(histar_dump(&first, NULL, 0, &needed) == HISTAR_BOUNDS, "a list with a log has no dump");
    done(histar_seat_open(&second, &first));
    must(histar_dump(&second, NULL, 0, &needed) == HISTAR_BOUNDS, "another seat of a list with a log has no dump");
    done(histar_close(&first));
    done(histar_close(&second));
}

/* ---- At once ---- */

static histar seats[THREADS][2];
static pthread_mutex_t locks[THREADS]; /* of the seats of a thread, for the one after it */
static int at[THREADS], stop;
static uint64_t written;

static void *comes_and_goes(void *given)
{
    size_t me = (size_t)given, before = (me + THREADS - 1) % THREADS;
    uint64_t last = 0, round = 0;
    while (!__atomic_load_n(&stop, __ATOMIC_SEQ_CST)) {
        uint64_t told, number;
        pthread_mutex_lock(&locks[me]);
        for (int i = 0; i < 50; i++) {
            histar *seat = &seats[me][at[me]];
            uint32_t refusal = HISTAR_DONE;
            /* (the first thread alone writes numbers, which rise; a thread that lacks too much has its turn once the lock is free) */
            if (me == 0) refusal = writes(seat, round + 1);
            else if (i % 8 == 0) refusal = histar_segment_write(seat, HISTAR_BOOT, histar_in(HISTAR_ROOT, segment), 8, &round, sizeof round);
            if (refusal == HISTAR_LIST_FULL) break;
            done(refusal);
            if (me == 0) __atomic_store_n(&written, ++round, __ATOMIC_SEQ_CST);
            told = __atomic_load_n(&written, __ATOMIC_SEQ_CST);
            number = reads(seat);
            must(number >= told && number >= last, "a read did not see a call that had returned");
            last = number;
        }
        pthread_mutex_unlock(&locks[me]);
        sched_yield();
        /* Another seat, beside that of the thread before. */
        if (me == 0) continue;
        pthread_mutex_lock(&locks[before]);
        done(histar_seat_open(&seats[me][!at[me]], &seats[before][at[before]]));
        pthread_mutex_unlock(&locks[before]);
        pthread_mutex_lock(&locks[me]);
        done(histar_close(&seats[me][at[me]]));
        at[me] = !at[me];
        pthread_mutex_unlock(&locks[me]);
    }
    return NULL;
}

static void storm(int seconds)
{
    pthread_t threads[THREADS];
    time_t until = time(NULL) + seconds;
    done(histar_share(&seats[0][0], 64, MOST));
    {
        histar_label plain = histar_level(1);
        done(histar_segment_create(&seats[0][0], HISTAR_BOOT, HISTAR_ROOT, &plain, 2, 1, &segment));
    }
    for (size_t i = 0; i < THREADS; i++) pthread_mutex_init(&locks[i], NULL);
    for (size_t i = 1; i < THREADS; i++) done(histar_seat_open(&seats[i][0], &seats[0][0]));
    for (size_t i = 0; i < THREADS; i++) must(!pthread_create(&threads[i], NULL, comes_and_goes, (void *)i), "no thread");
    while (time(NULL) < until) nanosleep(&(struct timespec){0, 100000000}, NULL);
    __atomic_store_n(&stop, 1, __ATOMIC_SEQ_CST);
    for (size_t i = 0; i < THREADS; i++) pthread_join(threads[i], NULL);
    for (size_t i = 1; i < THREADS; i++) must(reads(&seats[i][at[i]]) == reads(&seats[0][0]), "a seat is in another state");
    for (size_t i = 0; i < THREADS; i++) done(histar_close(&seats[i][at[i]]));
    printf("%d threads: seats come and go beside %llu writes\n", THREADS, (unsigned long long)written);
}

int main(int count, char **words)
{
    long before;
    printf("given back:\n"); /* (the stream takes its memory before it is counted) */
    before = in_use;
    is_flat(count > 1 ? strtoull(words[1], NULL, 10) : 1000000);
    keeps_for_the_idle();
    done(histar_close(&first));
    done(histar_close(&second));
    must(in_use == before, "the last seat does not give all back");
    keeps_a_log();
    must(in_use == before, "a list with a log does not give all back at its end");
    storm(count > 2 ? atoi(words[2]) : 2);
}
