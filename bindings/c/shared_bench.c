/* Times a read and a write of 64 bytes through a seat of a shared kernel, beside positional reads and writes of a file in memory, and
 * beside one kernel with a lock around each call, by one thread and by four, in one run: of each row the least of the runs; and reads by
 * readers of one seat. Then a write beside 63 threads that read and never pause: the median, and the 99th of 100.
 *
 * shared_bench [CALLS RUNS]   20,000 calls and 15 runs without words. On a machine that is busy: under `chrt -f 50` */
#define _GNU_SOURCE
#include "histar.h"
#include <fcntl.h>
#include <pthread.h>
#include <stdio.h>
#include <stdlib.h>
#include <sys/mman.h>
#include <time.h>
#include <unistd.h>

enum { MOST = 4, MANY = 64 };
static int calls = 20000, runs = 15;
static histar k, seats[MANY], readers[MOST];
static histar_object of_k, of_share;
static pthread_rwlock_t lock = PTHREAD_RWLOCK_INITIALIZER;
static int file;

static double now(void)
{
    struct timespec it;
    clock_gettime(CLOCK_MONOTONIC, &it);
    return (double)it.tv_sec * 1e9 + (double)it.tv_nsec;
}
static void done(uint32_t refusal)
{
    if (!refusal) return;
    fprintf(stderr, "shared_bench: refused %u %s\n", refusal, histar_refusal_name(refusal));
    exit(1);
}

static void file_read(int me, char *place) { (void)me; done(pread(file, place, 64, 128) != 64); }
static void file_write(int me, char *place) { (void)me; done(pwrite(file, place, 64, 128) != 64); }
static void alone_read(int me, char *place) { (void)me; done(histar_segment_read(&k, HISTAR_BOOT, histar_in(HISTAR_ROOT, of_k), 128, place, 64)); }
static void alone_write(int me, char *place) { (void)me; done(histar_segment_write(&k, HISTAR_BOOT, histar_in(HISTAR_ROOT, of_k), 128, place, 64)); }
/* (a call writes its record, its answer and what the kernel keeps beside itself: a read of one kernel needs the lock whole) */
static void locked_read(int me, char *place)
{
    pthread_rwlock_wrlock(&lock);
    alone_read(me, place);
    pthread_rwlock_unlock(&lock);
}
static void locked_write(int me, char *place)
{
    pthread_rwlock_wrlock(&lock);
    alone_write(me, place);
    pthread_rwlock_unlock(&lock);
}
/* what a read lock alone would cost, around nothing */
static void rdlock_only(int me, char *place)
{
    (void)me;
    (void)place;
    pthread_rwlock_rdlock(&lock);
    pthread_rwlock_unlock(&lock);
}
static void seat_read(int me, char *place) { done(histar_segment_read(&seats[me], HISTAR_BOOT, histar_in(HISTAR_ROOT, of_share), 128, place, 64)); }
static void reader_read(int me, char *place) { done(histar_segment_read(&readers[me], HISTAR_BOOT, histar_in(HISTAR_ROOT, of_share), 128, place, 64)); }
static void seat_write(int me, char *place) { done(histar_segment_write(&seats[me], HISTAR_BOOT, histar_in(HISTAR_ROOT, of_share), 128, place, 64)); }

typedef void (*work)(int, char *);
static work works[MOST];
static double took[MOST];
static int many, stop;
static pthread_barrier_t start;

static void *one(void *given)
{
    long me = (long)given;
    char place[64];
    memset(place, (int)me, 64);
    pthread_barrier_wait(&start);
    double began = now();
    if (me == 0 || many < 0) {
        for (int i = 0; i < calls; i++) works[me]((int)me, place);
        took[me] = (now() - began) / calls;
        if (many > 0) __atomic_store_n(&stop, 1, __ATOMIC_SEQ_CST);
    } else {
        long made = 0;
        while (!__atomic_load_n(&stop, __ATOMIC_RELAXED)) {
            for (int i = 0; i < 16; i++) works[me]((int)me, place);
            made += 16;
        }
        took[me] = (now() - began) / (double)made;
    }
    return NULL;
}

/* So many threads: where `first` is given, the first does it until it is done and the others do `other` for so long; else all do. */
static void row(const char *name, int threads, work first, work other)
{
    double least0 = 1e18, least1 = 1e18;
    for (int run = 0; run < runs; run++) {
        pthread_t made[MOST];
        many = first == other ? -threads : threads;
        stop = 0;
        pthread_barrier_init(&start, NULL, (unsigned)threads);
        for (long i = 0; i < threads; i++) {
            works[i] = i ? other : first;
            pthread_create(&made[i], NULL, one, (void *)i);
        }
        double sum = 0;
        for (long i = 0; i < threads; i++) pthread_join(made[i], NULL);
        for (int i = 1; i < threads; i++) sum += took[i];
        if (first == other) sum += took[0], sum /= threads;
        else if (threads > 1) sum /= threads - 1;
        if (took[0] < least0) least0 = took[0];
        if (sum < least1) least1 = sum;
        pthread_barrier_destroy(&start);
    }
    if (first == other) printf("%-58s %8.0f ns\n", name, least1);
    else if (least1 < 1e17) printf("%-58s %8.0f ns, beside it %.0f ns\n", name, least0, least1);
    else printf("%-58s %8.0f ns, and nobody had a turn beside it\n", name, least0);
    fflush(stdout);
}

/* ---- A write beside 63 readers that never pause ---- */

static int readers_stop;

static void *reads_on(void *given)
{
    int me = (int)(long)given;
    char place[64];
    while (!__atomic_load_n(&readers_stop, __ATOMIC_RELAXED)) seat_read(me, place);
    return NULL;
}

static int compare(const void *one, const void *other)
{
    double a = *(const double *)one, b = *(const double *)other;
    return (a > b) - (a < b);
}

static void beside_many(int readers)
{
    static double each[20000];
    pthread_t made[MANY];
    char place[64] = {0};
    int writes = calls < 20000 ? calls : 20000;
    readers_stop = 0;
    for (long i = 1; i <= readers; i++) pthread_create(&made[i], NULL, reads_on, (void *)i);
    for (int i = 0; i < writes; i++) {
        double began = now();
        seat_write(0, place);
        each[i] = now() - began;
    }
    __atomic_store_n(&readers_stop, 1, __ATOMIC_RELAXED);
    for (int i = 1; i <= readers; i++) pthread_join(made[i], NULL);
    qsort(each, (size_t)writes, sizeof *each, compare);
    printf("seat, write beside %2d seats that read and never pause      %8.0f ns in the median, %.0f at the 99th of 100\n", readers, each[writes / 2], each[writes - writes / 100 - 1]);
    fflush(stdout);
}

int main(int count, char **words)
{
    histar_label plain = histar_level(1);
    char zeros[4096] = {0};
    if (count > 1) calls = atoi(words[1]);
    if (count > 2) runs = atoi(words[2]);
    file = memfd_create("bench", 0);
    done(file < 0 || write(file, zeros, 4096) != 4096);
    done(histar_open(&k, 64));
    done(histar_segment_create(&k, HISTAR_BOOT, HISTAR_ROOT, &plain, 2, 1, &of_k));
    done(histar_share(&seats[0], 64, HISTAR_ANY_NUMBER));
    for (int i = 1; i < MANY; i++) done(histar_seat_open(&seats[i], &seats[0]));
    done(histar_segment_create(&seats[0], HISTAR_BOOT, HISTAR_ROOT, &plain, 2, 1, &of_share));
    printf("rooms: seat %zu, reader %zu, kernel %zu bytes\n", histar_seat_size(), histar_reader_size(), histar_size());

    row("pread, 1 thread", 1, file_read, file_read);
    row("one kernel, no lock, read, 1 thread", 1, alone_read, alone_read);
    row("one kernel, rwlock, read, 1 thread", 1, locked_read, locked_read);
    row("rdlock and unlock around nothing, 1 thread", 1, rdlock_only, rdlock_only);
    row("seat, read, 1 thread", 1, seat_read, seat_read);
    row("pwrite, 1 thread", 1, file_write, file_write);
    row("one kernel, no lock, write, 1 thread", 1, alone_write, alone_write);
    row("one kernel, rwlock, write, 1 thread", 1, locked_write, locked_write);
    row("seat, write, 1 thread", 1, seat_write, seat_write);
    row("pread, 4 threads", 4, file_read, file_read);
    row("one kernel, rwlock, read, 4 threads", 4, locked_read, locked_read);
    row("rdlock and unlock around nothing, 4 threads", 4, rdlock_only, rdlock_only);
    row("seat, read, 4 threads", 4, seat_read, seat_read);
    row("pwrite beside 3 pread", 4, file_write, file_read);
    row("one kernel, rwlock, write beside 3 that read", 4, locked_write, locked_read);
    row("seat, write beside 3 seats that read", 4, seat_write, seat_read);
    row("pwrite, 4 threads", 4, file_write, file_write);
    row("one kernel, rwlock, write, 4 threads", 4, locked_write, locked_write);
    row("seat, write, 4 threads", 4, seat_write, seat_write);
    seat_read(MANY - 1, zeros); /* so that the seat has seen the segment */
    for (int i = 0; i < MOST; i++) done(histar_reader_open(&readers[i], &seats[MANY - 1]));
    row("reader of a seat, read, 1 thread", 1, reader_read, reader_read);
    row("readers of one seat, read, 4 threads", 4, reader_read, reader_read);
    row("seat, write beside 3 readers of another", 4, seat_write, reader_read);
    for (int i = 0; i < MOST; i++) done(histar_close(&readers[i]));
    beside_many(0);
    beside_many(3);
    beside_many(MANY - 1);
    for (int i = 0; i < MANY; i++) done(histar_close(&seats[i]));
    done(histar_close(&k));
}
