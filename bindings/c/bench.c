/* The least time of a call over many short runs, beside what a file takes in the same runs: positional reads and writes of 64
 * bytes, and a file that is made and goes. The kernel has so many pages, so many segments without pages beside what is used,
 * or as many as there is room for, and labels of so many categories, 0 to 16.
 *
 * bench [PAGES OBJECTS CATEGORIES RUNS]   64 pages, 0 objects, 1 category and 400 runs of 1,000 calls without words */
#define _GNU_SOURCE
#include "histar.h"
#include <fcntl.h>
#include <malloc.h>
#include <stdio.h>
#include <stdlib.h>
#include <sys/mman.h>
#include <time.h>
#include <unistd.h>

enum { CALLS = 1000 };

static uint32_t pages = 64;
static int objects, categories = 1, runs = 400;

static int file;
static char path[64];
static histar k, other;
static histar_label guarded;
static histar_object segment, space, fixed, folder;
static char place[64];

static double now(void)
{
    struct timespec it;
    clock_gettime(CLOCK_MONOTONIC, &it);
    return (double)it.tv_sec * 1e9 + (double)it.tv_nsec;
}

/* The least nanoseconds of one of many. */
static double least(void (*work)(void))
{
    double least = 1e18;
    for (int run = 0; run < runs; run++) {
        double began = now(), took;
        for (int call = 0; call < CALLS; call++) work();
        took = (now() - began) / CALLS;
        if (took < least) least = took;
    }
    return least;
}

static double tell(const char *name, void (*work)(void))
{
    double took = least(work);
    printf("%s: %.0f ns\n", name, took);
    return took;
}

static void beside(const char *name, void (*work)(void), const char *others, double theirs)
{
    double took = least(work);
    printf("%s: %.0f ns, %s %.0f ns, ratio %.2f\n", name, took, others, theirs, took / theirs);
}

static void done(uint32_t refusal)
{
    if (!refusal) return;
    fprintf(stderr, "bench: refused %u %s\n", refusal, histar_refusal_name(refusal));
    exit(1);
}

static histar_entry in_root(histar_object object) { return histar_in(HISTAR_ROOT, object); }

static void a_pread(void) { done(pread(file, place, 64, 128) != 64); }
static void a_pwrite(void) { done(pwrite(file, place, 64, 128) != 64); }
static void a_load(void) { done(histar_load(&k, HISTAR_BOOT, 128, place, 64)); }
static void a_store(void) { done(histar_store(&k, HISTAR_BOOT, 128, place, 64)); }
static void a_read(void) { done(histar_segment_read(&k, HISTAR_BOOT, in_root(segment), 128, place, 64)); }
static void a_write(void) { done(histar_segment_write(&k, HISTAR_BOOT, in_root(segment), 128, place, 64)); }

static void a_file(void)
{
    int made = open(path, O_RDWR | O_CREAT, 0600);
    done(made < 0 || close(made) || unlink(path));
}

static void a_segment(void)
{
    histar_object made;
    done(histar_segment_create(&k, HISTAR_BOOT, HISTAR_ROOT, &guarded, 1, 0, &made));
    done(histar_unref(&k, HISTAR_BOOT, in_root(made)));
}

static void a_link(void)
{
    done(histar_link(&k, HISTAR_BOOT, folder, in_root(fixed)));
    done(histar_unref(&k, HISTAR_BOOT, histar_in(folder, fixed)));
}

static void a_self_get(void)
{
    histar_self self;
    done(histar_self_get(&k, HISTAR_BOOT, &self));
}

static void no_call(void)
{
    k.request.call = 99;
    done(histar_call(k.room, &k.request, &k.answer) != HISTAR_BAD_BATCH);
}

static void a_kernel(void)
{
    done(histar_open(&other, pages));
    histar_close(&other);
}

/* Opens a kernel whose boot thread owns the categories. */
static void opens(int with_log)
{
    done(histar_open(&k, pages));
    if (with_log) done(histar_log_on(&k, UINT64_MAX, HISTAR_LOG_WRITES));
    guarded = histar_level(1);
    for (int i = 0; i < categories; i++) {
        histar_category category;
        done(histar_cat_create(&k, HISTAR_BOOT, &category));
        guarded = histar_with(guarded, category, 3);
    }
}

static void fills(void)
{
    histar_object made;
    for (int i = 0; i < objects; i++)
        if (histar_segment_create(&k, HISTAR_BOOT, HISTAR_ROOT, &guarded, 1, 0, &made)) return;
}

/* A segment of one page, which the boot thread's space maps. */
static void maps_segment(void)
{
    done(histar_segment_create(&k, HISTAR_BOOT, HISTAR_ROOT, &guarded, 2, 1, &segment));
    done(histar_as_create(&k, HISTAR_BOOT, HISTAR_ROOT, &guarded, 1, &space));
    done(histar_as_map(&k, HISTAR_BOOT, in_root(space), 0, 0, in_root(segment), 0, 1, HISTAR_READ | HISTAR_WRITE));
    done(histar_self_set_as(&k, HISTAR_BOOT, in_root(space)));
}

static void times_segments(void)
{
    double read = least(a_pread), written = least(a_pwrite), made = least(a_file);
    opens(0);
    maps_segment();
    fills();
    beside("load", a_load, "pread", read);
    beside("segment_read", a_read, "pread", read);
    beside("store", a_store, "pwrite", written);
    beside("segment_write", a_write, "pwrite", written);
    beside("create with unref", a_segment, "open with unlink", made);
    tell("self_get", a_self_get);
    tell("a record that asks for nothing", no_call);
    histar_close(&k);
}

static void times_links(void)
{
    opens(0);
    done(histar_segment_create(&k, HISTAR_BOOT, HISTAR_ROOT, &guarded, 1, 0, &fixed));
    done(histar_set_fixed(&k, HISTAR_BOOT, in_root(fixed)));
    done(histar_container_create(&k, HISTAR_BOOT, HISTAR_ROOT, &guarded, 2, 0, &folder));
    fills();
    tell("link with unref", a_link);
    histar_close(&k);
}

/* What a write and its event take where calls are kept. */
static void times_log(void)
{
    size_t before, after;
    opens(1);
    maps_segment();
    before = mallinfo2().uordblks + mallinfo2().hblkhd;
    tell("segment_write with a log", a_write);
    after = mallinfo2().uordblks + mallinfo2().hblkhd;
    printf("event in a log: %.0f bytes\n", (double)(after - before) / ((double)runs * CALLS));
    histar_close(&k);
}

int main(int count, char **words)
{
    if (count > 1) pages = (uint32_t)strtoul(words[1], NULL, 10);
    if (count > 2) objects = atoi(words[2]);
    if (count > 3) categories = atoi(words[3]);
    if (count > 4) runs = atoi(words[4]);
    snprintf(path, sizeof path, "/dev/shm/histar-bench-%d", (int)getpid());
    file = memfd_create("bench", 0);
    if (file < 0 || ftruncate(file, 4096)) return 1;
    times_segments();
    times_links();
    if (runs > 400) runs = 400;
    times_log();
    if (runs > 10) runs = 10;
    printf("open of %u pages with its close: %.0f us\n", pages, least(a_kernel) / 1000);
    return 0;
}
