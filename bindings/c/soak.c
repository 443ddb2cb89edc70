/* A service that runs for long on one kernel: sessions come, each makes a category, a thread and a secret, writes the secret again and
 * again, reads it, is refused the secret of the session before it, and goes. What it made is given back: the kernel keeps no more
 * objects than at the start, and the process takes no memory after its first thousand sessions, but for what the system counts in
 * steps. With a folder the kernel keeps a log that has a bound: whenever it is full its dump goes to a file of the folder, in turn to three,
 * and it is cut.
 *
 * soak [SESSIONS WRITES [FOLDER]]   100,000 sessions of 100 writes without words */
#define _GNU_SOURCE
#include "histar.h"
#include <stdio.h>
#include <stdlib.h>
#include <unistd.h>

static histar k;

static void must(int holds, const char *what)
{
    if (holds) return;
    fprintf(stderr, "soak: %s\n", what);
    exit(1);
}
static void done(uint32_t refusal)
{
    if (refusal) fprintf(stderr, "soak: refused %u %s\n", refusal, histar_refusal_name(refusal));
    must(!refusal, "a call was refused");
}

/* What the process has in memory, in bytes. */
static long resident(void)
{
    long all = 0, in_memory = 0;
    FILE *it = fopen("/proc/self/statm", "r");
    must(it && fscanf(it, "%ld %ld", &all, &in_memory) == 2, "there is no /proc/self/statm");
    fclose(it);
    return in_memory * sysconf(_SC_PAGESIZE);
}

enum { STEPS = 1 << 18, LOGGED = 20000 };

/* The folder, and how many dumps went there. */
static const char *folder;
static long dumps;

static uint32_t adds(void *file, const void *part, size_t len) { return fwrite(part, 1, len, file) != len; }

static void cuts(void)
{
    char name[4096];
    FILE *file;
    snprintf(name, sizeof name, "%s/dump-%ld", folder, dumps++ % 3);
    file = fopen(name, "w");
    must(file != NULL, "there is no file for a dump");
    done(histar_dump_to(&k, adds, file));
    must(!fclose(file), "a dump was not written");
    done(histar_log_cut(&k, LOGGED, HISTAR_LOG_WRITES));
}

/* Makes a write call, which a full log refuses once. */
#define MAKES(CALL)                                          \
    do {                                                     \
        uint32_t refusal = (CALL);                           \
        if (refusal == HISTAR_LOG_FULL) cuts(), refusal = (CALL); \
        done(refusal);                                       \
    } while (0)

struct session {
    histar_category category;
    histar_object thread, secret;
};

static void comes(struct session *it)
{
    histar_label label, clearance, guarded;
    MAKES(histar_cat_create(&k, HISTAR_BOOT, &it->category));
    label = histar_with(histar_level(1), it->category, 3);
    clearance = histar_with(histar_level(2), it->category, 3);
    guarded = histar_with(histar_level(1), it->category, 3);
    MAKES(histar_thread_create(&k, HISTAR_BOOT, HISTAR_ROOT, &label, 1, &clearance, 0, &it->thread));
    MAKES(histar_segment_create(&k, HISTAR_BOOT, HISTAR_ROOT, &guarded, 2, 1, &it->secret));
    /* The boot thread owns the category no longer: a label has room for 16. */
    label = histar_level(1);
    clearance = histar_level(2);
    MAKES(histar_self_set_label(&k, HISTAR_BOOT, &label));
    MAKES(histar_self_set_clearance(&k, HISTAR_BOOT, &clearance));
}

static void works(const struct session *it, const struct session *before, long writes)
{
    char bytes[64] = {0}, read[64];
    for (long i = 0; i < writes; i++) {
        memcpy(bytes, &i, sizeof i);
        MAKES(histar_segment_write(&k, it->thread, histar_in(HISTAR_ROOT, it->secret), 0, bytes, 64));
    }
    done(histar_segment_read(&k, it->thread, histar_in(HISTAR_ROOT, it->secret), 0, read, 64));
    must(!memcmp(bytes, read, 64), "a session does not read what it wrote");
    must(histar_segment_read(&k, it->thread, histar_in(HISTAR_ROOT, before->secret), 0, read, 64) == HISTAR_CANNOT_OBSERVE, "a session reads another's secret");
}

/* The boot thread gives back what a session had. */
static void goes(const struct session *it)
{
    MAKES(histar_unref(&k, HISTAR_BOOT, histar_in(HISTAR_ROOT, it->secret)));
    MAKES(histar_unref(&k, HISTAR_BOOT, histar_in(HISTAR_ROOT, it->thread)));
}

int main(int count, char **words)
{
    long sessions = count > 1 ? atol(words[1]) : 100000, writes = count > 2 ? atol(words[2]) : 100, early = 0;
    struct session before, it;
    folder = count > 3 ? words[3] : NULL;
    done(histar_open(&k, 64));
    if (folder) done(histar_log_on(&k, LOGGED, HISTAR_LOG_WRITES));
    comes(&before);
    for (long i = 0; i < sessions; i++) {
        comes(&it);
        works(&it, &before, writes);
        goes(&before);
        before = it;
        if (i == 1000) early = resident();
    }
    must(sessions <= 1000 || resident() <= early + STEPS, "the process took memory");
    done(histar_close(&k));
    printf("%ld sessions of %ld writes, %ld dumps, and no memory taken after the first thousand\n", sessions, writes, dumps);
}
