/* Nothing of a secret is left in the process once a kernel is closed. Each way has a secret of its own, which is written into ten segments, the
 * metadata of some, a packet, a log, a seat, a batch, and texts, and ends in another way. Then all memory of the process is searched: no
 * 16 bytes of the secret are there, neither as they are nor as texts have them. The program clears what it held itself, and keeps no
 * secret: its bytes are reckoned from the number of the way.
 *
 * forgotten [FOUND]   with a word, one copy is left on purpose, which has to be found */
#define _GNU_SOURCE
#include "histar.h"
#include <fcntl.h>
#include <pthread.h>
#include <setjmp.h>
#include <stdio.h>
#include <stdlib.h>
#include <sys/mman.h>
#include <unistd.h>

enum { SECRET = 64, WINDOW = 16, SEGMENTS = 10, CHUNK = 1 << 20, TEXT = 1 << 20 };

static void must(uint32_t refusal)
{
    if (!refusal) return;
    fprintf(stderr, "forgotten: refused %u %s\n", refusal, histar_refusal_name(refusal));
    exit(2);
}

/* ---- A secret, and the search for it ---- */

static volatile uint64_t way; /* whose secret it is */

static unsigned char byte_of(unsigned at)
{
    uint64_t it = way * 0x9e3779b97f4a7c15u + at * 0xd1342543de82ef95u + 1;
    it ^= it >> 29;
    it *= 0xbf58476d1ce4e5b9u;
    return (unsigned char)(it >> 40);
}

/* The letter or byte at a place of the secret: as it is, or as a text has it. */
static unsigned char sought(unsigned at, int is_text)
{
    return is_text ? (unsigned char)"0123456789abcdef"[byte_of(at / 2) >> (at % 2 ? 0 : 4) & 15] : byte_of(at);
}

static int is_here(const unsigned char *bytes, unsigned from, unsigned len, int is_text)
{
    for (unsigned at = 0; at < len; at++)
        if (bytes[at] != sought(from + at, is_text)) return 0;
    return 1;
}

/* How many windows of the secret stand in these bytes, as they are or as a text has them. */
static long in_bytes(const unsigned char *bytes, size_t len, int is_text)
{
    unsigned window = is_text ? 2 * WINDOW : WINDOW;
    long found = 0;
    for (unsigned from = 0; from < (is_text ? 2 * SECRET : SECRET); from += window)
        for (const unsigned char *at = bytes, *end = bytes + len; at + window <= end; at++) {
            at = memchr(at, sought(from, is_text), (size_t)(end - at) - window + 1);
            if (!at) break;
            found += is_here(at, from, window, is_text);
        }
    return found;
}

/* Where memory is read to: two windows more than a chunk, so that what lies across two chunks is found. The search leaves it out. */
static unsigned char *chunk;

static long in_range(int memory, uint64_t from, uint64_t to)
{
    long found = 0;
    while (from + WINDOW <= to) {
        size_t len = to - from < CHUNK + 4 * WINDOW ? to - from : CHUNK + 4 * WINDOW;
        ssize_t got = pread(memory, chunk, len, (off_t)from);
        if (got <= 0) return found;
        found += in_bytes(chunk, (size_t)got, 0) + in_bytes(chunk, (size_t)got, 1);
        from += CHUNK;
    }
    return found;
}

/* How many windows of the secret stand in the process. */
static long in_memory(void)
{
    FILE *maps = fopen("/proc/self/maps", "r");
    int memory = open("/proc/self/mem", O_RDONLY);
    char line[512], rights[8];
    unsigned long from, to;
    long found = 0;
    must(maps == NULL || memory < 0);
    while (fgets(line, sizeof line, maps))
        if (sscanf(line, "%lx-%lx %7s", &from, &to, rights) == 3 && rights[0] == 'r' && from != (uintptr_t)chunk && !strstr(line, "[v"))
            found += in_range(memory, from, to);
    fclose(maps);
    close(memory);
    return found;
}

/* ---- What is done with it ---- */

static histar k, other;
static histar_object segments[SEGMENTS];

static histar_entry in_root(histar_object object) { return histar_in(HISTAR_ROOT, object); }

static void fill(unsigned char *secret)
{
    for (unsigned at = 0; at < SECRET; at++) secret[at] = byte_of(at);
}

/* The secret stands in ten segments of a kernel or seat, is read back, and goes through metadata and the device. */
static void keeps(histar *kernel)
{
    unsigned char secret[SECRET], again[SECRET];
    histar_label plain = histar_level(1);
    histar_object copy = HISTAR_NOTHING;
    size_t len;
    fill(secret);
    for (int i = 0; i < SEGMENTS; i++) {
        must(histar_segment_create(kernel, HISTAR_BOOT, HISTAR_ROOT, &plain, 3, 2, &segments[i]));
        must(histar_segment_write(kernel, HISTAR_BOOT, in_root(segments[i]), 256, secret, SECRET));
        must(histar_segment_read(kernel, HISTAR_BOOT, in_root(segments[i]), 256, again, SECRET));
        must(memcmp(secret, again, SECRET) != 0);
    }
    must(histar_meta_set(kernel, HISTAR_BOOT, in_root(segments[0]), secret, SECRET));
    must(histar_meta_get(kernel, HISTAR_BOOT, in_root(segments[0]), again, SECRET));
    must(histar_segment_copy(kernel, HISTAR_BOOT, HISTAR_ROOT, &plain, 3, in_root(segments[1]), &copy));
    must(histar_unref(kernel, HISTAR_BOOT, in_root(copy)));
    must(histar_dev_send(kernel, HISTAR_BOOT, in_root(HISTAR_DEVICE), secret, SECRET));
    must(histar_dev_recv(kernel, HISTAR_BOOT, in_root(HISTAR_DEVICE), again, SECRET, &len));
    must(histar_dev_send(kernel, HISTAR_BOOT, in_root(HISTAR_DEVICE), secret, SECRET));
    histar_wipes(secret, sizeof secret);
    histar_wipes(again, sizeof again);
}

static void opens(void) { must(histar_open(&k, 256)); }

/* A text of the program's own, which it clears, and what takes it. */
static unsigned char text[TEXT];
static size_t text_len;
static uint32_t takes(void *context, const void *part, size_t len)
{
    (void)context;
    must(text_len + len > sizeof text);
    memcpy(text + text_len, part, len);
    text_len += len;
    return 0;
}
static void clears(void)
{
    histar_wipes(text, sizeof text);
    text_len = 0;
}
/* The secret stands in the text. */
static void has_it(void) { must(!text_len || !in_bytes(text, text_len, 1)); }
static uint32_t ends(void *context, const void *part, size_t len)
{
    (void)context, (void)part, (void)len;
    return 7;
}

/* ---- The ways ---- */

static void closed(void)
{
    opens();
    keeps(&k);
    must(histar_close(&k));
}
static void closed_with_a_log(void)
{
    opens();
    must(histar_log_on(&k, UINT64_MAX, HISTAR_LOG_ALL));
    keeps(&k);
    must(histar_close(&k));
}
static void dumped(void)
{
    opens();
    must(histar_log_on(&k, UINT64_MAX, HISTAR_LOG_ALL));
    keeps(&k);
    must(histar_dump_to(&k, takes, NULL));
    has_it();
    clears();
    must(histar_close(&k));
}
static void dumped_in_part(void)
{
    opens();
    must(histar_log_on(&k, UINT64_MAX, HISTAR_LOG_ALL));
    keeps(&k);
    must(histar_dump_to(&k, ends, NULL) != 7);
    must(histar_close(&k));
}
static void cut(void)
{
    opens();
    must(histar_log_on(&k, UINT64_MAX, HISTAR_LOG_WRITES));
    keeps(&k);
    must(histar_log_cut(&k, 100, HISTAR_LOG_WRITES));
    must(histar_dump(&k, text, sizeof text, &text_len));
    has_it();
    clears();
    must(histar_close(&k));
}
static void checkpointed(void)
{
    opens();
    keeps(&k);
    must(histar_checkpoint_to(&k, takes, NULL));
    has_it();
    clears();
    must(histar_close(&k));
}
static void opened_at_a_text(void)
{
    opens();
    keeps(&k);
    must(histar_checkpoint_to(&k, takes, NULL));
    must(histar_close(&k));
    has_it();
    must(histar_open_at(&k, text, text_len));
    clears();
    must(histar_close(&k));
}
static void opened_at_a_text_cut_short(void)
{
    opens();
    keeps(&k);
    must(histar_checkpoint_to(&k, takes, NULL));
    must(histar_close(&k));
    has_it();
    must(histar_open_at(&k, text, text_len - 1) != HISTAR_TEXT_FAULT);
    clears();
}
static void opened_at_a_text_that_is_none(void)
{
    unsigned char *root;
    opens();
    keeps(&k);
    must(histar_checkpoint_to(&k, takes, NULL));
    must(histar_close(&k));
    root = memmem(text, text_len, "object 1 ", 9);
    must(!root);
    memcpy(root, "object 9 ", 9);
    must(histar_open_at(&k, text, text_len) != HISTAR_ILL_FORMED);
    clears();
}
static void shared(void)
{
    must(histar_share(&k, 256, 1000));
    must(histar_seat_open(&other, &k));
    keeps(&k);
    must(histar_unref(&other, HISTAR_BOOT, in_root(segments[2])));
    must(histar_close(&k));
    must(histar_close(&other));
}
static void shared_with_a_log(void)
{
    must(histar_share_with(&k, 256, 1, 4, 1, 1000, 1));
    must(histar_seat_open(&other, &k));
    keeps(&other);
    must(histar_dump_to(&other, takes, NULL));
    has_it();
    clears();
    must(histar_close(&other));
    must(histar_close(&k));
}
static void dumped_since(void)
{
    histar_note note = {0, 0, 0};
    must(histar_share(&k, 256, 1000));
    must(histar_seat_open(&other, &k));
    keeps(&k);
    must(histar_seen(&k, &note));
    must(histar_dump_since(&other, note, takes, NULL));
    has_it();
    clears();
    must(histar_close(&other));
    must(histar_close(&k));
}
static void read_by_a_reader(void)
{
    unsigned char again[SECRET];
    must(histar_share(&k, 256, 1000));
    keeps(&k);
    must(histar_reader_open(&other, &k));
    for (int i = 0; i < SEGMENTS; i++) must(histar_segment_read(&other, HISTAR_BOOT, in_root(segments[i]), 256, again, SECRET));
    histar_wipes(again, sizeof again);
    must(histar_close(&other));
    must(histar_close(&k));
}
static void batched(void)
{
    static histar_request calls[2];
    static histar_answer answers[2];
    must(histar_share(&k, 256, 1000));
    keeps(&k);
    for (int i = 0; i < 2; i++) {
        calls[i].call = HISTAR_CALL_SEGMENT_WRITE;
        calls[i].container = HISTAR_ROOT.id;
        calls[i].object = segments[i].id;
        calls[i].len = SECRET;
        fill(calls[i].bytes);
    }
    must(histar_batch(&k, HISTAR_BOOT, calls, 2, answers));
    histar_wipes(calls, sizeof calls);
    must(histar_close(&k));
}

static const struct {
    const char *what;
    void (*goes)(void);
} WAYS[] = {
    {"a close", closed},
    {"a close with a log", closed_with_a_log},
    {"a dump", dumped},
    {"a dump that its function ends", dumped_in_part},
    {"a log that is cut", cut},
    {"a checkpoint", checkpointed},
    {"an open at a text", opened_at_a_text},
    {"an open at a text that is cut short", opened_at_a_text_cut_short},
    {"an open at a text that no calls lead to", opened_at_a_text_that_is_none},
    {"seats", shared},
    {"seats with a log", shared_with_a_log},
    {"the dump of what a seat lacks", dumped_since},
    {"a reader", read_by_a_reader},
    {"a batch", batched},
};

int main(int count, char **words)
{
    size_t clean = 0, ways = sizeof WAYS / sizeof WAYS[0];
    unsigned char left[SECRET];
    (void)words;
    chunk = mmap(NULL, CHUNK + 4096, PROT_READ | PROT_WRITE, MAP_PRIVATE | MAP_ANONYMOUS, -1, 0);
    must(chunk == MAP_FAILED);
    for (size_t i = 0; i < ways; i++) {
        long found;
        way = i + 1;
        WAYS[i].goes();
        if (count > 1) fill(left);
        found = in_memory();
        clean += !found;
        if (found) printf("%s: %ld pieces of the secret are left\n", WAYS[i].what, found);
        __asm__ __volatile__("" : : "r"(left) : "memory");
    }
    printf("%zu of %zu ways leave nothing of a secret\n", clean, ways);
    return clean != ways;
}
