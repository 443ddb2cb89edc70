/* A dump stands nowhere whole: a kernel keeps a log of many write calls, and its dump goes to a function that counts the lines. Beside what
 * was in use before it a dump takes no more of a long log than of a short one.
 *
 * long_log [CALLS]   1,000,000 calls without words */
#include "histar.h"
#include "wrapped.h"
#include <malloc.h>
#include <stdio.h>
#include <stdlib.h>

/* The bytes of blocks that are out, and the most that there were. */
static size_t in_use, peak;

static void *counted(void *block)
{
    if (block) in_use += malloc_usable_size(block);
    if (in_use > peak) peak = in_use;
    return block;
}
void *__wrap_malloc(size_t len) { return counted(__real_malloc(len)); }
void *__wrap_realloc(void *old, size_t len)
{
    size_t before = old ? malloc_usable_size(old) : 0;
    void *made = __real_realloc(old, len);
    if (!made) return made;
    in_use -= before;
    return counted(made);
}
void __wrap_free(void *old)
{
    if (old) in_use -= malloc_usable_size(old);
    __real_free(old);
}

static histar k, seat;

static void must(int holds, const char *what)
{
    if (holds) return;
    fprintf(stderr, "long_log: %s\n", what);
    exit(1);
}

/* A text so far: its bytes and its lines. */
struct told {
    size_t bytes, lines;
};
static uint32_t tells(void *context, const void *part, size_t len)
{
    struct told *it = context;
    const char *at = part;
    for (size_t i = 0; i < len; i++) it->lines += at[i] == '\n';
    it->bytes += len;
    return 0;
}

/* Makes so many write calls. */
static void writes(histar *kernel, long count)
{
    histar_object made;
    histar_label plain = histar_level(1);
    must(!histar_segment_create(kernel, HISTAR_BOOT, HISTAR_ROOT, &plain, 2, 1, &made), "no segment");
    for (long i = 1; i < count; i++)
        must(!histar_segment_write(kernel, HISTAR_BOOT, histar_in(HISTAR_ROOT, made), 0, &i, sizeof i), "a write was refused");
}

/* What the dump of so many calls takes beside what is in use before it; it is told. */
static size_t takes(histar *kernel, long count, const char *what)
{
    struct told told = {0, 0};
    size_t before = in_use;
    peak = in_use;
    must(!histar_dump_to(kernel, tells, &told), "no dump");
    must(told.lines > (size_t)count && told.lines < (size_t)count + 200, "a dump lacks calls");
    must(in_use <= before, "a dump leaves something in the library");
    printf("%s: %ld calls keep %zu bytes, their dump of %zu bytes takes %zu more\n", what, count, before, told.bytes, peak - before);
    return peak - before;
}

/* The same of a kernel with that many calls, and of a seat. */
static size_t takes_of_kernel(long count)
{
    size_t more;
    must(!histar_open(&k, 64) && !histar_log_on(&k, (uint64_t)count, HISTAR_LOG_WRITES), "no kernel");
    writes(&k, count);
    more = takes(&k, count, "a kernel");
    must(!histar_close(&k), "no close");
    return more;
}
static size_t takes_of_seat(long count)
{
    size_t more;
    must(!histar_share_with(&seat, 64, 1, 4, 1, (uint64_t)count, 1), "no shared kernel");
    writes(&seat, count);
    more = takes(&seat, count, "a seat");
    must(!histar_close(&seat), "no close");
    return more;
}

int main(int count, char **given)
{
    long calls = count > 1 ? atol(given[1]) : 1000000;
    must(takes_of_kernel(calls) <= takes_of_kernel(1000) + 4096, "the dump of a long log takes more than that of a short one");
    must(takes_of_seat(calls) <= takes_of_seat(1000) + 4096, "the dump of a long list takes more than that of a short one");
    must(in_use < 4096, "something is left");
    return 0;
}
