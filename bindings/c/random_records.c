/* Asks kernels for random records, malformed ones too: 5,000 of a kernel, and of each tenth kernel the log too. It looks that
 * where no log is kept the heap is as it was after the open, and that a record which is told 40 and more leaves the answer as
 * it was. The seed is stated, so each run is the same.
 *
 * random_records [COUNT]   ten million without COUNT */
#include "histar.h"
#include <inttypes.h>
#include <malloc.h>
#include <stdio.h>
#include <stdlib.h>

static uint64_t seed = 20261127;

static uint64_t below(uint64_t n)
{
    seed ^= seed << 13;
    seed ^= seed >> 7;
    seed ^= seed << 17;
    return seed % n;
}

/* Mostly below n, and now and then any number. */
static uint64_t about(uint64_t n) { return below(20) ? below(n) : below(UINT64_MAX); }

static void fill_label(histar_label *label)
{
    label->default_level = (uint8_t)(below(8) ? 1 : below(6));
    label->count = (uint8_t)(below(3) ? 0 : below(below(10) ? 3 : 30));
    for (int i = 0; i < 24; i++) {
        label->levels[i] = (uint8_t)below(below(99) ? 5 : 256);
        label->categories[i] = histar_category_of(about(6));
    }
}

static void fill(histar_request *r, uint32_t calls)
{
    r->call = (uint32_t)below(calls);
    r->len = (uint32_t)below(66);
    r->thread = below(4) ? HISTAR_BOOT.id : 1 + below(20);
    r->container = below(3) ? HISTAR_ROOT.id : 1 + below(12);
    r->object = 1 + below(20);
    r->other_container = below(2);
    r->other_object = below(12);
    for (int i = 0; i < 5; i++) r->numbers[i] = about(6);
    for (int i = 0; i < 64; i++) r->bytes[i] = (uint8_t)i;
    fill_label(&r->label);
    fill_label(&r->clearance);
    fill_label(&r->verify);
}

static histar k;
static uint64_t told[64];

/* Whether a kernel is well that so many records are asked of. */
static int is_well(long records, int is_logged)
{
    static histar_answer before;
    int is_same = 1;
    size_t used;
    if (histar_open(&k, 64) || (is_logged && histar_log_on(&k, 5000, HISTAR_LOG_WRITES))) return 0;
    used = mallinfo2().uordblks;
    for (long i = 0; i < records; i++) {
        uint32_t refusal;
        fill(&k.request, is_logged ? 43 : 40);
        before = k.answer;
        refusal = histar_call(k.room, &k.request, &k.answer);
        if (refusal >= HISTAR_MEMORY && memcmp(&before, &k.answer, sizeof before)) is_same = 0;
        if (refusal >= 64) return 0;
        told[refusal]++;
    }
    if (!is_logged && mallinfo2().uordblks != used) is_same = 0;
    histar_close(&k);
    return is_same;
}

int main(int count, char **words)
{
    long left = count > 1 ? atol(words[1]) : 10000000;
    int well = 1;
    for (long kernel = 0; left > 0 && well; kernel++) {
        long records = left < 5000 ? left : 5000;
        well = is_well(records, kernel % 10 == 9);
        left -= records;
    }
    for (int i = 0; i < 64; i++)
        if (told[i]) printf("%d:%" PRIu64 " ", i, told[i]);
    printf("%s\n", well ? "well" : "NOT WELL");
    return !well;
}
