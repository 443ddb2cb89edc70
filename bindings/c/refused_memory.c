/* Opens kernels, each with another request for memory refused, the first, the second and so on, until none is: an open that
 * is refused one is told 30, and keeps nothing. No call takes memory or writes past histar_size() bytes, and a close gives
 * all back. Then the same of calls that are kept in a log, and of its dump: a call that is refused memory is told 40 and is
 * made as ever when it is asked for again, and a dump is told 51. The same of a checkpoint, of the open at its text, and of a log that is
 * cut. And the same of a kernel that threads share: of its first seat, of
 * another, of a reader, of the dump of what a seat lacks, and of write calls, those that lay a block of the list too, while reads take none. */
#include "histar.h"
#include "wrapped.h"
#include <stdio.h>

/* Requests so far, which of them is refused, and blocks that are out. */
static long asked, refused, out;

void *__wrap_malloc(size_t len)
{
    void *made = ++asked == refused ? NULL : __real_malloc(len);
    out += made != NULL;
    return made;
}

void *__wrap_realloc(void *old, size_t len)
{
    void *made = ++asked == refused ? NULL : __real_realloc(old, len);
    out += made != NULL && old == NULL;
    return made;
}

void __wrap_free(void *old)
{
    out -= old != NULL;
    __real_free(old);
}

static histar k;

/* Whether the room past histar_size() is as histar_open left it. */
static int rest_is_zero(void)
{
    for (size_t i = histar_size(); i < sizeof k.room; i++)
        if (k.room[i]) return 0;
    return 1;
}

/* Whether calls of many kinds are done. */
static int calls_are_done(void)
{
    histar_category category;
    histar_object segment, made;
    char bytes[64];
    histar_label plain = histar_level(1), guarded;
    histar_self self;
    if (histar_cat_create(&k, HISTAR_BOOT, &category)) return 0;
    guarded = histar_with(plain, category, 3);
    if (histar_segment_create(&k, HISTAR_BOOT, HISTAR_ROOT, &guarded, 2, 1, &segment)) return 0;
    for (int i = 0; i < 100; i++) {
        histar_entry entry = histar_in(HISTAR_ROOT, segment);
        if (histar_segment_write(&k, HISTAR_BOOT, entry, 0, "key", 3)) return 0;
        if (histar_segment_read(&k, HISTAR_BOOT, entry, 0, bytes, 3)) return 0;
        if (histar_container_create(&k, HISTAR_BOOT, HISTAR_ROOT, &guarded, 1, 0, &made)) return 0;
        if (histar_unref(&k, HISTAR_BOOT, histar_in(HISTAR_ROOT, made))) return 0;
    }
    return histar_self_get(&k, HISTAR_BOOT, &self) == HISTAR_DONE;
}

/* What happens at a call: it is made again where memory lacks for it, which may be once. */
static int again;

static uint32_t once_more(uint32_t (*asks)(void))
{
    uint32_t refusal = asks();
    if (refusal != HISTAR_MEMORY && refusal != HISTAR_TEXT_MEMORY && refusal != HISTAR_UNAVAILABLE) return refusal;
    again++;
    return asks();
}

static histar_category category;
static histar_object made;
static uint32_t creates_category(void) { return histar_cat_create(&k, HISTAR_BOOT, &category); }
static uint32_t creates_segment(void)
{
    histar_label guarded = histar_with(histar_level(1), category, 3);
    return histar_segment_create(&k, HISTAR_BOOT, HISTAR_ROOT, &guarded, 2, 1, &made);
}
static uint32_t reads_length(void)
{
    uint64_t pages;
    return histar_segment_len(&k, HISTAR_BOOT, histar_in(HISTAR_ROOT, made), &pages);
}
static uint32_t keeps_root(void) { return histar_unref(&k, HISTAR_BOOT, histar_in(HISTAR_ROOT, HISTAR_ROOT)); }

/* What a dump goes to: its text so far. */
struct taken {
    char text[4096];
    size_t len;
};
static uint32_t takes(void *context, const void *part, size_t len)
{
    struct taken *it = context;
    if (len > sizeof it->text - it->len) return HISTAR_BOUNDS;
    memcpy(it->text + it->len, part, len);
    it->len += len;
    return 0;
}

/* Whether a dump that goes to a function is this text: where memory lacks for a part, that is told, what was given is its beginning, and no
 * memory is kept. */
static int is_given(const char *text, size_t len)
{
    struct taken it = {{0}, 0};
    long before = out;
    uint32_t refusal = histar_dump_to(&k, takes, &it);
    if (refusal == HISTAR_TEXT_MEMORY) {
        if (it.len >= len || memcmp(it.text, text, it.len) || out > before) return 0;
        again++, it.len = 0, refusal = histar_dump_to(&k, takes, &it);
    }
    return !refusal && it.len == len && !memcmp(it.text, text, len) && out <= before;
}

/* Whether logged calls and a read are done, each once, and their dump is the one before where there was one. */
static int is_logged(void)
{
    static char text[2][4096];
    static size_t len[2];
    int n = len[0] != 0;
    uint32_t refusal;
    if (histar_log_on(&k, 4, HISTAR_LOG_ALL) || once_more(creates_category) || category.number != 1) return 0;
    if (once_more(creates_segment) || made.id != 4 || once_more(reads_length) || once_more(keeps_root) != HISTAR_ROOT_KEPT) return 0;
    refusal = histar_dump(&k, text[n], sizeof text[n], &len[n]);
    if (refusal == HISTAR_TEXT_MEMORY) again++, refusal = histar_dump(&k, text[n], sizeof text[n], &len[n]);
    if (refusal || !is_given(text[n], len[n])) return 0;
    return len[n] && (!n || (len[0] == len[1] && !memcmp(text[0], text[1], len[0])));
}

/* Whether a log is kept and dumped with each request for memory after the open refused in turn. */
static int logs_are_kept(void)
{
    for (long later = 1;; later++) {
        long at_open;
        refused = 0;
        asked = out = again = 0;
        if (histar_open(&k, 8)) return 0;
        at_open = asked;
        refused = at_open + later;
        if (!is_logged() || again != (asked >= refused)) return 0;
        histar_close(&k);
        if (out != 0) return 0;
        if (asked < refused) return later > 3;
    }
}

/* The kernel that comes back, the checkpoint of the one before, and the dump of its log that is cut. */
static histar back;
static char written[1 << 16], cut[1 << 16];
static size_t written_len, cut_len;
static uint32_t writes_checkpoint(void) { return histar_checkpoint(&k, written, sizeof written, &written_len); }
static uint32_t opens_back(void) { return histar_open_at(&back, written, written_len); }
static uint32_t cuts_log(void) { return histar_log_cut(&back, 0, HISTAR_LOG_WRITES); }
static uint32_t dumps_cut(void) { return histar_dump(&back, cut, sizeof cut, &cut_len); }

/* Whether a kernel comes back at its checkpoint, and its log, which is cut there, has that checkpoint and no calls. */
static int is_back(void)
{
    if (creates_category() || creates_segment() || once_more(writes_checkpoint) || once_more(opens_back)) return 0;
    if (once_more(cuts_log) || once_more(dumps_cut)) return 0;
    return written_len && written_len == cut_len && !memcmp(written, cut, cut_len);
}

/* Whether kernels come back with each request for memory after the first open refused in turn. */
static int kernels_come_back(void)
{
    for (long later = 1;; later++) {
        refused = 0;
        asked = out = again = 0;
        if (histar_open(&k, 8)) return 0;
        refused = asked + later;
        if (!is_back() || again != (asked >= refused)) return 0;
        if (histar_close(&k) || histar_close(&back) || out != 0) return 0;
        if (asked < refused) return later > 10;
    }
}

static histar seat, other;

/* Whether calls through two seats are done, each once, and reads take no memory. */
static int calls_are_shared(void)
{
    histar_object one = HISTAR_NOTHING, two = HISTAR_NOTHING;
    long before;
    char bytes[64];
    histar_label plain = histar_level(1);
    uint32_t refusal = histar_segment_create(&seat, HISTAR_BOOT, HISTAR_ROOT, &plain, 2, 1, &one);
    if (refusal == HISTAR_MEMORY) again++, refusal = histar_segment_create(&seat, HISTAR_BOOT, HISTAR_ROOT, &plain, 2, 1, &one);
    if (refusal || one.id != 4) return 0;
    refusal = histar_segment_create(&other, HISTAR_BOOT, HISTAR_ROOT, &plain, 2, 1, &two);
    if (refusal == HISTAR_MEMORY) again++, refusal = histar_segment_create(&other, HISTAR_BOOT, HISTAR_ROOT, &plain, 2, 1, &two);
    if (refusal || two.id != 5) return 0;
    before = asked;
    for (int i = 0; i < 100; i++)
        if (histar_segment_read(&seat, HISTAR_BOOT, histar_in(HISTAR_ROOT, two), 0, bytes, 64)) return 0;
    if (asked != before) return 0;
    /* The other sees 600 calls more, one of which lays a block and one gives one back, where no seat lacks it. */
    for (int i = 0; i < 600; i++) {
        refusal = histar_segment_write(&seat, HISTAR_BOOT, histar_in(HISTAR_ROOT, two), 0, &i, sizeof i);
        if (refusal == HISTAR_MEMORY) again++, refusal = histar_segment_write(&seat, HISTAR_BOOT, histar_in(HISTAR_ROOT, two), 0, &i, sizeof i);
        if (refusal || histar_segment_read(&other, HISTAR_BOOT, histar_in(HISTAR_ROOT, two), 0, bytes, 64) || memcmp(bytes, &i, sizeof i)) return 0;
    }
    return 1;
}

static histar reader;

/* Whether a reader of a seat reads, and takes no memory for that. */
static int is_read(void)
{
    long before;
    histar_self self;
    uint32_t refusal = histar_reader_open(&reader, &seat);
    if (refusal == HISTAR_UNAVAILABLE) again++, refusal = histar_reader_open(&reader, &seat);
    if (refusal) return 0;
    before = asked;
    for (int i = 0; i < 100; i++)
        if (histar_self_get(&reader, HISTAR_BOOT, &self)) return 0;
    return asked == before && !histar_close(&reader);
}

/* Whether what one seat has written and another lacks is dumped, and no memory is kept then. */
static int lack_is_dumped(void)
{
    struct taken it = {{0}, 0};
    histar_note note = {0, 0, 0};
    long before;
    uint32_t refusal = histar_cat_create(&seat, HISTAR_BOOT, &category);
    if (refusal == HISTAR_MEMORY) again++, refusal = histar_cat_create(&seat, HISTAR_BOOT, &category);
    if (refusal || histar_seen(&seat, &note)) return 0;
    before = out;
    refusal = histar_dump_since(&other, note, takes, &it);
    if (refusal == HISTAR_TEXT_MEMORY) again++, it.len = 0, refusal = histar_dump_since(&other, note, takes, &it);
    if (refusal || it.len == sizeof it.text || out > before) return 0;
    return strstr(it.text, "\nevent 2 1 cat_create => cat #1\n") != NULL;
}

/* Whether a kernel is shared by two seats with each request for memory refused in turn, or else opens nothing. */
static int kernels_are_shared(void)
{
    for (refused = 1;; refused++) {
        uint32_t refusal;
        asked = out = again = 0;
        refusal = histar_share(&seat, 8, 4);
        if (refusal == HISTAR_UNAVAILABLE && asked >= refused && out == 0) continue;
        if (refusal) return 0;
        refusal = histar_seat_open(&other, &seat);
        if (refusal && (refusal != HISTAR_UNAVAILABLE || asked < refused)) return 0;
        if (!refusal && (!calls_are_shared() || !is_read() || !lack_is_dumped() || again > 1)) return 0;
        if (histar_close(&seat) || histar_close(&other) || out != 0) return 0;
        if (asked < refused) return again == 0 && refused > 9;
    }
}

int main(void)
{
    for (refused = 1;; refused++) {
        long at_open;
        uint32_t refusal;
        asked = out = 0;
        refusal = histar_open(&k, 8);
        at_open = asked;
        if (refusal && (refusal != HISTAR_UNAVAILABLE || asked < refused || out != 0)) return 1;
        if (refusal) continue;
        if (asked >= refused) return 2;
        if (!calls_are_done() || asked != at_open) return 3;
        if (!rest_is_zero()) return 4;
        histar_close(&k);
        if (out != 0) return 5;
        if (!logs_are_kept()) return 6;
        if (!kernels_are_shared()) return 7;
        if (!kernels_come_back()) return 8;
        printf("%ld requests\n", at_open);
        return at_open == 0;
    }
}
