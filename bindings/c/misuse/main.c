/* The table of misuse: what a program does wrong with a kernel, one thing a row. Each row is refused with its number, and leaves
 * the kernel as it was: the dump of its log, which has the state, is the same before and after.
 *
 * misuse   prints how many rows there are, and each that went otherwise */
#include "misuse.h"
#include "histar_debug.h"
#include <pthread.h>
#include <signal.h>
#include <sys/mman.h>
#include <sys/time.h>

#define FAR ((uint64_t)1 << 32)

/* The kernel that is misused: it has a log, a secret at level 3 in a category, a stranger, an address space and a packet. And
 * others: one that is closed, and one that was never open. */
histar k, closed;
static histar never;
/* A seat of a shared kernel whose list has a log and one call, and a seat that is closed. */
histar seat;
static histar unseated;
static histar_object shared_segment;
histar_object secret;
static histar_object stranger, space;
static histar_label plain, guarded;
static char place[64];
static const char KEY[] = "the-key-that-nobody-may-see";

void must(uint32_t refusal)
{
    if (!refusal) return;
    fprintf(stderr, "misuse: refused %u %s\n", refusal, histar_refusal_name(refusal));
    exit(2);
}

histar_entry in_root(histar_object object) { return histar_in(HISTAR_ROOT, object); }

static void opens(void)
{
    histar_category category;
    histar_label clearance = histar_level(2);
    must(histar_open(&k, 64));
    must(histar_log_on(&k, UINT64_MAX, HISTAR_LOG_WRITES));
    must(histar_cat_create(&k, HISTAR_BOOT, &category));
    plain = histar_level(1);
    guarded = histar_with(plain, category, 3);
    must(histar_segment_create(&k, HISTAR_BOOT, HISTAR_ROOT, &guarded, 2, 1, &secret));
    must(histar_segment_write(&k, HISTAR_BOOT, in_root(secret), 0, KEY, sizeof KEY));
    must(histar_as_create(&k, HISTAR_BOOT, HISTAR_ROOT, &guarded, 1, &space));
    must(histar_thread_create(&k, HISTAR_BOOT, HISTAR_ROOT, &plain, 1, &clearance, 0, &stranger));
    must(histar_dev_send(&k, HISTAR_BOOT, in_root(HISTAR_DEVICE), "packet", 6));
    must(histar_open(&closed, 8));
    must(histar_close(&closed));
    must(histar_share_with(&seat, 8, 1, 4, 1, 3, 1));
    must(histar_segment_create(&seat, HISTAR_BOOT, HISTAR_ROOT, &plain, 2, 1, &shared_segment));
    must(histar_share(&unseated, 8, 3));
    must(histar_close(&unseated));
}

/* ---- Kernels that are not open, or are already ---- */

uint32_t is_called(histar *kernel) { return histar_cat_create(kernel, HISTAR_BOOT, NULL); }
static uint32_t never_opened(void) { return is_called(&never); }
static uint32_t new_on_the_stack(void)
{
    histar it = HISTAR_INIT;
    return histar_segment_read(&it, HISTAR_BOOT, in_root(secret), 0, place, 3);
}
static uint32_t read_closed(void) { return histar_segment_read(&closed, HISTAR_BOOT, in_root(secret), 0, place, 3); }
static uint32_t write_closed(void) { return histar_segment_write(&closed, HISTAR_BOOT, in_root(secret), 0, "new", 3); }
static uint32_t create_closed(void) { return histar_segment_create(&closed, HISTAR_BOOT, HISTAR_ROOT, &plain, 2, 1, NULL); }
static uint32_t look_up_closed(void)
{
    int is_there;
    histar_object it;
    return histar_kept_live(&closed, 0, &is_there, &it);
}
static uint32_t log_closed(void) { return histar_log_on(&closed, 9, HISTAR_LOG_WRITES); }
static uint32_t dump_closed(void)
{
    size_t needed;
    return histar_dump(&closed, place, sizeof place, &needed);
}
static uint32_t closed_twice(void) { return histar_close(&closed); }
static uint32_t opened_twice(void) { return histar_open(&k, 64); }
static uint32_t open_of_seven_pages(void) { return histar_open(&closed, 7); }
static uint32_t called_after_a_refused_open(void) { return open_of_seven_pages() ? is_called(&closed) : 0; }
static uint32_t copied(void)
{
    static histar copy;
    memcpy(&copy, &k, sizeof k);
    must(histar_close(&copy));
    return is_called(&copy);
}
static uint32_t open_of_far_more_pages(void) { return histar_open(&closed, FAR + 64); }
static uint32_t device_at_257(void) { return histar_open_with(&closed, 64, 257, 4, 1); }

/* ---- Numbers, lengths and labels that make no call ---- */

static uint32_t write_far(void) { return histar_segment_write(&k, HISTAR_BOOT, in_root(secret), FAR, "new", 3); }
static uint32_t read_far_more(void) { return histar_segment_read(&k, HISTAR_BOOT, in_root(secret), 0, place, FAR + 3); }
static uint32_t read_far(void) { return histar_segment_read(&k, HISTAR_BOOT, in_root(secret), FAR, place, 3); }
static uint32_t load_far_more(void) { return histar_load(&k, HISTAR_BOOT, 0, place, FAR + 3); }
static uint32_t pages_far(void) { return histar_segment_create(&k, HISTAR_BOOT, HISTAR_ROOT, &plain, 2, FAR + 1, NULL); }
static uint32_t quota_far(void) { return histar_segment_create(&k, HISTAR_BOOT, HISTAR_ROOT, &plain, FAR + 2, 1, NULL); }
static uint32_t avoid_far(void) { return histar_container_create(&k, HISTAR_BOOT, HISTAR_ROOT, &plain, 2, FAR, NULL); }
static uint32_t resized_far(void) { return histar_segment_resize(&k, HISTAR_BOOT, in_root(secret), FAR); }
static uint32_t moved_far(void) { return histar_quota_move(&k, HISTAR_BOOT, in_root(secret), (int64_t)FAR + 1); }
static uint32_t moved_far_down(void) { return histar_quota_move(&k, HISTAR_BOOT, in_root(secret), -(int64_t)FAR + 1); }
static uint32_t slot_far(void) { return histar_as_map(&k, HISTAR_BOOT, in_root(space), FAR, 0, in_root(secret), 0, 1, HISTAR_READ); }
static uint32_t page_far(void) { return histar_as_map(&k, HISTAR_BOOT, in_root(space), 0, FAR, in_root(secret), 0, 1, HISTAR_READ); }
static uint32_t first_far(void) { return histar_as_map(&k, HISTAR_BOOT, in_root(space), 0, 0, in_root(secret), FAR, 1, HISTAR_READ); }
static uint32_t count_far(void) { return histar_as_map(&k, HISTAR_BOOT, in_root(space), 0, 0, in_root(secret), 0, FAR + 1, HISTAR_READ); }
static uint32_t rights_far(void) { return histar_as_map(&k, HISTAR_BOOT, in_root(space), 0, 0, in_root(secret), 0, 1, FAR + HISTAR_READ); }
static uint32_t unmapped_far(void) { return histar_as_unmap(&k, HISTAR_BOOT, in_root(space), FAR); }
static uint32_t slot_read_far(void)
{
    histar_mapping mapping;
    return histar_as_get(&k, HISTAR_BOOT, in_root(space), FAR, &mapping);
}
static uint32_t listed_far(void)
{
    histar_list list;
    return histar_container_list(&k, HISTAR_BOOT, HISTAR_ROOT, FAR, &list);
}
static uint32_t index_far(void)
{
    int is_there;
    histar_label label;
    return histar_kept_label(&k, 65536, &is_there, &label);
}
static uint32_t created(histar_label label) { return histar_segment_create(&k, HISTAR_BOOT, HISTAR_ROOT, &label, 2, 1, NULL); }
static uint32_t level_257(void) { return created(histar_level(257)); }
static uint32_t level_259(void) { return created(histar_with(plain, histar_category_of(1), 259)); }
static uint32_t pairs_25(void)
{
    histar_label label = plain;
    for (int i = 0; i < 25; i++) label = histar_with(label, histar_category_of(1), 3);
    return created(label);
}
static uint32_t bytes_65(void) { return histar_segment_write(&k, HISTAR_BOOT, in_root(secret), 0, (char[65]){0}, 65); }
static uint32_t bytes_far(void) { return histar_store(&k, HISTAR_BOOT, 0, "new", FAR + 3); }
static uint32_t metadata_65(void) { return histar_meta_set(&k, HISTAR_BOOT, in_root(secret), (char[65]){0}, 65); }
static uint32_t packet_65(void) { return histar_dev_send(&k, HISTAR_BOOT, in_root(HISTAR_DEVICE), (char[65]){0}, 65); }
static uint32_t no_bytes(void) { return histar_segment_read(&k, HISTAR_BOOT, in_root(secret), 0, place, 0); }
static uint32_t packet_in_63(void)
{
    size_t len;
    return histar_dev_recv(&k, HISTAR_BOOT, in_root(HISTAR_DEVICE), place, 63, &len);
}
static uint32_t metadata_in_63(void) { return histar_meta_get(&k, HISTAR_BOOT, in_root(secret), place, 63); }
static uint32_t dump_in_63(void)
{
    size_t needed = 0;
    uint32_t refusal = histar_dump(&k, place, 63, &needed);
    return needed > 63 && !place[0] ? refusal : 0;
}
/* Nothing is written into room that lacks a byte. */
static uint32_t text_in_a_byte_less(uint32_t (*writes)(histar *, void *, size_t, size_t *))
{
    static char text[1 << 16];
    size_t needed, len;
    uint32_t refusal;
    must(writes(&k, text, sizeof text, &needed));
    memset(text, 0, sizeof text);
    refusal = writes(&k, text, needed - 1, &len);
    for (size_t i = 0; i < sizeof text; i++)
        if (text[i]) return HISTAR_DONE;
    return len == needed ? refusal : HISTAR_DONE;
}
static uint32_t dump_in_a_byte_less(void) { return text_in_a_byte_less(histar_dump); }
static uint32_t checkpoint_in_a_byte_less(void) { return text_in_a_byte_less(histar_checkpoint); }

/* What a dump or a checkpoint goes to: it keeps what it is given, and answers so at the part with this number. */
static struct taker {
    char text[1 << 16];
    size_t len, parts;
    uint32_t at, answer;
} taker;
static uint32_t takes(void *context, const void *part, size_t len)
{
    struct taker *it = context;
    if (it->len + len > sizeof it->text) exit(2);
    memcpy(it->text + it->len, part, len);
    it->len += len;
    return ++it->parts == it->at ? it->answer : 0;
}
static struct taker *empties(uint32_t at, uint32_t answer)
{
    memset(&taker, 0, sizeof taker);
    taker.at = at;
    taker.answer = answer;
    return &taker;
}
static uint32_t calls_the_kernel(void *context, const void *part, size_t len)
{
    (void)part, (void)len;
    *(uint32_t *)context = histar_cat_create(&k, HISTAR_BOOT, NULL);
    return 0;
}
static uint32_t dump_given_closed(void) { return histar_dump_to(&closed, takes, empties(0, 0)); }
static uint32_t checkpoint_given_closed(void) { return histar_checkpoint_to(&closed, takes, empties(0, 0)); }
static uint32_t checkpoint_given_of_a_seat(void) { return histar_checkpoint_to(&seat, takes, empties(0, 0)); }
static uint32_t dump_given_without_a_log(void)
{
    histar its = HISTAR_INIT;
    uint32_t refusal;
    must(histar_open(&its, 8));
    refusal = histar_dump_to(&its, takes, empties(0, 0));
    must(histar_close(&its));
    return taker.parts ? 0 : refusal;
}
/* The dump that is written into room, and the same given part by part. */
/* Whether what is given part by part is another text than the one that is written into room. */
static uint32_t is_given_otherwise(histar *it)
{
    static char text[1 << 16];
    size_t len = 0;
    must(histar_dump(it, text, sizeof text, &len));
    must(histar_dump_to(it, takes, empties(0, 0)));
    return taker.len != len || memcmp(taker.text, text, len);
}
static uint32_t dump_given(void) { return is_given_otherwise(&k) || taker.parts < 2; }
static uint32_t dump_of_a_seat_given(void) { return is_given_otherwise(&seat); }
static uint32_t checkpoint_given(void)
{
    static char text[1 << 16];
    size_t len = 0;
    must(histar_checkpoint(&k, text, sizeof text, &len));
    must(histar_checkpoint_to(&k, takes, empties(0, 0)));
    return taker.len != len || memcmp(taker.text, text, len);
}
static uint32_t dump_ended_by_its_taker(void) { return histar_dump_to(&k, takes, empties(2, 7)) == 7 && taker.parts == 2 ? 7 : 0; }
static uint32_t checkpoint_ended_by_its_taker(void) { return histar_checkpoint_to(&k, takes, empties(1, 7)) == 7 && taker.parts == 1 ? 7 : 0; }
static uint32_t call_by_what_takes_a_dump(void)
{
    uint32_t refusal = 0;
    must(histar_dump_to(&k, calls_the_kernel, &refusal));
    return refusal;
}
static uint32_t call_by_what_takes_a_checkpoint(void)
{
    uint32_t refusal = 0;
    must(histar_checkpoint_to(&k, calls_the_kernel, &refusal));
    return refusal;
}
static uint32_t log_begun_late(void) { return histar_log_on(&k, 9, HISTAR_LOG_WRITES); }

/* A kernel whose log has as many write calls as it may have. */
static histar logged;
static uint32_t opens_logged(uint64_t most)
{
    uint64_t made;
    must(histar_open(&logged, 8));
    must(histar_log_on(&logged, most, HISTAR_LOG_WRITES));
    for (made = 0; made < most; made++) must(is_called(&logged));
    return is_called(&logged);
}
/* A call that is refused leaves the dump as it was, and one that the rules refuse is refused so too; a read is answered, and once the log
 * is cut the call is made, as the thread's next one. */
static uint32_t call_past_the_logs_bound(void)
{
    static char before[4096], after[4096];
    size_t len, late;
    uint64_t pages;
    uint32_t refusal = opens_logged(3);
    must(histar_dump(&logged, before, sizeof before, &len));
    if (is_called(&logged) != refusal || histar_unref(&logged, HISTAR_BOOT, in_root(HISTAR_ROOT)) != refusal) return HISTAR_DONE;
    if (histar_segment_len(&logged, HISTAR_BOOT, in_root(HISTAR_ROOT), &pages) != HISTAR_WRONG_TYPE) return HISTAR_DONE;
    must(histar_dump(&logged, after, sizeof after, &late));
    if (late != len || memcmp(before, after, len)) return HISTAR_DONE;
    must(histar_log_cut(&logged, 1, HISTAR_LOG_WRITES));
    must(is_called(&logged));
    if (is_called(&logged) != refusal) return HISTAR_DONE;
    must(histar_dump(&logged, after, sizeof after, &late));
    must(histar_close(&logged));
    return memmem(after, late, "event 2 4 cat_create => cat #4\n", 31) ? refusal : HISTAR_DONE;
}
/* A read that the rules refuse is kept where all are, from a cut on too. One past the bound leaves the dump as it was. */
static uint32_t read_past_the_bound_of_a_log_of_all(void)
{
    static const char kept[] = "read 2 segment_len #1 #1 => refused 4 WrongType\n";
    static char before[4096], after[4096];
    size_t len, late;
    uint64_t pages;
    uint32_t refusal;
    must(histar_open(&logged, 8));
    must(histar_log_on(&logged, 1, HISTAR_LOG_ALL));
    if (histar_segment_len(&logged, HISTAR_BOOT, in_root(HISTAR_ROOT), &pages) != HISTAR_WRONG_TYPE) return HISTAR_DONE;
    must(histar_dump(&logged, before, sizeof before, &len));
    refusal = histar_segment_len(&logged, HISTAR_BOOT, in_root(HISTAR_ROOT), &pages);
    must(histar_dump(&logged, after, sizeof after, &late));
    if (late != len || memcmp(before, after, len) || !memmem(after, late, kept, sizeof kept - 1)) return HISTAR_DONE;
    must(histar_log_cut(&logged, 1, HISTAR_LOG_ALL));
    if (histar_segment_len(&logged, HISTAR_BOOT, in_root(HISTAR_ROOT), &pages) != HISTAR_WRONG_TYPE) return HISTAR_DONE;
    if (histar_segment_len(&logged, HISTAR_BOOT, in_root(HISTAR_ROOT), &pages) != refusal) return HISTAR_DONE;
    must(histar_close(&logged));
    return refusal;
}
static uint32_t call_to_a_log_of_nothing(void)
{
    uint32_t refusal = opens_logged(0);
    must(histar_close(&logged));
    return refusal;
}

/* ---- Two calls at once ---- */

/* What a signal's handler is told while a dump is made, and whether it came in the middle of one. */
static volatile sig_atomic_t by_handler, close_by_handler, open_by_handler;

static void handler(int signal)
{
    (void)signal;
    by_handler = (sig_atomic_t)histar_segment_read(&k, stranger, in_root(secret), 0, place, 3);
    if (by_handler != HISTAR_BUSY) return;
    close_by_handler = (sig_atomic_t)histar_close(&k);
    open_by_handler = (sig_atomic_t)histar_open(&k, 64);
}

static void dumps(void)
{
    static char text[1 << 16];
    size_t needed;
    must(histar_dump(&k, text, sizeof text, &needed));
}

static int is_interrupted(void)
{
    struct itimerval often = {{0, 50}, {0, 50}}, never_again = {{0, 0}, {0, 0}};
    by_handler = 0;
    signal(SIGALRM, handler);
    setitimer(ITIMER_REAL, &often, NULL);
    for (int i = 0; i < 100000 && by_handler != HISTAR_BUSY; i++) dumps();
    setitimer(ITIMER_REAL, &never_again, NULL);
    return by_handler == HISTAR_BUSY;
}
static uint32_t called_by_a_handler(void) { return is_interrupted() ? (uint32_t)by_handler : 0; }
static uint32_t closed_by_a_handler(void) { return is_interrupted() ? (uint32_t)close_by_handler : 0; }
static uint32_t opened_by_a_handler(void) { return is_interrupted() ? (uint32_t)open_by_handler : 0; }

/* A second thread reads as the stranger until it is stopped: how often it was told that the kernel is busy, and how often it got
 * the secret. */
static int stop;
static long busy, got;

static void *reads_as_stranger(void *given)
{
    char bytes[64] = {0};
    (void)given;
    while (!__atomic_load_n(&stop, __ATOMIC_SEQ_CST)) {
        uint32_t refusal = histar_segment_read(&k, stranger, in_root(secret), 0, bytes, sizeof KEY);
        busy += refusal == HISTAR_BUSY;
        got += refusal == HISTAR_DONE || !memcmp(bytes, KEY, sizeof KEY);
    }
    return NULL;
}

/* Two threads call at once: some call is told so, and no call gives another's answer. */
static uint32_t two_threads(void)
{
    pthread_t other;
    char bytes[64];
    long own_busy = 0, own_done = 0, wrong = 0;
    stop = 0;
    busy = got = 0;
    must((uint32_t)pthread_create(&other, NULL, reads_as_stranger, NULL));
    for (long i = 0; i < 1000000000 && (own_done < 1000000 || !own_busy); i++) {
        uint32_t refusal = histar_segment_read(&k, HISTAR_BOOT, in_root(secret), 0, bytes, sizeof KEY);
        own_busy += refusal == HISTAR_BUSY;
        own_done += refusal == HISTAR_DONE;
        if (refusal != HISTAR_BUSY) wrong += refusal != HISTAR_DONE || memcmp(bytes, KEY, sizeof KEY);
    }
    __atomic_store_n(&stop, 1, __ATOMIC_SEQ_CST);
    pthread_join(other, NULL);
    return busy && own_busy && !got && !wrong ? HISTAR_BUSY : HISTAR_DONE;
}

/* ---- Bytes that stay ---- */

static int has_key(const void *bytes, size_t len) { return memmem(bytes, len, KEY, sizeof KEY) != NULL; }
static int records_have_key(const histar *it) { return has_key(&it->request, sizeof it->request) || has_key(&it->answer, sizeof it->answer); }

static uint32_t read_after_a_reader(void)
{
    char bytes[64];
    uint32_t refusal;
    must(histar_segment_read(&k, HISTAR_BOOT, in_root(secret), 0, bytes, sizeof KEY));
    if (records_have_key(&k)) return HISTAR_DONE;
    refusal = histar_segment_read(&k, stranger, in_root(secret), 0, bytes, sizeof KEY);
    return records_have_key(&k) ? HISTAR_DONE : refusal;
}
static uint32_t closed_with_the_key(void)
{
    histar_object made;
    char bytes[64];
    must(histar_open(&closed, 8));
    must(histar_segment_create(&closed, HISTAR_BOOT, HISTAR_ROOT, &plain, 2, 1, &made));
    must(histar_segment_write(&closed, HISTAR_BOOT, in_root(made), 0, KEY, sizeof KEY));
    if (records_have_key(&closed)) return HISTAR_DONE;
    must(histar_segment_read(&closed, HISTAR_BOOT, in_root(made), 0, bytes, sizeof KEY));
    must(histar_close(&closed));
    return has_key(&closed, sizeof closed) ? HISTAR_DONE : is_called(&closed);
}

/* ---- A kernel that threads share ---- */

static uint32_t shared_twice(void) { return histar_share(&seat, 8, 3); }
static uint32_t shared_where_a_kernel_is(void) { return histar_share(&k, 8, 3); }
static uint32_t shared_with_seven_pages(void) { return histar_share(&unseated, 7, 3); }
static uint32_t shared_with_far_more_pages(void) { return histar_share(&unseated, FAR + 64, 3); }
static uint32_t shared_with_a_device_at_257(void) { return histar_share_with(&unseated, 64, 257, 4, 1, 3, 0); }
static uint32_t shared_in_a_call(void)
{
    uint32_t refusal;
    must(histar_taken(&unseated));
    refusal = histar_share(&unseated, 8, 3);
    histar_released(&unseated, HISTAR_DONE);
    return refusal;
}
static uint32_t seat_beside_one_never_opened(void) { return histar_seat_open(&unseated, &never); }
static uint32_t seat_beside_a_closed_one(void)
{
    static histar it;
    return histar_seat_open(&it, &unseated);
}
static uint32_t seat_beside_a_kernel(void) { return histar_seat_open(&unseated, &k); }
static uint32_t seat_beside_itself(void) { return histar_seat_open(&unseated, &unseated); }
static uint32_t seat_beside_a_copy(void)
{
    static histar copy;
    memcpy(&copy, &seat, sizeof seat);
    return histar_seat_open(&unseated, &copy);
}
static uint32_t seat_opened_twice(void) { return histar_seat_open(&seat, &seat); }
static uint32_t seat_where_a_kernel_is(void) { return histar_seat_open(&k, &seat); }
static uint32_t kernel_where_a_seat_is(void) { return histar_open(&seat, 8); }
static uint32_t seat_opened_in_a_call(void)
{
    uint32_t refusal;
    must(histar_taken(&unseated));
    refusal = histar_seat_open(&unseated, &seat);
    histar_released(&unseated, HISTAR_DONE);
    return refusal;
}
static uint32_t seat_beside_one_in_a_call(void)
{
    uint32_t refusal;
    must(histar_taken(&seat));
    refusal = histar_seat_open(&unseated, &seat);
    histar_released(&seat, HISTAR_DONE);
    return refusal;
}
static histar_note a_note(void)
{
    histar_note note;
    must(histar_seen(&seat, &note));
    return note;
}
static uint32_t note_of_another(void)
{
    histar_note note = a_note();
    note.since++;
    return histar_learn(&seat, note);
}
static uint32_t note_of_another_place(void)
{
    histar_note note = a_note();
    note.at++;
    return histar_learn(&seat, note);
}
static uint32_t note_of_more_calls(void)
{
    histar_note note = a_note();
    note.calls++;
    return histar_learn(&seat, note);
}
static uint32_t noted_by_a_kernel(void)
{
    histar_note note;
    return histar_seen(&k, &note);
}
static uint32_t learned_by_a_kernel(void)
{
    histar_note none = {0, 0, 0};
    return histar_learn(&k, none);
}
static uint32_t called_by_a_closed_seat(void) { return is_called(&unseated); }
static uint32_t copied_seat(void)
{
    static histar copy;
    memcpy(&copy, &seat, sizeof seat);
    must(histar_close(&copy));
    return is_called(&copy);
}
static uint32_t log_of_a_seat(void) { return histar_log_on(&seat, 9, HISTAR_LOG_WRITES); }
static uint32_t look_up_by_a_seat(void)
{
    int is_there;
    histar_object it;
    return histar_kept_live(&seat, 0, &is_there, &it);
}
static uint32_t opened_after_a_seat(void)
{
    histar it = HISTAR_INIT;
    uint32_t refusal;
    must(histar_seat_open(&it, &seat));
    must(histar_close(&it));
    must(histar_open(&it, 8));
    must(histar_log_on(&it, 9, HISTAR_LOG_WRITES)); /* which a seat is refused */
    refusal = is_called(&it);
    must(histar_close(&it));
    return refusal;
}
/* ---- The dump of what a seat lacks ---- */

static uint32_t dump_since_of_another(void)
{
    histar_note note = a_note();
    note.since++;
    return histar_dump_since(&seat, note, takes, empties(0, 0));
}
static uint32_t dump_since_what_was_seen(void)
{
    histar_note note = seat.shared;
    return histar_dump_since(&seat, note, takes, empties(0, 0));
}
static uint32_t dump_of_more_calls(void)
{
    histar_note note = a_note();
    note.calls++;
    return histar_dump_since(&seat, note, takes, empties(0, 0));
}
static uint32_t dump_since_by_a_kernel(void)
{
    histar_note none = {0, 0, 0};
    return histar_dump_since(&k, none, takes, empties(0, 0));
}
/* What two seats lack one after another: each call is in one dump. */
static uint32_t dumps_since(void)
{
    static histar its, older, next;
    histar_note note;
    must(histar_share(&its, 8, 3));
    must(histar_seat_open(&older, &its));
    must(is_called(&its));
    must(histar_seat_open(&next, &its));
    must(histar_seen(&its, &note));
    must(histar_dump_since(&older, note, takes, empties(0, 0)));
    if (!strstr(taker.text, "\nevent 2 1 cat_create => cat #1\n")) return 1;
    must(histar_close(&older));
    must(is_called(&its));
    must(histar_seen(&its, &note));
    must(histar_dump_since(&next, note, takes, empties(0, 0)));
    if (!strstr(taker.text, "\nevent 2 1 cat_create => cat #2\n") || strstr(taker.text, "cat #1\n")) return 2;
    must(histar_dump_since(&its, note, takes, empties(0, 0)));
    if (strstr(taker.text, "\nevent")) return 3;
    must(histar_close(&next));
    must(histar_close(&its));
    return HISTAR_DONE;
}

/* ---- Readers of a seat, of which one is open for the length of each ---- */

static histar reader;
static uint32_t with_a_reader(uint32_t (*misuses)(void))
{
    uint32_t refusal;
    must(histar_reader_open(&reader, &seat));
    refusal = misuses();
    must(histar_close(&reader));
    return refusal;
}
static uint32_t calls_the_seat(void) { return is_called(&seat); }
static uint32_t reads_by_the_seat(void)
{
    histar_self self;
    return histar_self_get(&seat, HISTAR_BOOT, &self);
}
static uint32_t closes_the_seat(void) { return histar_close(&seat); }
static uint32_t calls_the_reader(void) { return is_called(&reader); }
static uint32_t opens_the_reader(void) { return histar_reader_open(&reader, &seat); }
static uint32_t opens_a_seat_there(void) { return histar_seat_open(&reader, &seat); }
static uint32_t opens_beside_it(void) { return histar_seat_open(&unseated, &reader); }
static uint32_t opens_a_reader_of_it(void) { return histar_reader_open(&unseated, &reader); }
static uint32_t notes_by_it(void)
{
    histar_note note;
    return histar_seen(&reader, &note);
}
static uint32_t learns_by_it(void)
{
    histar_note note = seat.shared;
    return histar_learn(&reader, note);
}
static uint32_t dumps_by_it(void) { return histar_dump_to(&reader, takes, empties(0, 0)); }
/* Two readers and the seat read alike, and a secret's reader is refused as by the seat. */
static uint32_t reads_at_once(void)
{
    static histar other;
    unsigned char one[64], two[64];
    uint32_t refusal;
    must(histar_reader_open(&other, &seat));
    must(histar_segment_read(&reader, HISTAR_BOOT, in_root(shared_segment), 0, one, 64));
    must(histar_segment_read(&other, HISTAR_BOOT, in_root(shared_segment), 0, two, 64));
    refusal = histar_segment_read(&other, (histar_object){99}, in_root(shared_segment), 0, two, 64);
    must(histar_close(&other));
    return memcmp(one, two, 64) ? HISTAR_DONE : refusal;
}
static uint32_t seat_with_a_reader(void) { return with_a_reader(calls_the_seat); }
static uint32_t read_with_a_reader(void) { return with_a_reader(reads_by_the_seat); }
static uint32_t closed_with_a_reader(void) { return with_a_reader(closes_the_seat); }
static uint32_t write_by_a_reader(void) { return with_a_reader(calls_the_reader); }
static uint32_t reader_opened_twice(void) { return with_a_reader(opens_the_reader); }
static uint32_t seat_where_a_reader_is(void) { return with_a_reader(opens_a_seat_there); }
static uint32_t seat_beside_a_reader(void) { return with_a_reader(opens_beside_it); }
static uint32_t reader_of_a_reader(void) { return with_a_reader(opens_a_reader_of_it); }
static uint32_t note_by_a_reader(void) { return with_a_reader(notes_by_it); }
static uint32_t learned_by_a_reader(void) { return with_a_reader(learns_by_it); }
static uint32_t dump_by_a_reader(void) { return with_a_reader(dumps_by_it); }
static uint32_t readers_at_once(void) { return with_a_reader(reads_at_once); }
static uint32_t reader_of_a_kernel(void) { return histar_reader_open(&reader, &k); }
static uint32_t reader_of_a_closed_seat(void) { return histar_reader_open(&reader, &unseated); }
static uint32_t reader_of_a_copy(void)
{
    static histar copy;
    memcpy(&copy, &seat, sizeof seat);
    return histar_reader_open(&reader, &copy);
}
static uint32_t reader_of_itself(void) { return histar_reader_open(&reader, &reader); }
static uint32_t reader_of_a_seat_in_a_call(void)
{
    uint32_t refusal;
    must(histar_taken(&seat));
    refusal = histar_reader_open(&reader, &seat);
    histar_released(&seat, HISTAR_DONE);
    return refusal;
}
static uint32_t called_by_a_closed_reader(void)
{
    (void)with_a_reader(never_opened);
    return is_called(&reader);
}
/* A seat that was read goes on. */
static uint32_t seat_after_its_readers(void)
{
    static histar its, one, two;
    uint32_t refusal;
    must(histar_share(&its, 8, 3));
    must(histar_reader_open(&one, &its));
    must(histar_reader_open(&two, &its));
    must(histar_close(&one));
    if (is_called(&its) != HISTAR_BUSY) return HISTAR_UNAVAILABLE;
    must(histar_close(&two));
    refusal = is_called(&its);
    must(histar_close(&its));
    return refusal;
}

/* A batch of so many calls, all of this number. */
static uint32_t is_batched(histar *kernel, uint32_t call, size_t count)
{
    static histar_request calls[17];
    static histar_answer answers[17];
    memset(calls, 0, sizeof calls);
    for (size_t i = 0; i < 17; i++) calls[i].call = call;
    return histar_batch(kernel, HISTAR_BOOT, calls, count, answers);
}
static uint32_t batch_of_nothing(void) { return is_batched(&seat, HISTAR_CALL_CAT_CREATE, 0); }
static uint32_t batch_of_seventeen(void) { return is_batched(&seat, HISTAR_CALL_CAT_CREATE, 17); }
static uint32_t batch_of_a_read(void) { return is_batched(&seat, HISTAR_CALL_SELF_GET, 1); }
static uint32_t batch_of_no_call(void) { return is_batched(&seat, 0, 1); }
static uint32_t batch_of_a_call_in_a_batch(void) { return is_batched(&seat, HISTAR_CALL_IN_BATCH + HISTAR_CALL_CAT_CREATE, 1); }
static uint32_t batch_by_a_kernel(void) { return is_batched(&k, HISTAR_CALL_CAT_CREATE, 1); }
static uint32_t batch_by_a_closed_seat(void) { return is_batched(&unseated, HISTAR_CALL_CAT_CREATE, 1); }
static uint32_t seat_dumped_into_too_little(void)
{
    size_t needed = 0;
    return histar_dump(&seat, place, 1, &needed);
}
static uint32_t dumped_without_a_log(void)
{
    histar its = HISTAR_INIT;
    uint32_t refusal;
    size_t needed = 0;
    must(histar_share(&its, 8, 1));
    must(is_called(&its));
    refusal = histar_dump(&its, place, sizeof place, &needed);
    must(histar_close(&its));
    return refusal;
}
/* The list has room for 512 calls, and another seat makes none. */
static uint32_t calls_past_the_room(void)
{
    histar its = HISTAR_INIT, other = HISTAR_INIT;
    histar_object it;
    uint32_t refusal;
    must(histar_share(&its, 8, 1));
    must(histar_seat_open(&other, &its));
    must(histar_segment_create(&its, HISTAR_BOOT, HISTAR_ROOT, &plain, 2, 1, &it));
    for (int i = 1; i < 512; i++) must(histar_segment_write(&its, HISTAR_BOOT, in_root(it), 0, "once", 4));
    refusal = histar_segment_write(&its, HISTAR_BOOT, in_root(it), 0, "more", 4);
    must(histar_close(&its));
    must(histar_close(&other));
    return refusal;
}
static uint32_t shared_key_after_a_close(void)
{
    static histar its;
    char bytes[64];
    histar_object it;
    must(histar_share(&its, 8, 2));
    must(histar_segment_create(&its, HISTAR_BOOT, HISTAR_ROOT, &plain, 2, 1, &it));
    must(histar_segment_write(&its, HISTAR_BOOT, in_root(it), 0, KEY, sizeof KEY));
    must(histar_segment_read(&its, HISTAR_BOOT, in_root(it), 0, bytes, sizeof KEY));
    if (records_have_key(&its)) return HISTAR_DONE;
    must(histar_close(&its));
    return has_key(&its, sizeof its) ? HISTAR_DONE : is_called(&its);
}

/* ---- A checkpoint, and what opens no kernel ---- */

static char written[1 << 16];
static size_t written_len;
static uint32_t checkpoint_closed(void) { return histar_checkpoint(&closed, place, sizeof place, &written_len); }
static uint32_t checkpoint_in_63(void)
{
    size_t needed = 0;
    uint32_t refusal = histar_checkpoint(&k, place, 63, &needed);
    return needed > 63 && !place[0] ? refusal : 0;
}
static uint32_t checkpoint_of_a_seat(void) { return histar_checkpoint(&seat, place, sizeof place, &written_len); }
static uint32_t cut_closed(void) { return histar_log_cut(&closed, 9, HISTAR_LOG_WRITES); }
static uint32_t cut_by_a_seat(void) { return histar_log_cut(&seat, 9, HISTAR_LOG_WRITES); }
/* A kernel opened at the checkpoint, in which these bytes stand in place of the first that are those, or at the first `len` bytes of it. It
 * is closed after a refused open, and opens otherwise. */
static uint32_t opened_with(const char *those, const char *these, size_t cut)
{
    uint32_t refusal;
    char *at;
    must(histar_checkpoint(&k, written, sizeof written, &written_len));
    at = memmem(written, written_len, those, strlen(those));
    if (!at) return HISTAR_DONE;
    memcpy(at, these, strlen(these));
    refusal = histar_open_at(&closed, written, written_len - cut);
    if (!refusal) must(histar_close(&closed));
    return is_called(&closed) == HISTAR_UNAVAILABLE ? refusal : HISTAR_DONE;
}
static uint32_t opened_at_its_checkpoint(void) { return opened_with("", "", 0); }
static uint32_t text_cut_short(void) { return opened_with("", "", 1); }
static uint32_t text_of_nothing(void) { return opened_with("", "", written_len); }
static uint32_t text_with_another_byte(void) { return opened_with("segment", "segmenT", 0); }
static uint32_t text_of_version_3(void) { return opened_with("dump 2", "dump 3", 0); }
static uint32_t text_with_the_first_id_3(void) { return opened_with("limits 64 1 4 1", "limits 64 1 3 1", 0); }
static uint32_t text_without_a_root(void) { return opened_with("object 1 ", "object 9 ", 0); }
/* No byte past the text can be read. */
static uint32_t text_of_far_more(void)
{
    char *room = mmap(NULL, sizeof written + 4096, PROT_READ | PROT_WRITE, MAP_PRIVATE | MAP_ANONYMOUS, -1, 0);
    uint32_t refusal;
    must(room == MAP_FAILED || mprotect(room + sizeof written, 4096, PROT_NONE));
    must(histar_checkpoint(&k, written, sizeof written, &written_len));
    memcpy(room + sizeof written - written_len, written, written_len);
    refusal = histar_open_at(&closed, room + sizeof written - written_len, (size_t)PTRDIFF_MAX + 1);
    munmap(room, sizeof written + 4096);
    return refusal;
}
static uint32_t text_with_events(void)
{
    must(histar_dump(&k, written, sizeof written, &written_len));
    return histar_open_at(&closed, written, written_len);
}
static uint32_t opened_at_twice(void) { return histar_open_at(&k, written, written_len); }
static uint32_t opened_at_where_a_seat_is(void) { return histar_open_at(&seat, written, written_len); }
static uint32_t opened_at_in_a_call(void)
{
    uint32_t refusal;
    must(histar_taken(&closed));
    refusal = histar_open_at(&closed, written, written_len);
    histar_released(&closed, HISTAR_DONE);
    return refusal;
}
static uint32_t written_with_the_key(void)
{
    char bytes[64];
    must(histar_open_at(&closed, written, written_len));
    must(histar_segment_read(&closed, HISTAR_BOOT, in_root(secret), 0, bytes, sizeof KEY));
    if (memcmp(bytes, KEY, sizeof KEY) || records_have_key(&closed)) return HISTAR_DONE;
    must(histar_close(&closed));
    return has_key(&closed, sizeof closed) ? HISTAR_DONE : is_called(&closed);
}

static const struct row ROWS[] = {
    {"a kernel that was never opened", HISTAR_UNAVAILABLE, never_opened},
    {"a kernel on the stack that was never opened", HISTAR_UNAVAILABLE, new_on_the_stack},
    {"a read after the close", HISTAR_UNAVAILABLE, read_closed},
    {"a write after the close", HISTAR_UNAVAILABLE, write_closed},
    {"a new segment after the close", HISTAR_UNAVAILABLE, create_closed},
    {"a look-up after the close", HISTAR_UNAVAILABLE, look_up_closed},
    {"a log after the close", HISTAR_UNAVAILABLE, log_closed},
    {"a dump after the close", HISTAR_UNAVAILABLE, dump_closed},
    {"a second close", HISTAR_DONE, closed_twice},
    {"a second open", HISTAR_BUSY, opened_twice},
    {"7 pages", HISTAR_BAD_LIMITS, open_of_seven_pages},
    {"a call after a refused open", HISTAR_UNAVAILABLE, called_after_a_refused_open},
    {"a copy of an open kernel", HISTAR_UNAVAILABLE, copied},
    {"2^32 + 64 pages", HISTAR_BAD_LIMITS, open_of_far_more_pages},
    {"a device at level 257", HISTAR_BAD_LIMITS, device_at_257},
    {"a write at 2^32", HISTAR_BAD_BATCH, write_far},
    {"a read at 2^32", HISTAR_BAD_BATCH, read_far},
    {"a read of 2^32 + 3 bytes", HISTAR_BAD_BATCH, read_far_more},
    {"a load of 2^32 + 3 bytes", HISTAR_BAD_BATCH, load_far_more},
    {"a segment of 2^32 + 1 pages", HISTAR_BAD_BATCH, pages_far},
    {"a quota of 2^32 + 2", HISTAR_BAD_BATCH, quota_far},
    {"a container that avoids kind 32", HISTAR_BAD_BATCH, avoid_far},
    {"a segment resized to 2^32 pages", HISTAR_BAD_BATCH, resized_far},
    {"a quota moved by 2^32 + 1", HISTAR_BAD_BATCH, moved_far},
    {"a quota moved by 1 - 2^32", HISTAR_BAD_BATCH, moved_far_down},
    {"a mapping in slot 2^32", HISTAR_BAD_BATCH, slot_far},
    {"a mapping at page 2^32", HISTAR_BAD_BATCH, page_far},
    {"a mapping from page 2^32 on", HISTAR_BAD_BATCH, first_far},
    {"a mapping of 2^32 + 1 pages", HISTAR_BAD_BATCH, count_far},
    {"a mapping with rights 2^32 + 1", HISTAR_BAD_BATCH, rights_far},
    {"slot 2^32 unmapped", HISTAR_BAD_BATCH, unmapped_far},
    {"slot 2^32 looked at", HISTAR_BAD_BATCH, slot_read_far},
    {"a list from place 2^32 on", HISTAR_BAD_BATCH, listed_far},
    {"the label of index 2^16", HISTAR_BAD_BATCH, index_far},
    {"the level 257 by default", HISTAR_BAD_BATCH, level_257},
    {"the level 259 in a category", HISTAR_BAD_BATCH, level_259},
    {"a label of 25 pairs", HISTAR_BAD_BATCH, pairs_25},
    {"65 bytes written", HISTAR_BAD_BATCH, bytes_65},
    {"2^32 + 3 bytes stored", HISTAR_BAD_BATCH, bytes_far},
    {"65 bytes of metadata", HISTAR_BAD_BATCH, metadata_65},
    {"a packet of 65 bytes", HISTAR_BAD_BATCH, packet_65},
    {"no byte read", HISTAR_BOUNDS, no_bytes},
    {"a packet received in room for 63 bytes", HISTAR_BAD_BATCH, packet_in_63},
    {"metadata read in room for 63 bytes", HISTAR_BAD_BATCH, metadata_in_63},
    {"a dump in room for 63 bytes", HISTAR_BOUNDS, dump_in_63},
    {"a dump in room that lacks a byte", HISTAR_BOUNDS, dump_in_a_byte_less},
    {"a checkpoint in room that lacks a byte", HISTAR_BOUNDS, checkpoint_in_a_byte_less},
    {"a dump given to a function", HISTAR_DONE, dump_given},
    {"a dump of a seat given to a function", HISTAR_DONE, dump_of_a_seat_given},
    {"a checkpoint given to a function", HISTAR_DONE, checkpoint_given},
    {"a dump given to a function after the close", HISTAR_UNAVAILABLE, dump_given_closed},
    {"a checkpoint given to a function after the close", HISTAR_UNAVAILABLE, checkpoint_given_closed},
    {"a dump given to a function without a log", HISTAR_BAD_BATCH, dump_given_without_a_log},
    {"a checkpoint of a seat given to a function", HISTAR_BAD_BATCH, checkpoint_given_of_a_seat},
    {"a dump that its function ends", 7, dump_ended_by_its_taker},
    {"a checkpoint that its function ends", 7, checkpoint_ended_by_its_taker},
    {"a call by the function that a dump goes to", HISTAR_BUSY, call_by_what_takes_a_dump},
    {"a call by the function that a checkpoint goes to", HISTAR_BUSY, call_by_what_takes_a_checkpoint},
    {"a log begun after a call", HISTAR_BAD_BATCH, log_begun_late},
    {"a call past the log's bound", HISTAR_LOG_FULL, call_past_the_logs_bound},
    {"a call to a log of no calls", HISTAR_LOG_FULL, call_to_a_log_of_nothing},
    {"a read past the bound of a log of all", HISTAR_LOG_FULL, read_past_the_bound_of_a_log_of_all},
    {"a call by the handler of a signal", HISTAR_BUSY, called_by_a_handler},
    {"a close by the handler of a signal", HISTAR_BUSY, closed_by_a_handler},
    {"an open by the handler of a signal", HISTAR_BUSY, opened_by_a_handler},
    {"calls by two threads at once", HISTAR_BUSY, two_threads},
    {"a stranger's read after a reader", HISTAR_CANNOT_OBSERVE, read_after_a_reader},
    {"a call after a close with the key in it", HISTAR_UNAVAILABLE, closed_with_the_key},
    {"a second share", HISTAR_BUSY, shared_twice},
    {"a share where a kernel is", HISTAR_BUSY, shared_where_a_kernel_is},
    {"a share of 7 pages", HISTAR_BAD_LIMITS, shared_with_seven_pages},
    {"a share of 2^32 + 64 pages", HISTAR_BAD_LIMITS, shared_with_far_more_pages},
    {"a share with a device at level 257", HISTAR_BAD_LIMITS, shared_with_a_device_at_257},
    {"a share in a call", HISTAR_BUSY, shared_in_a_call},
    {"a seat beside one that was never opened", HISTAR_UNAVAILABLE, seat_beside_one_never_opened},
    {"a seat beside one that is closed", HISTAR_UNAVAILABLE, seat_beside_a_closed_one},
    {"a seat beside a kernel", HISTAR_UNAVAILABLE, seat_beside_a_kernel},
    {"a seat beside itself", HISTAR_BUSY, seat_beside_itself},
    {"a seat beside a copy", HISTAR_UNAVAILABLE, seat_beside_a_copy},
    {"a seat that is opened twice", HISTAR_BUSY, seat_opened_twice},
    {"a seat where a kernel is", HISTAR_BUSY, seat_where_a_kernel_is},
    {"a kernel where a seat is", HISTAR_BUSY, kernel_where_a_seat_is},
    {"a seat that is opened in a call", HISTAR_BUSY, seat_opened_in_a_call},
    {"a seat beside one in a call", HISTAR_BUSY, seat_beside_one_in_a_call},
    {"a note of another shared kernel", HISTAR_OTHER_LIST, note_of_another},
    {"a note of one at another place", HISTAR_OTHER_LIST, note_of_another_place},
    {"a note of more calls than there are", HISTAR_OTHER_LIST, note_of_more_calls},
    {"a note by a kernel", HISTAR_BAD_BATCH, noted_by_a_kernel},
    {"a note learned by a kernel", HISTAR_BAD_BATCH, learned_by_a_kernel},
    {"a call by a closed seat", HISTAR_UNAVAILABLE, called_by_a_closed_seat},
    {"a copy of a seat", HISTAR_UNAVAILABLE, copied_seat},
    {"a log of a seat", HISTAR_BAD_BATCH, log_of_a_seat},
    {"a look-up by a seat", HISTAR_BAD_BATCH, look_up_by_a_seat},
    {"a kernel after a seat", HISTAR_DONE, opened_after_a_seat},
    {"a dump up to a note of another shared kernel", HISTAR_OTHER_LIST, dump_since_of_another},
    {"a dump up to less than a seat has seen", HISTAR_OTHER_LIST, dump_since_what_was_seen},
    {"a dump up to more calls than there are", HISTAR_OTHER_LIST, dump_of_more_calls},
    {"a dump up to a note by a kernel", HISTAR_BAD_BATCH, dump_since_by_a_kernel},
    {"dumps of what seats lack", HISTAR_DONE, dumps_since},
    {"a call by a seat that is read", HISTAR_BUSY, seat_with_a_reader},
    {"a read by a seat that is read", HISTAR_BUSY, read_with_a_reader},
    {"a close of a seat that is read", HISTAR_BUSY, closed_with_a_reader},
    {"a write call by a reader", HISTAR_BAD_BATCH, write_by_a_reader},
    {"a read that is refused by one of two readers", HISTAR_HALTED, readers_at_once},
    {"a note by a reader", HISTAR_BAD_BATCH, note_by_a_reader},
    {"a note learned by a reader", HISTAR_BAD_BATCH, learned_by_a_reader},
    {"a dump by a reader", HISTAR_BAD_BATCH, dump_by_a_reader},
    {"a reader that is opened twice", HISTAR_BUSY, reader_opened_twice},
    {"a seat where a reader is", HISTAR_BUSY, seat_where_a_reader_is},
    {"a seat beside a reader", HISTAR_UNAVAILABLE, seat_beside_a_reader},
    {"a reader of a reader", HISTAR_UNAVAILABLE, reader_of_a_reader},
    {"a reader of a kernel", HISTAR_UNAVAILABLE, reader_of_a_kernel},
    {"a reader of a closed seat", HISTAR_UNAVAILABLE, reader_of_a_closed_seat},
    {"a reader of a copy of a seat", HISTAR_UNAVAILABLE, reader_of_a_copy},
    {"a reader of itself", HISTAR_BUSY, reader_of_itself},
    {"a reader of a seat in a call", HISTAR_BUSY, reader_of_a_seat_in_a_call},
    {"a call by a closed reader", HISTAR_UNAVAILABLE, called_by_a_closed_reader},
    {"a call by a seat after its readers", HISTAR_DONE, seat_after_its_readers},
    {"a call past the list's room", HISTAR_LIST_FULL, calls_past_the_room},
    {"a batch of no calls", HISTAR_BAD_BATCH, batch_of_nothing},
    {"a batch of 17 calls", HISTAR_BAD_BATCH, batch_of_seventeen},
    {"a batch of a read call", HISTAR_BAD_BATCH, batch_of_a_read},
    {"a batch of what is no call", HISTAR_BAD_BATCH, batch_of_no_call},
    {"a batch of a call that is in a batch", HISTAR_BAD_BATCH, batch_of_a_call_in_a_batch},
    {"a batch by a kernel", HISTAR_BAD_BATCH, batch_by_a_kernel},
    {"a batch by a closed seat", HISTAR_UNAVAILABLE, batch_by_a_closed_seat},
    {"a dump of a seat into one byte", HISTAR_BOUNDS, seat_dumped_into_too_little},
    {"a dump of a seat without a log", HISTAR_BAD_BATCH, dumped_without_a_log},
    {"a call after a seat's close with the key in it", HISTAR_UNAVAILABLE, shared_key_after_a_close},
    {"a checkpoint after the close", HISTAR_UNAVAILABLE, checkpoint_closed},
    {"a checkpoint in room for 63 bytes", HISTAR_BOUNDS, checkpoint_in_63},
    {"a checkpoint of a seat", HISTAR_BAD_BATCH, checkpoint_of_a_seat},
    {"a log that is cut after the close", HISTAR_UNAVAILABLE, cut_closed},
    {"a log that is cut by a seat", HISTAR_BAD_BATCH, cut_by_a_seat},
    {"a text that is cut short by a byte", HISTAR_TEXT_FAULT, text_cut_short},
    {"a text of no bytes", HISTAR_TEXT_FAULT, text_of_nothing},
    {"a text with another byte", HISTAR_TEXT_FAULT, text_with_another_byte},
    {"a text of version 3", HISTAR_TEXT_FAULT, text_of_version_3},
    {"a text with the first id 3", HISTAR_TEXT_FAULT, text_with_the_first_id_3},
    {"a text of 2^63 bytes", HISTAR_TEXT_FAULT, text_of_far_more},
    {"a text without a root", HISTAR_ILL_FORMED, text_without_a_root},
    {"a text with calls", HISTAR_HAS_EVENTS, text_with_events},
    {"an open at the checkpoint", HISTAR_DONE, opened_at_its_checkpoint},
    {"an open at a text where a kernel is", HISTAR_BUSY, opened_at_twice},
    {"an open at a text where a seat is", HISTAR_BUSY, opened_at_where_a_seat_is},
    {"an open at a text in a call", HISTAR_BUSY, opened_at_in_a_call},
    {"a call after a close with the written key in it", HISTAR_UNAVAILABLE, written_with_the_key},
    {NULL, HISTAR_DONE, NULL},
};

/* The log's dump, which has the state. */
static size_t dump_of(char *text, size_t size)
{
    size_t needed = 0;
    must(histar_dump(&k, text, size, &needed));
    return needed;
}

/* Plays the rows of a table, and tells each that went otherwise. How many went well. */
static size_t played(const struct row *row, size_t *count)
{
    static char before[1 << 16], after[1 << 16];
    size_t went_well = 0;
    for (; row->what; row++, ++*count) {
        size_t len = dump_of(before, sizeof before);
        uint32_t refusal;
        memset(place, 0, sizeof place);
        refusal = row->misuses();
        if (refusal != row->refusal) printf("%s: %u in place of %u\n", row->what, refusal, row->refusal);
        else if (dump_of(after, sizeof after) != len || memcmp(before, after, len)) printf("%s: the kernel is changed\n", row->what);
        else went_well++;
    }
    return went_well;
}

int main(void)
{
    size_t count = 0, went_well;
    histar_object next;
    opens();
    went_well = played(ROWS, &count) + played(LEFT, &count) + played(FORKED, &count);
    /* The shared kernel is as it was: its list has one call, and its next object is the one after. */
    must(histar_segment_create(&seat, HISTAR_BOOT, HISTAR_ROOT, &plain, 2, 1, &next));
    if (next.id != shared_segment.id + 1) went_well--, printf("the shared kernel is changed\n");
    must(histar_close(&seat));
    printf("%zu of %zu misuses are refused and change nothing\n", went_well, count);
    must(histar_close(&k));
    return went_well != count;
}
