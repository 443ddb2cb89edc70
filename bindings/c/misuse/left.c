/* Calls that do not come back: a jump, the end of a thread or a close out of the function that a text goes to, a jump out of a call by the
 * handler of a signal, at any of its instructions. And calls by handlers, what a record keeps, and a small stack. */
#include "misuse.h"
#include "../wrapped.h"
#include <pthread.h>
#include <setjmp.h>
#include <signal.h>
#include <sys/mman.h>
#include <sys/time.h>
#include <ucontext.h>

/* ---- Out of the function that a text goes to ---- */

static histar its, other;
static jmp_buf back;
static char wrote[1 << 16];
static size_t wrote_len;

static void opens_its(void)
{
    must(histar_open(&its, 8));
    must(histar_log_on(&its, UINT64_MAX, HISTAR_LOG_ALL));
    must(is_called(&its));
}
static uint32_t jumps(void *context, const void *part, size_t len)
{
    (void)context, (void)part, (void)len;
    longjmp(back, 1);
}
static uint32_t keeps(void *context, const void *part, size_t len)
{
    (void)context;
    must(wrote_len + len > sizeof wrote);
    memcpy(wrote + wrote_len, part, len);
    wrote_len += len;
    return 0;
}
/* A call and a whole dump after the jump; nothing of the part that was given is kept. */
static uint32_t called_after_a_jump(void)
{
    histar_label label = histar_level(1);
    histar_object made = HISTAR_NOTHING;
    uint32_t refusal;
    opens_its();
    if (!setjmp(back)) (void)!histar_dump_to(&its, jumps, NULL);
    refusal = histar_segment_create(&its, HISTAR_BOOT, HISTAR_ROOT, &label, 2, 1, &made);
    for (size_t i = 0; i < sizeof its.part; i++)
        if (its.part[i]) return HISTAR_BOUNDS;
    wrote_len = 0;
    must(histar_dump_to(&its, keeps, NULL));
    must(histar_close(&its));
    return memmem(wrote, wrote_len, "segment_create", 14) && wrote[wrote_len - 1] == '\n' ? refusal : HISTAR_BOUNDS;
}
/* What is deeper on the stack than the text's call can't tell that from the function that is given the text. */
__attribute__((noinline)) static uint32_t calls_from_deep(void)
{
    volatile char deep[1 << 14];
    uint32_t refusal = is_called(&its);
    deep[0] = 0;
    return deep[0] ? 0 : refusal;
}
static uint32_t called_from_deep_after_a_jump(void)
{
    uint32_t refusal;
    opens_its();
    if (!setjmp(back)) (void)!histar_checkpoint_to(&its, jumps, NULL);
    refusal = calls_from_deep();
    must(is_called(&its));
    must(histar_close(&its));
    return refusal;
}
static uint32_t closed_after_a_jump(void)
{
    uint32_t refusal;
    opens_its();
    if (!setjmp(back)) (void)!histar_dump_to(&its, jumps, NULL);
    refusal = histar_close(&its);
    for (size_t i = 0; i < sizeof its.part; i++)
        if (its.part[i]) return HISTAR_BOUNDS;
    opens_its();
    must(histar_close(&its));
    return refusal;
}
static uint32_t seat_after_a_jump(void)
{
    must(histar_share_with(&its, 8, 1, 4, 1, 9, 1));
    must(is_called(&its));
    if (!setjmp(back)) (void)!histar_dump_to(&its, jumps, NULL);
    must(is_called(&its));
    return histar_close(&its);
}
static uint32_t closes_its(void *context, const void *part, size_t len)
{
    (void)part, (void)len;
    *(uint32_t *)context = histar_close(&its);
    return 0;
}
/* It is closed, and what gives the text is told so. */
static uint32_t closed_by_what_takes_a_dump(void)
{
    uint32_t refusal = HISTAR_BUSY;
    opens_its();
    if (histar_dump_to(&its, closes_its, &refusal) != HISTAR_UNAVAILABLE || is_called(&its) != HISTAR_UNAVAILABLE) return HISTAR_BUSY;
    return refusal;
}
static uint32_t closes_and_opens(void *context, const void *part, size_t len)
{
    (void)context, (void)part, (void)len;
    must(histar_close(&its));
    opens_its();
    return 0;
}
/* The dump that is told so takes nothing of the kernel that was opened there since. */
static uint32_t opened_by_what_takes_a_dump(void)
{
    uint32_t refusal;
    opens_its();
    refusal = histar_dump_to(&its, closes_and_opens, NULL);
    must(is_called(&its));
    must(histar_close(&its));
    return refusal;
}

/* A thread that gives a text to a function, where it waits, and what that thread is told. */
static pthread_t giver;
static int is_waiting, may_go;
static uint32_t told;
static uint32_t waits(void *context, const void *part, size_t len)
{
    (void)context, (void)part, (void)len;
    __atomic_store_n(&is_waiting, 1, __ATOMIC_SEQ_CST);
    while (!__atomic_load_n(&may_go, __ATOMIC_SEQ_CST)) usleep(100); /* (where the thread may be ended) */
    return 0;
}
static void *gives(void *kernel)
{
    told = histar_dump_to(kernel, waits, NULL);
    return NULL;
}
static uint32_t ends_its_thread(void *context, const void *part, size_t len)
{
    (void)context, (void)part, (void)len;
    pthread_exit(NULL);
}
static void *gives_to_an_end(void *kernel)
{
    told = histar_dump_to(kernel, ends_its_thread, NULL);
    return NULL;
}
static void starts_to_give(void)
{
    is_waiting = may_go = 0;
    must((uint32_t)pthread_create(&giver, NULL, gives, &its));
    while (!__atomic_load_n(&is_waiting, __ATOMIC_SEQ_CST)) usleep(100);
}
static uint32_t called_while_a_text_is_given(void)
{
    uint32_t refusal;
    opens_its();
    starts_to_give();
    refusal = is_called(&its);
    __atomic_store_n(&may_go, 1, __ATOMIC_SEQ_CST);
    pthread_join(giver, NULL);
    must(told);
    must(histar_close(&its));
    return refusal;
}
static uint32_t closed_while_a_text_is_given(void)
{
    uint32_t refusal;
    opens_its();
    starts_to_give();
    refusal = histar_close(&its);
    __atomic_store_n(&may_go, 1, __ATOMIC_SEQ_CST);
    pthread_join(giver, NULL);
    return told == HISTAR_UNAVAILABLE ? refusal : HISTAR_BUSY;
}
static uint32_t closed_after_a_thread_was_ended(void)
{
    opens_its();
    starts_to_give();
    pthread_cancel(giver);
    pthread_join(giver, NULL);
    return histar_close(&its);
}
static uint32_t closed_after_a_thread_ended(void)
{
    opens_its();
    must((uint32_t)pthread_create(&giver, NULL, gives_to_an_end, &its));
    pthread_join(giver, NULL);
    return histar_close(&its);
}

/* ---- Out of a call, by a handler ---- */

static sigjmp_buf out;
static volatile long steps, left_at;
static volatile sig_atomic_t in_handler;

static void jumps_out(int signal)
{
    (void)signal;
    in_handler = (sig_atomic_t)is_called(&its);
    if (in_handler == HISTAR_BUSY) siglongjmp(out, 1);
}
/* Opens a kernel and reads until a signal comes in the middle of a read, which its handler leaves. */
static const struct itimerval often = {{0, 50}, {0, 50}}, never_again = {{0, 0}, {0, 0}};
static void leaves_a_read(void)
{
    histar_self self;
    must(histar_open(&its, 8));
    signal(SIGALRM, jumps_out);
    setitimer(ITIMER_REAL, &often, NULL);
    if (!sigsetjmp(out, 1))
        for (;;) must(histar_self_get(&its, HISTAR_BOOT, &self));
    setitimer(ITIMER_REAL, &never_again, NULL);
}
static void opens_it_anew(void)
{
    opens_its();
    must(histar_close(&its));
}
static uint32_t closed_after_a_jump_out_of_a_read(void)
{
    uint32_t refusal;
    leaves_a_read();
    if (is_called(&its) != HISTAR_BUSY) return HISTAR_BUSY;
    refusal = histar_close(&its);
    opens_it_anew();
    return refusal;
}

/* A copy of what a call left is closed, and takes nothing of it. */
static uint32_t copy_closed_after_a_jump(void)
{
    uint32_t refusal;
    leaves_a_read();
    memcpy(&other, &its, sizeof its);
    refusal = histar_close(&other);
    must(histar_close(&its));
    opens_it_anew();
    return refusal;
}

/* After each instruction of the program's own and the library's, and of no other: at the one with the number `left_at` the call is left. */
static void steps_on(int signal, siginfo_t *about, void *context)
{
    extern char __executable_start, etext;
    const greg_t *registers = ((ucontext_t *)context)->uc_mcontext.gregs;
    const char *at = (const char *)(uintptr_t)registers[REG_RIP];
    (void)signal, (void)about;
    if (at < &__executable_start || at >= &etext) return;
    if (++steps == left_at) siglongjmp(out, 1);
}
static void stepwise(int is_so)
{
    struct sigaction action;
    memset(&action, 0, sizeof action);
    action.sa_sigaction = steps_on;
    action.sa_flags = SA_SIGINFO;
    sigaction(SIGTRAP, &action, NULL);
    if (is_so) __asm__ __volatile__("pushfq\n\torq $0x100, (%%rsp)\n\tpopfq" : : : "memory", "cc");
    else __asm__ __volatile__("pushfq\n\tandq $~0x100, (%%rsp)\n\tpopfq" : : : "memory", "cc");
}
static uint32_t (*asked)(void);
/* (the list of a seat takes memory for a label) */
static void writes_a_label(histar *kernel)
{
    histar_label label = histar_with(histar_level(1), histar_category_of(1), 2);
    (void)!histar_segment_create(kernel, HISTAR_BOOT, HISTAR_ROOT, &label, 2, 1, NULL);
}
static uint32_t writes(void) { return histar_cat_create(&its, HISTAR_BOOT, NULL); }
static uint32_t closes_and_opens_anew(void)
{
    (void)!histar_close(&its);
    return histar_open(&its, 8);
}
static uint32_t dumps(void)
{
    wrote_len = 0;
    return histar_dump_to(&its, keeps, NULL);
}
/* The call is left at one of its instructions, and the kernel closed: how many blocks of the heap stay, and whether the call came to its end. */
static long blocks, stays;
void *__wrap_malloc(size_t len)
{
    void *it = __real_malloc(len);
    __atomic_fetch_add(&blocks, it != NULL, __ATOMIC_RELAXED);
    return it;
}
void *__wrap_realloc(void *old, size_t len) { return __real_realloc(old, len); }
void __wrap_free(void *old)
{
    __atomic_fetch_sub(&blocks, old != NULL, __ATOMIC_RELAXED);
    __real_free(old);
}
static int beside_a_seat; /* which is called before the close and after it */
static void *is_left(void *is_logged)
{
    long before = blocks;
    if (beside_a_seat) must(histar_share(&other, 8, 9));
    must(histar_open(&its, 8));
    if (is_logged) must(histar_log_on(&its, UINT64_MAX, HISTAR_LOG_ALL));
    must(is_called(&its));
    steps = 0;
    if (!sigsetjmp(out, 1)) {
        stepwise(1);
        (void)!asked();
        stepwise(0);
        left_at = 0;
    }
    if (beside_a_seat) writes_a_label(&other);
    told = histar_close(&its);
    if (beside_a_seat) {
        writes_a_label(&other);
        must(histar_close(&other));
    }
    stays = blocks - before;
    return NULL;
}
/* The call is left at each so manyth of its instructions, each time by a thread of its own, whose heap a jump out of malloc would spoil. */
static uint32_t left(uint32_t (*asks)(void), int is_logged, long times)
{
    long at, count, every, lost = 0;
    asked = asks;
    left_at = -1;
    must((uint32_t)pthread_create(&giver, NULL, is_left, is_logged ? &its : NULL));
    pthread_join(giver, NULL);
    count = steps;
    every = count / times + 1;
    for (at = 1; at < count; at += every) {
        left_at = at;
        must((uint32_t)pthread_create(&giver, NULL, is_left, is_logged ? &its : NULL));
        pthread_join(giver, NULL);
        if (told || !left_at) return told ? told : HISTAR_BUSY;
        /* (a block that malloc has just given stays, or one that free is about to take; all of them where either was about to be called) */
        if (stays < 0) return HISTAR_BOUNDS;
        lost += stays != 0;
    }
    return lost > times / 10 + 1 ? HISTAR_MEMORY : HISTAR_DONE;
}
#ifndef TIMES
#define TIMES 120
#endif
static uint32_t left_in_a_write(void) { return left(writes, 0, TIMES); }
static uint32_t left_in_a_logged_write(void) { return left(writes, 1, TIMES); }
static uint32_t left_beside_a_seat(void)
{
    uint32_t refusal;
    beside_a_seat = 1;
    refusal = left(writes, 1, TIMES / 4 + 1);
    beside_a_seat = 0;
    return refusal;
}
static uint32_t left_in_an_open(void) { return left(closes_and_opens_anew, 1, 4); }
static uint32_t left_in_a_dump(void) { return left(dumps, 1, TIMES / 20 + 1); }

/* A call of another thread that goes on is left by nobody. */
static void *calls_long(void *given)
{
    (void)given;
    must(histar_taken(&its));
    __atomic_store_n(&is_waiting, 1, __ATOMIC_SEQ_CST);
    while (!__atomic_load_n(&may_go, __ATOMIC_SEQ_CST)) usleep(100);
    histar_released(&its, HISTAR_DONE);
    return NULL;
}
static uint32_t closed_in_another_threads_call(void)
{
    uint32_t refusal;
    must(histar_open(&its, 8));
    is_waiting = may_go = 0;
    must((uint32_t)pthread_create(&giver, NULL, calls_long, NULL));
    while (!__atomic_load_n(&is_waiting, __ATOMIC_SEQ_CST)) usleep(100);
    refusal = histar_close(&its);
    __atomic_store_n(&may_go, 1, __ATOMIC_SEQ_CST);
    pthread_join(giver, NULL);
    must(is_called(&its));
    must(histar_close(&its));
    return refusal;
}

/* ---- Calls by handlers ---- */

/* A handler calls another kernel, whose log takes memory, also where the heap was interrupted: it is refused memory then. */
static volatile long lacked, made, closes_made;
static uint32_t reads(histar *kernel)
{
    histar_self self;
    return histar_self_get(kernel, HISTAR_BOOT, &self);
}
static void logs(int signal)
{
    uint32_t refusal = reads(&other);
    (void)signal;
    if (refusal == HISTAR_MEMORY) lacked++;
    else if (!refusal) made++;
    if (!refusal && made % 64 == 0 && !histar_close(&other)) {
        closes_made++;
        if (!histar_open(&other, 8)) must(histar_log_on(&other, UINT64_MAX, HISTAR_LOG_ALL));
    }
}
static uint32_t logged_by_a_handler(void)
{
    const struct itimerval seldom = {{0, 300}, {0, 300}};
    lacked = made = closes_made = 0;
    opens_its();
    must(histar_open(&other, 8));
    must(histar_log_on(&other, UINT64_MAX, HISTAR_LOG_ALL));
    signal(SIGALRM, logs);
    setitimer(ITIMER_REAL, &seldom, NULL);
    for (int i = 0; i < 100 || (!(lacked && made) && i < 100000); i++) {
        must(histar_log_cut(&its, UINT64_MAX, HISTAR_LOG_ALL));
        must(reads(&its));
    }
    setitimer(ITIMER_REAL, &never_again, NULL);
    must(histar_close(&its));
    must(histar_close(&other));
    return lacked && made ? HISTAR_MEMORY : HISTAR_DONE;
}

/* A handler on a stack of its own, that stands above the interrupted call. With SS_AUTODISARM the system says that there is none meanwhile. */
#ifndef SS_AUTODISARM
#define SS_AUTODISARM (1 << 31)
#endif
static int stack_flags;
static volatile sig_atomic_t close_in_handler;
static void closes_by_handler(int signal)
{
    (void)signal;
    if (is_called(&its) == HISTAR_BUSY) close_in_handler = (sig_atomic_t)histar_close(&its);
}
static void *closes_above(void *given)
{
    struct sigaction action;
    stack_t above;
    histar_self self;
    memset(&above, 0, sizeof above);
    memset(&action, 0, sizeof action);
    above.ss_sp = given;
    above.ss_size = 1 << 16;
    above.ss_flags = stack_flags;
    must((uint32_t)sigaltstack(&above, NULL));
    action.sa_handler = closes_by_handler;
    action.sa_flags = SA_ONSTACK;
    sigaction(SIGALRM, &action, NULL);
    setitimer(ITIMER_REAL, &often, NULL);
    while (!close_in_handler) told = histar_self_get(&its, HISTAR_BOOT, &self);
    setitimer(ITIMER_REAL, &never_again, NULL);
    return NULL;
}
static uint32_t closed_by_a_handler_above(void)
{
    pthread_attr_t where;
    char *room = mmap(NULL, 1 << 20, PROT_READ | PROT_WRITE, MAP_PRIVATE | MAP_ANONYMOUS, -1, 0);
    sigset_t alarm;
    must(room == MAP_FAILED);
    close_in_handler = 0;
    must(histar_open(&its, 8));
    must((uint32_t)pthread_attr_init(&where));
    must((uint32_t)pthread_attr_setstack(&where, room, 1 << 19));
    sigemptyset(&alarm);
    sigaddset(&alarm, SIGALRM);
    must((uint32_t)pthread_create(&giver, &where, closes_above, room + (1 << 19)));
    pthread_sigmask(SIG_BLOCK, &alarm, NULL);
    pthread_join(giver, NULL);
    pthread_sigmask(SIG_UNBLOCK, &alarm, NULL);
    must((uint32_t)munmap(room, 1 << 20));
    must(histar_close(&its));
    return told ? HISTAR_DONE : (uint32_t)close_in_handler;
}
static uint32_t closed_by_a_handler_above_disarmed(void)
{
    uint32_t refusal;
    stack_flags = (int)SS_AUTODISARM;
    refusal = closed_by_a_handler_above();
    stack_flags = 0;
    return refusal;
}

/* ---- What a log keeps, what a record keeps, and how much stack there is ---- */

static uint32_t logged_otherwise(void)
{
    uint32_t refusal;
    must(histar_open(&its, 8));
    refusal = histar_log_on(&its, 9, 2);
    must(histar_close(&its));
    return refusal;
}
static uint32_t cut_otherwise(void) { return histar_log_cut(&k, 9, UINT64_MAX); }

/* Whether a call's record has anything but its number, thread and objects. */
static int has_more(const histar_request *request)
{
    histar_request but = *request;
    but.call = but.len = 0;
    but.thread = but.container = but.object = but.other_container = but.other_object = 0;
    for (size_t i = 0; i < sizeof but; i++)
        if (((unsigned char *)&but)[i]) return 1;
    return 0;
}
static uint32_t label_and_closure_after_calls(void)
{
    histar_label label = histar_with(histar_level(1), histar_category_of(1), HISTAR_STAR), clearance = histar_level(2), verify = histar_level(3);
    histar_object gate = HISTAR_NOTHING;
    histar_self self;
    must(histar_open(&its, 64));
    must(is_called(&its));
    must(histar_gate_create(&its, HISTAR_BOOT, HISTAR_ROOT, &label, 1, &clearance, HISTAR_NOWHERE, 7, 9, &gate));
    if (has_more(&its.request)) return HISTAR_BOUNDS;
    must(histar_gate_enter(&its, HISTAR_BOOT, in_root(gate), &label, &clearance, &verify, NULL, NULL));
    if (has_more(&its.request)) return HISTAR_BOUNDS;
    must(histar_store(&its, HISTAR_BOOT, 77, "x", 1) != HISTAR_NOT_MAPPED);
    must(histar_self_get(&its, HISTAR_BOOT, &self));
    if (has_more(&its.request)) return HISTAR_BOUNDS;
    for (size_t i = 0; i < sizeof its.answer; i++)
        if (((unsigned char *)&its.answer)[i]) return HISTAR_BOUNDS;
    return histar_close(&its);
}

/* The life of a kernel and of a seat by a thread with little stack. */
#ifndef STACK
#define STACK (64 << 10)
#endif
static void *lives(void *given)
{
    histar_label label = histar_level(1);
    histar_object made = HISTAR_NOTHING;
    char bytes[64];
    opens_its();
    must(histar_segment_create(&its, HISTAR_BOOT, HISTAR_ROOT, &label, 2, 1, &made));
    must(histar_segment_write(&its, HISTAR_BOOT, in_root(made), 0, "kept", 4));
    must(histar_segment_read(&its, HISTAR_BOOT, in_root(made), 0, bytes, 4));
    wrote_len = 0;
    must(histar_dump_to(&its, keeps, NULL));
    must(histar_log_cut(&its, 9, HISTAR_LOG_ALL));
    wrote_len = 0;
    must(histar_checkpoint_to(&its, keeps, NULL));
    must(histar_close(&its));
    must(histar_open_at(&its, wrote, wrote_len));
    must(histar_close(&its));
    must(histar_share_with(&its, 8, 1, 4, 1, 9, 1));
    must(histar_seat_open(&other, &its));
    must(is_called(&other));
    must(is_called(&its));
    wrote_len = 0;
    must(histar_dump_to(&other, keeps, NULL));
    must(histar_close(&its));
    must(histar_close(&other));
    return given;
}
static uint32_t lives_on_little_stack(void)
{
    pthread_attr_t little;
    void *ended = NULL;
    must((uint32_t)pthread_attr_init(&little));
    must((uint32_t)pthread_attr_setstacksize(&little, STACK));
    must((uint32_t)pthread_create(&giver, &little, lives, &its));
    pthread_join(giver, &ended);
    return ended ? HISTAR_DONE : HISTAR_BUSY;
}

/* ---- Calls as records ---- */

static histar_request recorded(uint32_t call, uint64_t object)
{
    histar_request it;
    memset(&it, 0, sizeof it);
    it.call = call;
    it.thread = 99; /* (which is not looked at) */
    it.container = HISTAR_ROOT.id;
    it.object = object;
    it.numbers[1] = 3;
    return it;
}
static uint32_t made_of(histar *kernel, uint32_t call, uint64_t object)
{
    histar_request it = recorded(call, object);
    histar_answer answer;
    memset(&answer, 7, sizeof answer);
    uint32_t refusal = histar_make(kernel, HISTAR_BOOT, &it, &answer);
    if (!refusal) return answer.len == 3 && !answer.bytes[3] && !answer.label.count && !has_more(&kernel->request) ? refusal : HISTAR_BOUNDS;
    for (size_t i = 0; i < sizeof answer; i++)
        if (((unsigned char *)&answer)[i] != 7) return HISTAR_DONE;
    return refusal;
}
static uint32_t read_by_record(void) { return made_of(&k, HISTAR_CALL_SEGMENT_READ, secret.id); }
static uint32_t record_of_no_call(void) { return made_of(&k, 0, secret.id); }
static uint32_t record_of_a_look_up(void) { return made_of(&k, HISTAR_CALL_KEPT_LIVE, secret.id); }
static uint32_t record_of_a_log(void) { return made_of(&k, HISTAR_CALL_LOG_ON, secret.id); }
static uint32_t record_of_a_call_in_a_batch(void) { return made_of(&seat, HISTAR_CALL_IN_BATCH + HISTAR_CALL_CAT_CREATE, secret.id); }
static uint32_t record_of_a_closed_kernel(void) { return made_of(&closed, HISTAR_CALL_SEGMENT_READ, secret.id); }
static uint32_t record_that_is_refused(void) { return made_of(&seat, HISTAR_CALL_SEGMENT_READ, 99); }

/* ---- Libraries of other layouts, by a function in place of the library's own ---- */

static int more;
uint32_t __real_histar_layout(void);
uint32_t __wrap_histar_layout(void);
uint32_t __wrap_histar_layout(void) { return __real_histar_layout() + (uint32_t)more; }

static uint32_t opened_by(int its_more, int is_shared)
{
    uint32_t refusal;
    more = its_more;
    refusal = is_shared ? histar_share(&its, 8, 9) : histar_open(&its, 8);
    more = 0;
    must(histar_close(&its));
    return refusal;
}
static uint32_t opened_with_more(void) { return opened_by(1, 0); }
static uint32_t opened_with_less(void) { return opened_by(-1, 0); }
static uint32_t opened_with_others(void) { return opened_by(1000, 0); }
static uint32_t shared_with_less(void) { return opened_by(-1, 1); }

const struct row LEFT[] = {
    {"a call after a jump out of what takes a dump", HISTAR_DONE, called_after_a_jump},
    {"a call from deep after a jump out of what takes a checkpoint", HISTAR_BUSY, called_from_deep_after_a_jump},
    {"a close after a jump out of what takes a dump", HISTAR_DONE, closed_after_a_jump},
    {"a close of a seat after a jump out of what takes its dump", HISTAR_DONE, seat_after_a_jump},
    {"a close by what takes a dump", HISTAR_DONE, closed_by_what_takes_a_dump},
    {"a dump of which the kernel is opened anew by what takes it", HISTAR_UNAVAILABLE, opened_by_what_takes_a_dump},
    {"a call while another thread gives a text", HISTAR_BUSY, called_while_a_text_is_given},
    {"a close while another thread gives a text", HISTAR_DONE, closed_while_a_text_is_given},
    {"a close after a thread was ended in what takes a dump", HISTAR_DONE, closed_after_a_thread_was_ended},
    {"a close after a thread ended in what takes a dump", HISTAR_DONE, closed_after_a_thread_ended},
    {"a close after a jump out of a read", HISTAR_DONE, closed_after_a_jump_out_of_a_read},
    {"a close after a jump out of any step of a write", HISTAR_DONE, left_in_a_write},
    {"a close after a jump out of any step of a logged write", HISTAR_DONE, left_in_a_logged_write},
    {"a close after a jump out of any step of a dump", HISTAR_DONE, left_in_a_dump},
    {"a close after a jump out of any step of a close and an open", HISTAR_DONE, left_in_an_open},
    {"calls by a seat after a jump out of any step of a logged write", HISTAR_DONE, left_beside_a_seat},
    {"a close of a copy after a jump out of a call", HISTAR_DONE, copy_closed_after_a_jump},
    {"a close in the call of another thread", HISTAR_BUSY, closed_in_another_threads_call},
    {"a logged call by a handler that interrupts the heap", HISTAR_MEMORY, logged_by_a_handler},
    {"a close by a handler on a stack above", HISTAR_BUSY, closed_by_a_handler_above},
    {"a close by a handler with a stack above, of which the system says nothing", HISTAR_BUSY, closed_by_a_handler_above_disarmed},
    {"a log that keeps 2", HISTAR_BAD_BATCH, logged_otherwise},
    {"a log that is cut and keeps 2^64 - 1", HISTAR_BAD_BATCH, cut_otherwise},
    {"a label and a closure after calls", HISTAR_DONE, label_and_closure_after_calls},
    {"a life on little stack", HISTAR_DONE, lives_on_little_stack},
    {"a read by a record", HISTAR_DONE, read_by_record},
    {"a record of no call", HISTAR_BAD_BATCH, record_of_no_call},
    {"a record of a look-up", HISTAR_BAD_BATCH, record_of_a_look_up},
    {"a record of a log", HISTAR_BAD_BATCH, record_of_a_log},
    {"a record of a call in a batch", HISTAR_BAD_BATCH, record_of_a_call_in_a_batch},
    {"a record after the close", HISTAR_UNAVAILABLE, record_of_a_closed_kernel},
    {"a record that the rules refuse", HISTAR_NO_ENTRY, record_that_is_refused},
#ifndef CALLED
    /* (the library's own functions know its layout) */
    {"an open by a library with more", HISTAR_DONE, opened_with_more},
    {"an open by a library with less", HISTAR_OTHER_VERSION, opened_with_less},
    {"an open by a library with other records", HISTAR_OTHER_VERSION, opened_with_others},
    {"a share by a library with less", HISTAR_OTHER_VERSION, shared_with_less},
#endif
    {NULL, HISTAR_DONE, NULL},
};
