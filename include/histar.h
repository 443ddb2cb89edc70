/* Koalaingot's label kernel for C and C++ programs.
 *
 * The functions of the static library libhistar.a, and over them a function for each call, named as the
 * call's word in a script. docs/EMBED.md has a first program; docs/CALLS.md has the rule of each call.
 *
 * What holds for every function of a call:
 * - It returns 0, or the number of a refusal (enum histar_refusal). If several checks fail, the refusal with the
 *   lowest number is returned. A refused call changes nothing in the kernel, and writes nothing where its results go.
 * - HISTAR_HALTED comes where `thread` is no live thread, so it is not listed again below. A call that names an
 *   entry may be refused HISTAR_NO_ACCESS (its container is not there, or the thread does not observe it) and
 *   HISTAR_NO_ENTRY (the container does not list the object, and is not the object).
 * - HISTAR_BAD_BATCH comes where the arguments make no call: a level above 4, 25 pairs in a label, 65 bytes, a number that
 *   is too large for its place. Numbers are taken as 64 bits, and no bit is lost on the way.
 * - HISTAR_UNAVAILABLE comes where the kernel is not open: it was closed, was never opened, is a copy of another's
 *   bytes, or was opened by another process: a child of fork opens its own. HISTAR_BUSY comes where another call uses it: by another thread,
 *   or by the code that a signal interrupted. Nothing is done then, and the call may be made again.
 * - No handler of a signal may call. It is refused HISTAR_BUSY where it interrupted a call of this kernel, and HISTAR_MEMORY where it interrupted
 *   any kernel's malloc; nothing tells where it interrupted the program's own. A call that a handler leaves by siglongjmp is lost, and the
 *   kernel can be closed then (histar_close).
 * - It takes no memory, prints nothing and never waits. Only the opens take memory, checkpoints, and what the log needs: a
 *   call that is kept, up to the bound that histar_log_on was given, histar_log_cut and dumps. Of a kernel that
 *   threads share, the opens and each write call take memory, and a write call may sleep where another's is not ended.
 * - The bytes, numbers and labels that it gave or took stand in no record of the kernel once it returns. The library keeps the last
 *   call and the last reply inside the room, and histar_close wipes all of it. All memory is cleared before it is given back.
 * - It needs up to HISTAR_CALL_STACK bytes of stack; a text and an open at one HISTAR_TEXT_STACK.
 *
 * One call at a time uses a kernel. Threads that call one kernel keep a lock around the calls, or are told HISTAR_BUSY; or
 * they share it, each by a seat of its own (histar_share). */
#ifndef HISTAR_H
#define HISTAR_H

#include <sched.h>
#include <stddef.h>
#include <stdint.h>
#include <string.h>
#include <time.h>

#ifdef __cplusplus
#define HISTAR_ALIGNED alignas(16)
#define HISTAR_INIT {}
extern "C" {
#else
#define HISTAR_ALIGNED _Alignas(16)
#define HISTAR_INIT {{0}, 0, 0, 0, 0, 0, 0, 0, 0, 0, {0, 0, 0}, 0, 0, {0}, {0}, {0}}
#endif

/* The version of this header. */
#define HISTAR_VERSION "0.1.0"
#define HISTAR_VERSION_NUMBER 100

/* The layout of the records below and what their numbers mean: 1,000 times a number that is another one where that changes, and how much was
 * added since. Nothing is opened by a library whose layout has another meaning, or is older than this one. */
#define HISTAR_LAYOUT 1001

/* Each function below is compiled into its caller. The library has it as one that is called, too (histar.cffi.h). */
#ifndef HISTAR_INLINE
#define HISTAR_INLINE static inline
#endif
#ifndef HISTAR_INTO_CALLER
#define HISTAR_INTO_CALLER __attribute__((always_inline)) static inline
#endif

/* What such a function returns is looked at, and these of its arguments are not NULL: gcc and clang warn. */
#define HISTAR_LOOKED_AT(...) __attribute__((warn_unused_result, nonnull(__VA_ARGS__)))

/* ---- Words ---- */

/* The level of ownership. The other levels are 0 to 3. */
enum { HISTAR_STAR = 4 };

/* An object: a container, a segment, an address space, a thread, a gate or the device. And a category. Each is a type of its own, so
 * that the compiler refuses one for the other, and a number for either. */
typedef struct {
    uint64_t id;
} histar_object;
typedef struct {
    uint64_t number;
} histar_category;

/* The object of an id, and the category of a number, which were kept as numbers. */
HISTAR_INLINE histar_object histar_object_of(uint64_t id)
{
    histar_object object;
    object.id = id;
    return object;
}
HISTAR_INLINE histar_category histar_category_of(uint64_t number)
{
    histar_category category;
    category.number = number;
    return category;
}

/* The objects of a newly opened kernel: the root container, the boot thread and the device. And what is none. */
static const histar_object HISTAR_ROOT = {1}, HISTAR_BOOT = {2}, HISTAR_DEVICE = {3}, HISTAR_NOTHING = {0};

/* What a mapping allows. */
enum { HISTAR_READ = 1, HISTAR_WRITE = 2 };

/* Kinds of objects, as a set: what a container will not hold. */
enum {
    HISTAR_CONTAINERS = 1,
    HISTAR_SEGMENTS = 2,
    HISTAR_ADDRESS_SPACES = 4,
    HISTAR_THREADS = 8,
    HISTAR_GATES = 16,
    HISTAR_DEVICES = 32
};

/* Why a call was refused. */
enum histar_refusal {
    HISTAR_DONE = 0,             /* it was not */
    HISTAR_HALTED = 1,           /* the caller is no live thread */
    HISTAR_NO_ACCESS = 2,        /* the container is not there, or is not observed */
    HISTAR_NO_ENTRY = 3,         /* the container does not list the object */
    HISTAR_WRONG_TYPE = 4,       /* the object is of another kind */
    HISTAR_CANNOT_OBSERVE = 5,   /* the object's label is not at most the thread's */
    HISTAR_CANNOT_MODIFY = 6,    /* the thread's label is not at most the object's */
    HISTAR_BAD_LABEL = 7,        /* no label that can be stored */
    HISTAR_LABEL_RANGE = 8,      /* the label is outside what the thread may give */
    HISTAR_CLEARANCE_RANGE = 9,  /* the clearance is outside what the thread may give */
    HISTAR_LABEL_FULL = 10,      /* a label has 16 categories already */
    HISTAR_AVOID_TYPE = 11,      /* the container avoids this kind */
    HISTAR_NO_QUOTA = 12,        /* the quota does not suffice */
    HISTAR_FIXED_QUOTA = 13,     /* the quota is fixed */
    HISTAR_NOT_FIXED = 14,       /* the quota is not fixed */
    HISTAR_ALREADY_LINKED = 15,  /* the container lists the object already */
    HISTAR_ROOT_KEPT = 16,       /* the root stays */
    HISTAR_IMMUTABLE = 17,       /* the object is read-only */
    HISTAR_BOUNDS = 18,          /* an offset, a length or a slot is out of its range */
    HISTAR_NOT_MAPPED = 19,      /* nothing is mapped there */
    HISTAR_RIGHTS_DENIED = 20,   /* the mapping does not allow it */
    HISTAR_OVERLAP = 21,         /* the slot or the pages are taken */
    HISTAR_GATE_DENIED = 22,     /* the gate's rules do not hold */
    HISTAR_DEVICE_FULL = 23,     /* 4 packets wait */
    HISTAR_DEVICE_EMPTY = 24,    /* no packet waits */
    HISTAR_SPENT = 25,           /* no id or category is left */
    HISTAR_UNAVAILABLE = 30,     /* the kernel is not open, or there is no memory for one */
    HISTAR_BAD_LIMITS = 31,      /* a limit is out of its range */
    HISTAR_OTHER_VERSION = 32,   /* the library is of another version than this header */
    HISTAR_MEMORY = 40,          /* there is no memory to keep the call: in the log, or in the list of a shared kernel */
    HISTAR_BAD_BATCH = 45,       /* the arguments make no call, or no batch */
    HISTAR_BUSY = 46,            /* another call uses the kernel or has not ended adding itself to the list, or it is open already */
    HISTAR_LIST_FULL = 47,       /* a seat of the shared kernel lacks as many batches as it may lack; with a log, there are so many */
    HISTAR_OTHER_LIST = 48,      /* the note is not of this shared kernel */
    HISTAR_LOG_FULL = 49,        /* the log has as many calls as it may have */
    HISTAR_TEXT_FAULT = 50,      /* the text is no dump */
    HISTAR_TEXT_MEMORY = 51,     /* there is no memory for the text of a dump or of a checkpoint */
    HISTAR_ILL_FORMED = 60,      /* no calls lead to what the text's checkpoint says */
    HISTAR_HAS_EVENTS = 63       /* the text is a dump with calls after its checkpoint */
};

/* The name of a refusal, as docs/CALLS.md has it; "" for a number that is none. */
HISTAR_INLINE const char *histar_refusal_name(uint32_t refusal)
{
    switch (refusal) {
    case HISTAR_HALTED: return "Halted";
    case HISTAR_NO_ACCESS: return "NoAccess";
    case HISTAR_NO_ENTRY: return "NoEntry";
    case HISTAR_WRONG_TYPE: return "WrongType";
    case HISTAR_CANNOT_OBSERVE: return "CannotObserve";
    case HISTAR_CANNOT_MODIFY: return "CannotModify";
    case HISTAR_BAD_LABEL: return "BadLabel";
    case HISTAR_LABEL_RANGE: return "LabelRange";
    case HISTAR_CLEARANCE_RANGE: return "ClearanceRange";
    case HISTAR_LABEL_FULL: return "LabelFull";
    case HISTAR_AVOID_TYPE: return "AvoidType";
    case HISTAR_NO_QUOTA: return "NoQuota";
    case HISTAR_FIXED_QUOTA: return "FixedQuota";
    case HISTAR_NOT_FIXED: return "NotFixed";
    case HISTAR_ALREADY_LINKED: return "AlreadyLinked";
    case HISTAR_ROOT_KEPT: return "RootKept";
    case HISTAR_IMMUTABLE: return "Immutable";
    case HISTAR_BOUNDS: return "Bounds";
    case HISTAR_NOT_MAPPED: return "NotMapped";
    case HISTAR_RIGHTS_DENIED: return "RightsDenied";
    case HISTAR_OVERLAP: return "Overlap";
    case HISTAR_GATE_DENIED: return "GateDenied";
    case HISTAR_DEVICE_FULL: return "DeviceFull";
    case HISTAR_DEVICE_EMPTY: return "DeviceEmpty";
    case HISTAR_SPENT: return "Spent";
    case HISTAR_UNAVAILABLE: return "Unavailable";
    case HISTAR_BAD_LIMITS: return "BadLimits";
    case HISTAR_OTHER_VERSION: return "OtherVersion";
    case HISTAR_MEMORY: return "Memory";
    case HISTAR_BAD_BATCH: return "BadBatch";
    case HISTAR_BUSY: return "Busy";
    case HISTAR_LIST_FULL: return "ListFull";
    case HISTAR_OTHER_LIST: return "OtherList";
    case HISTAR_LOG_FULL: return "LogFull";
    case HISTAR_TEXT_FAULT: return "TextFault";
    case HISTAR_TEXT_MEMORY: return "TextMemory";
    case HISTAR_ILL_FORMED: return "IllFormed";
    case HISTAR_HAS_EVENTS: return "HasEvents";
    default: return "";
    }
}

/* How a call names an object: by a container, and an object that it lists or that it is. */
typedef struct {
    histar_object container, object;
} histar_entry;

/* The entry of no object: as an address space, that there is none. */
static const histar_entry HISTAR_NOWHERE = {{0}, {0}};

/* The entry of an object in a container. */
HISTAR_INLINE histar_entry histar_in(histar_object container, histar_object object)
{
    histar_entry entry;
    entry.container = container;
    entry.object = object;
    return entry;
}

/* A label: the level of all categories, and up to 24 pairs of a category and its own level, of which 16 may differ
 * from the default. Levels are 0 to 3, or HISTAR_STAR; categories are 1 to 2^61 - 1. */
typedef struct {
    uint8_t default_level, count, levels[24];
    histar_category categories[24];
} histar_label;

/* A level as a byte: one that is none makes a label that every call refuses. */
static inline uint8_t histar_level_byte(uint64_t level) { return level > HISTAR_STAR ? 255 : (uint8_t)level; }

/* The label of this level in every category. */
HISTAR_INLINE histar_label histar_level(uint64_t level)
{
    histar_label label;
    memset(&label, 0, sizeof label);
    label.default_level = histar_level_byte(level);
    return label;
}

/* The label with another level for a category. The 25th pair makes a label that every call refuses. */
HISTAR_INLINE histar_label histar_with(histar_label label, histar_category category, uint64_t level)
{
    if (label.count < 24) {
        label.categories[label.count] = category;
        label.levels[label.count] = histar_level_byte(level);
    }
    if (label.count < 25) label.count++;
    return label;
}

/* ---- The library ---- */

/* What a record asks for. 1 to 24 are write calls, 25 to 34 read calls, 35 to 39 look-ups, 40 to 42 of the log, 43 to 47 of a seat, 48 and 49
 * of checkpoints. With HISTAR_CALL_IN_BATCH more than its own, a write call is kept for a batch. */
enum histar_call_number {
    /* Made from bindings/calls.toml: */
    HISTAR_CALL_CAT_CREATE = 1,
    HISTAR_CALL_SELF_SET_LABEL = 2,
    HISTAR_CALL_SELF_SET_CLEARANCE = 3,
    HISTAR_CALL_SELF_SET_AS = 4,
    HISTAR_CALL_CONTAINER_CREATE = 5,
    HISTAR_CALL_SEGMENT_CREATE = 6,
    HISTAR_CALL_SEGMENT_COPY = 7,
    HISTAR_CALL_AS_CREATE = 8,
    HISTAR_CALL_THREAD_CREATE = 9,
    HISTAR_CALL_GATE_CREATE = 10,
    HISTAR_CALL_LINK = 11,
    HISTAR_CALL_UNREF = 12,
    HISTAR_CALL_QUOTA_MOVE = 13,
    HISTAR_CALL_SET_FIXED = 14,
    HISTAR_CALL_SET_IMMUTABLE = 15,
    HISTAR_CALL_META_SET = 16,
    HISTAR_CALL_SEGMENT_RESIZE = 17,
    HISTAR_CALL_SEGMENT_WRITE = 18,
    HISTAR_CALL_AS_MAP = 19,
    HISTAR_CALL_AS_UNMAP = 20,
    HISTAR_CALL_STORE = 21,
    HISTAR_CALL_GATE_ENTER = 22,
    HISTAR_CALL_DEV_SEND = 23,
    HISTAR_CALL_DEV_RECV = 24,
    HISTAR_CALL_SELF_GET = 25,
    HISTAR_CALL_OBJ_LABEL = 26,
    HISTAR_CALL_OBJ_QUOTA = 27,
    HISTAR_CALL_CONTAINER_LIST = 28,
    HISTAR_CALL_CONTAINER_PARENT = 29,
    HISTAR_CALL_SEGMENT_LEN = 30,
    HISTAR_CALL_SEGMENT_READ = 31,
    HISTAR_CALL_META_GET = 32,
    HISTAR_CALL_AS_GET = 33,
    HISTAR_CALL_LOAD = 34,
    /* (the end of what is made) */
    HISTAR_CALL_KEPT_LIVE = 35,
    HISTAR_CALL_KEPT_USE = 36,
    HISTAR_CALL_KEPT_TRANSLATION = 37,
    HISTAR_CALL_KEPT_LABEL = 38,
    HISTAR_CALL_KEPT_ORDER = 39,
    HISTAR_CALL_LOG_ON = 40,
    HISTAR_CALL_DUMP = 41,
    HISTAR_CALL_DUMP_TEXT = 42,
    HISTAR_CALL_SEEN = 43,
    HISTAR_CALL_LEARN = 44,
    HISTAR_CALL_BATCH_BEGIN = 45,
    HISTAR_CALL_BATCH_MAKE = 46,
    HISTAR_CALL_BATCH_TOLD = 47,
    HISTAR_CALL_CHECKPOINT = 48,
    HISTAR_CALL_LOG_CUT = 49,
    HISTAR_CALL_DUMP_SINCE = 50,
    HISTAR_CALL_IN_BATCH = 64
};

/* What a thread asks for. The functions below fill it. */
typedef struct {
    uint32_t call, len;
    uint64_t thread, container, object, other_container, other_object, numbers[5];
    uint8_t bytes[64];
    histar_label label, clearance, verify;
} histar_request;

/* What is answered. Fields that a reply does not have are as they were. */
typedef struct {
    uint32_t reply, len;
    uint64_t numbers[17];
    uint8_t bytes[64];
    histar_label label, clearance, verify;
} histar_answer;

/* The library's functions. A room is histar_size() bytes at a multiple of 16, which nobody else reads or writes.
 * histar_boot and histar_boot_at make it hold a kernel, or why there is none, which histar_call then returns. histar_end makes it room
 * again. A room that holds a kernel is not to be copied or booted again. */
size_t histar_size(void);
uint32_t histar_version(void); /* as HISTAR_VERSION_NUMBER, of the library */
uint32_t histar_layout(void);  /* as HISTAR_LAYOUT, of the library */
void histar_boot(uint32_t pages, uint8_t device_level, uint64_t next_id, uint64_t next_category, void *room);
void histar_boot_at(const void *text, size_t len, void *room);
uint32_t histar_call(void *room, const histar_request *request, histar_answer *answer);
void histar_end(void *room);

/* The same of the seats of a kernel that threads share, in rooms of histar_seat_size() bytes: of its first seat, of another beside one,
 * and of calls. Seats of one shared kernel are called at once, each by one thread at a time, and histar_seat_beside calls the seat that
 * it is given. Nothing here waits: histar_seat_call is refused HISTAR_BUSY where another seat adds a batch at this moment, and no call
 * is made. */
size_t histar_seat_size(void);
void histar_seat_first(uint32_t pages, uint8_t device_level, uint64_t next_id, uint64_t next_category, uint64_t most, uint8_t logs, void *seat);
void histar_seat_beside(void *from, void *seat);
uint32_t histar_seat_call(void *seat, const histar_request *request, histar_answer *answer);
void histar_seat_end(void *seat);

/* The same of readers of one seat's kernel, in rooms of histar_reader_size() bytes: readers are called at once, each by one thread at a time, and
 * histar_reader_of calls the seat that it is given. As long as a seat has a reader, it sees no more, and adds nothing. */
size_t histar_reader_size(void);
void histar_reader_of(void *seat, void *reader);
uint32_t histar_reader_call(void *reader, const histar_request *request, histar_answer *answer);
void histar_reader_end(void *reader);

/* What the functions below ask of the system. The number of this process, which a child of fork finds 0; a number for this process, which gives
 * 0 where there is no memory for it; whether this thread is on the stack of a signal's handler; a wait of a millisecond. */
extern const volatile uint64_t *histar_process;
uint64_t histar_process_begins(void);
int histar_is_on_signal_stack(void);
void histar_waits(void);

/* The list in which the blocks are kept that this thread asks for from here on, so that they can be given back where a call is left in the
 * middle; none without one. */
void histar_blocks_of(void **blocks);
void histar_blocks_end(void **blocks);

/* Wipes so much of the stack below. */
void histar_wipe_below(size_t depth);

/* How much stack is needed: by calls and closes, and by opens at a text and texts, of which those that keep a seat's take most. */
enum { HISTAR_CALL_STACK = 28 << 10, HISTAR_TEXT_STACK = 56 << 10 };

/* Wipes what calls of this thread left on its stack. Closes, opens at a text and texts do so; a thread that made calls does it at its end. */
HISTAR_INLINE void histar_wipe_stack(void) { histar_wipe_below(HISTAR_CALL_STACK); }

/* ---- A kernel ---- */

/* What a seat has seen: how many calls, of which a batch counts as one, and of which shared kernel: where its first seat stood, and since
 * when. */
typedef struct {
    uint64_t at, since, calls;
} histar_note;

/* A kernel, a seat or a reader, or one that is closed. It begins as HISTAR_INIT, or is static; it is not to be copied while it is open. */
typedef struct histar {
    HISTAR_ALIGNED unsigned char room[3072];
    uintptr_t open_at;           /* where it stands while it is open, under the number of the process, */
    uint64_t process;            /* which is this one */
    uintptr_t caller, below;     /* the thread whose call has it, and a place on its stack below which that call stands */
    uint32_t turn;               /* how often it was taken, and how it is */
    uint32_t readers;            /* of a seat: how many readers of it are open */
    unsigned char is_seat;       /* it is a seat of a kernel that threads share, */
    unsigned char takes_memory;  /* it is a kernel whose calls may take memory */
    unsigned char is_text;       /* the library has a piece of a text */
    histar_note shared;          /* of this one, with no calls */
    struct histar *of;           /* it is a reader of this seat */
    void *blocks;                /* what a kernel has of memory */
    histar_request request;
    histar_answer answer;
    unsigned char part[4096];    /* of a text */
#ifdef __cplusplus
    histar() = default;
    histar(const histar &) = delete;
    histar &operator=(const histar &) = delete;
#endif
} histar;

/* Wipes bytes that nobody reads again, so that the compiler may not leave it out. */
static inline void histar_wipes(void *bytes, size_t len)
{
    memset(bytes, 0, len);
    __asm__ __volatile__("" : : "r"(bytes) : "memory");
}

/* How a kernel is, in the low bits of its turn: free; a call has it; or a call of which a function of the caller's is given a text. */
enum { HISTAR_IS_FREE, HISTAR_IS_CALLED, HISTAR_IS_GIVING, HISTAR_TURN };
static inline uint32_t histar_how(uint32_t turn) { return turn & HISTAR_TURN; }

/* The thread, and where its stack is: what it calls stands below. */
static inline uintptr_t histar_thread(void)
{
    uintptr_t at;
    __asm__("mov %%fs:0, %0" : "=r"(at));
    return at;
}
__attribute__((always_inline)) static inline uintptr_t histar_stack(void)
{
    uintptr_t at;
    __asm__ __volatile__("mov %%rsp, %0" : "=r"(at));
    return at;
}

/* Takes the kernel for one call where it is in this turn; it is open, or not. */
__attribute__((always_inline)) static inline int histar_takes_turn(histar *k, uint32_t turn, uint32_t next)
{
    if (!__atomic_compare_exchange_n(&k->turn, &turn, next | HISTAR_IS_CALLED, 0, __ATOMIC_ACQUIRE, __ATOMIC_RELAXED)) return 0;
    __atomic_store_n(&k->caller, histar_thread(), __ATOMIC_RELAXED);
    __atomic_store_n(&k->below, histar_stack(), __ATOMIC_RELAXED);
    return 1;
}
/* The same where it is free: HISTAR_BUSY where another call has it. */
__attribute__((always_inline)) static inline uint32_t histar_taken(histar *k)
{
    uint32_t turn = __atomic_load_n(&k->turn, __ATOMIC_RELAXED);
    return !histar_how(turn) && histar_takes_turn(k, turn, turn) ? HISTAR_DONE : HISTAR_BUSY;
}
static inline uint32_t histar_turn_after(uint32_t turn) { return (turn | HISTAR_TURN) + 1; }
static inline uint32_t histar_released(histar *k, uint32_t refusal)
{
    __atomic_store_n(&k->turn, histar_turn_after(__atomic_load_n(&k->turn, __ATOMIC_RELAXED)), __ATOMIC_RELEASE);
    return refusal;
}
static inline int histar_is_open(const histar *k)
{
    return __atomic_load_n(&k->open_at, __ATOMIC_RELAXED) == ((uintptr_t)k ^ (uintptr_t)*histar_process);
}
/* It was opened by a process of which this one is a child, or that is a child of this one. */
static inline int histar_is_of_another_process(const histar *k)
{
    return __atomic_load_n(&k->open_at, __ATOMIC_ACQUIRE) && __atomic_load_n(&k->process, __ATOMIC_RELAXED) != *histar_process;
}
static inline void histar_stands_open(histar *k)
{
    uint64_t process = *histar_process;
    __atomic_store_n(&k->process, process, __ATOMIC_RELAXED);
    __atomic_store_n(&k->open_at, (uintptr_t)k ^ (uintptr_t)process, __ATOMIC_RELEASE);
}

/* Whether readers of a seat are open, so that it stays as it is. */
static inline int histar_is_read(const histar *k) { return __atomic_load_n(&k->readers, __ATOMIC_ACQUIRE) != 0; }

/* Ends a reader, of which its seat has one less. */
static inline void histar_reads_no_more(histar *reader)
{
    histar_reader_end(reader->room);
    __atomic_sub_fetch(&reader->of->readers, 1, __ATOMIC_RELEASE);
    reader->of = NULL;
}

/* Takes a kernel that a call left in place of giving it back, to close it. A function that is given a text may be in the middle, or never came
 * back: its call finds that the turn is over. A call that this thread is still in stands below the stack of who asks, but for a
 * handler with a stack of its own: so one that does not was left by a jump. (A handler whose stack is a part of the thread's own, with
 * SS_AUTODISARM, is not told from it: no handler may call.) */
static inline uint32_t histar_taken_to_close(histar *k, uintptr_t stack, int *is_left)
{
    uint32_t turn = __atomic_load_n(&k->turn, __ATOMIC_ACQUIRE);
    *is_left = histar_how(turn) == HISTAR_IS_CALLED;
    if (*is_left && (__atomic_load_n(&k->caller, __ATOMIC_RELAXED) != histar_thread() || stack < __atomic_load_n(&k->below, __ATOMIC_RELAXED)
                     || histar_is_on_signal_stack())) return HISTAR_BUSY;
    return histar_takes_turn(k, turn, histar_turn_after(turn)) ? HISTAR_DONE : HISTAR_BUSY;
}

/* Gives back what a kernel, seat or reader has. Where a call was left in the middle, nobody knows what a kernel points to, and its blocks are
 * given back one by one; those of a seat are not, since others may be at them. */
static inline void histar_ends(histar *k, int is_left)
{
    if (k->of) histar_reads_no_more(k);
    else if (is_left) histar_blocks_end(&k->blocks);
    else if (k->is_seat) histar_seat_end(k->room);
    else histar_end(k->room);
}

__attribute__((nonnull, noinline, unused)) static uint32_t histar_closes(histar *k, uintptr_t stack)
{
    int is_left = 0;
    if (histar_is_of_another_process(k)) return HISTAR_UNAVAILABLE;
    if (!histar_is_open(k) && !histar_how(__atomic_load_n(&k->turn, __ATOMIC_RELAXED))) return HISTAR_DONE;
    if (histar_taken(k) && histar_taken_to_close(k, stack, &is_left)) return HISTAR_BUSY;
    if (histar_is_open(k) || (is_left && !k->open_at)) { /* (an open may have been left; a copy of what was left has nothing of its own) */
        if (histar_is_read(k)) return histar_released(k, HISTAR_BUSY);
        histar_ends(k, is_left);
        __atomic_store_n(&k->open_at, 0, __ATOMIC_RELAXED);
        histar_wipes(k->room, sizeof k->room);
        histar_wipes(&k->request, sizeof k->request);
        histar_wipes(&k->answer, sizeof k->answer);
        histar_wipes(k->part, sizeof k->part);
        histar_wipe_stack();
    }
    return histar_released(k, HISTAR_DONE);
}

/* Gives all memory back and wipes the kernel, which may be opened again. A kernel that is closed stays so. HISTAR_BUSY where
 * a call uses it, or it is a seat with a reader that is open: it is open then as before. A call that was left does not use it: by a jump, an
 * exception or the end of its thread out of the function that a text goes to, or by a jump to the function that closes, or one that called
 * it, out of anything. HISTAR_UNAVAILABLE in a child of fork. */
__attribute__((nonnull)) HISTAR_INTO_CALLER uint32_t histar_close(histar *k) { return histar_closes(k, histar_stack()); }

/* The library's layout suits this header's, and a kernel has room for what it holds. */
static inline uint32_t histar_suits(size_t size)
{
    uint32_t layout = histar_layout();
    if (layout / 1000 != HISTAR_LAYOUT / 1000 || layout < HISTAR_LAYOUT) return HISTAR_OTHER_VERSION;
    return size > sizeof ((histar *)NULL)->room ? HISTAR_UNAVAILABLE : HISTAR_DONE;
}

/* Takes one that is closed for an open. */
static inline uint32_t histar_begins(histar *k)
{
    if (!histar_process_begins() || histar_is_of_another_process(k)) return HISTAR_UNAVAILABLE;
    if (histar_taken(k)) return HISTAR_BUSY;
    if (histar_is_open(k)) return histar_released(k, HISTAR_BUSY);
    histar_blocks_of(NULL); /* (a call that was left has not said so) */
    memset(&k->request, 0, sizeof k->request);
    memset(&k->answer, 0, sizeof k->answer);
    k->is_seat = k->takes_memory = k->is_text = 0;
    k->blocks = k->of = NULL;
    k->readers = 0;
    return HISTAR_DONE;
}

/* A kernel that was booted into the room of one that is taken and closed: it is open, or ended again where there is none. */
static inline uint32_t histar_booted(histar *k)
{
    /* A record of zeros asks for nothing: a kernel that is there says so. */
    uint32_t refusal = histar_call(k->room, &k->request, &k->answer);
    if (refusal != HISTAR_BAD_BATCH) histar_end(k->room);
    histar_blocks_of(NULL);
    if (refusal != HISTAR_BAD_BATCH) return refusal;
    histar_stands_open(k);
    return HISTAR_DONE;
}

/* Opens a kernel with all limits: pages of 256 bytes, 8 to 1,024; the level of the device's label, 0 to 3; the first id
 * that a call gives, 4 to 2^61; the first category that a call gives, 1 to 2^61. Refused HISTAR_BAD_LIMITS,
 * HISTAR_UNAVAILABLE or HISTAR_OTHER_VERSION, and the kernel is closed as before; or HISTAR_BUSY where it is open, and it stays open. */
HISTAR_LOOKED_AT(1)
HISTAR_INLINE uint32_t histar_open_with(histar *k, uint64_t pages, uint64_t device_level, uint64_t next_id,
                                        uint64_t next_category)
{
    uint32_t refusal = histar_begins(k);
    if (refusal) return refusal;
    if (pages > UINT32_MAX) pages = UINT32_MAX; /* no kernel has so many, either */
    refusal = histar_suits(histar_size());
    if (refusal) return histar_released(k, refusal);
    histar_blocks_of(&k->blocks);
    histar_boot((uint32_t)pages, histar_level_byte(device_level), next_id, next_category, k->room);
    return histar_released(k, histar_booted(k));
}

/* Opens a kernel of so many pages of 256 bytes, 8 to 1,024, as a script does: the device's label is 1, the first id 4 and
 * the first category 1. Refused as histar_open_with. */
HISTAR_LOOKED_AT(1)
HISTAR_INLINE uint32_t histar_open(histar *k, uint64_t pages) { return histar_open_with(k, pages, 1, 4, 1); }

/* Opens a kernel at a text that histar_checkpoint wrote, on this machine or another: it has the limits of the kernel that was written
 * down and is in its state, so every read is answered the same, and ids and categories go on. No log is kept until histar_log_on, whose dump
 * begins at the checkpoint, and in which threads' numbers go on. A dump of `./histar run` opens too where it has no events: one without a
 * checkpoint opens a kernel that was just booted. HISTAR_TEXT_FAULT where the text is no dump, as one that is cut short;
 * HISTAR_HAS_EVENTS where events come after the checkpoint; HISTAR_ILL_FORMED where no calls lead to what it says. What histar-audit finds
 * clean is refused neither; a text that may have been changed is for it to judge, since another one may open too. The text is
 * not needed any more then. Else refused as histar_open_with. */
HISTAR_LOOKED_AT(1, 2)
HISTAR_INLINE uint32_t histar_open_at(histar *k, const void *text, size_t len)
{
    uint32_t refusal = histar_begins(k);
    if (refusal) return refusal;
    refusal = histar_suits(histar_size());
    if (!refusal && len > PTRDIFF_MAX) refusal = HISTAR_TEXT_FAULT; /* no text is so long */
    if (refusal) return histar_released(k, refusal);
    histar_blocks_of(&k->blocks);
    histar_boot_at(text, len, k->room);
    refusal = histar_booted(k);
    histar_wipe_below(HISTAR_TEXT_STACK);
    return histar_released(k, refusal);
}

/* ---- A kernel that threads share ---- */

/* A seat that was booted into the room of one that is taken and closed: it is open, or ended again where there is none. */
static inline uint32_t histar_seat_booted(histar *seat, histar_note shared)
{
    /* A record of zeros asks for nothing: a seat that is there says so. */
    uint32_t refusal = histar_seat_call(seat->room, &seat->request, &seat->answer);
    if (refusal == HISTAR_BAD_BATCH) {
        seat->is_seat = 1;
        seat->shared = shared;
        histar_stands_open(seat);
        return HISTAR_DONE;
    }
    histar_seat_end(seat->room);
    return refusal;
}

/* No bound on the write calls that a seat may lack but that of the library: 4,194,304. */
#define HISTAR_ANY_NUMBER UINT64_MAX

/* Opens a kernel for threads to share, with the limits of histar_open_with, by its first seat; histar_seat_open opens the others. A seat
 * is a kernel to every function below: one call at a time uses it, and the seats of one shared kernel are used at once. All of them are
 * in one state: each write call stands in one list, and a call through a seat first plays what others added to it since, on the seat's
 * own kernel. No lock is taken: a read waits for nobody, and a write is refused HISTAR_BUSY only where another thread stands still in the
 * middle of adding its call. histar_close ends a seat; the shared kernel goes with its last.
 *
 * The list takes memory as it grows, and gives back what all seats have seen. `most` is how many write calls a seat may lack, of which a
 * batch counts as one: 4,194,304 at most, and rounded up to a multiple of 256, and 256 more. Where a seat lacks more, write calls by
 * others are refused HISTAR_LIST_FULL until it makes a call or is closed.
 *
 * With `logs` the list has a log, and gives nothing back: a dump is of all that the seat has seen since the open, and `most` is how
 * many write calls there may be, rounded up as before. Without it dumps are refused HISTAR_BAD_BATCH. histar_log_on is always
 * refused so, as are histar_log_cut, checkpoints and a look-up of histar_debug.h. Refused as histar_open_with. */
HISTAR_LOOKED_AT(1)
HISTAR_INLINE uint32_t histar_share_with(histar *seat, uint64_t pages, uint64_t device_level, uint64_t next_id,
                                         uint64_t next_category, uint64_t most, int logs)
{
    struct timespec since;
    histar_note shared;
    uint32_t refusal = histar_begins(seat);
    if (refusal) return refusal;
    if (pages > UINT32_MAX) pages = UINT32_MAX; /* no kernel has so many, either */
    refusal = histar_suits(histar_seat_size());
    if (!refusal && !timespec_get(&since, TIME_UTC)) refusal = HISTAR_UNAVAILABLE;
    if (!refusal) {
        shared.at = (uint64_t)(uintptr_t)seat;
        shared.since = (uint64_t)since.tv_sec * 1000000000 + (uint64_t)since.tv_nsec;
        shared.calls = 0;
        histar_seat_first((uint32_t)pages, histar_level_byte(device_level), next_id, next_category, most, logs != 0, seat->room);
        refusal = histar_seat_booted(seat, shared);
    }
    return histar_released(seat, refusal);
}

/* The same, with the limits of histar_open and no log. */
HISTAR_LOOKED_AT(1)
HISTAR_INLINE uint32_t histar_share(histar *seat, uint64_t pages, uint64_t most)
{
    return histar_share_with(seat, pages, 1, 4, 1, most, 0);
}

/* Opens another seat beside one that is open, with a kernel that is a copy of that one's: it has seen what that one has, and no call is
 * played again. A shared kernel has up to 4,096 seats at a time. HISTAR_UNAVAILABLE where it has as many, where there is no memory, or
 * where `from` is no open seat; HISTAR_BUSY where a call uses that one, or `seat` is open. */
HISTAR_LOOKED_AT(1, 2)
HISTAR_INLINE uint32_t histar_seat_open(histar *seat, histar *from)
{
    uint32_t refusal = histar_begins(seat);
    if (refusal) return refusal;
    if (histar_is_of_another_process(from)) return histar_released(seat, HISTAR_UNAVAILABLE);
    if (histar_taken(from)) return histar_released(seat, HISTAR_BUSY);
    refusal = HISTAR_UNAVAILABLE;
    if (histar_is_open(from) && from->is_seat) {
        histar_seat_beside(from->room, seat->room);
        refusal = histar_seat_booted(seat, from->shared);
    }
    histar_released(from, HISTAR_DONE);
    return histar_released(seat, refusal);
}

/* Opens a reader of a seat, whose kernel threads so read at once: each through a reader of its own, which takes no other kernel. A reader is a kernel to
 * every function below that only reads, and answers in the state that the seat was in; write calls, batches, notes and dumps are
 * refused HISTAR_BAD_BATCH. Until all its readers are closed, the seat stays as it is, and calls through it are refused HISTAR_BUSY, as is its
 * close; other seats go on. HISTAR_UNAVAILABLE where there is no memory, or where `seat` is no open seat; HISTAR_BUSY where a call uses that
 * one, or `reader` is open. */
HISTAR_LOOKED_AT(1, 2)
HISTAR_INLINE uint32_t histar_reader_open(histar *reader, histar *seat)
{
    uint32_t refusal = histar_begins(reader);
    if (refusal) return refusal;
    if (histar_is_of_another_process(seat)) return histar_released(reader, HISTAR_UNAVAILABLE);
    if (histar_taken(seat)) return histar_released(reader, HISTAR_BUSY);
    refusal = HISTAR_UNAVAILABLE;
    if (histar_is_open(seat) && seat->is_seat && histar_reader_size() <= sizeof reader->room) {
        histar_reader_of(seat->room, reader->room);
        /* A record of zeros asks for nothing: a reader that is there says so. */
        refusal = histar_reader_call(reader->room, &reader->request, &reader->answer);
        if (refusal == HISTAR_BAD_BATCH) {
            __atomic_add_fetch(&seat->readers, 1, __ATOMIC_RELAXED);
            reader->shared = seat->shared;
            reader->of = seat;
            histar_stands_open(reader);
            refusal = HISTAR_DONE;
        } else histar_reader_end(reader->room);
    }
    histar_released(seat, HISTAR_DONE);
    return histar_released(reader, refusal);
}

/* ---- How the functions below fill a record and read an answer ---- */

static inline uint32_t histar_serves_with_memory(histar *k)
{
    uint32_t refusal;
    histar_blocks_of(&k->blocks);
    refusal = histar_call(k->room, &k->request, &k->answer);
    histar_blocks_of(NULL);
    return refusal;
}

/* Does what the record asks for. A seat asks again while another adds its call, which takes a few nanoseconds: at once, then after others had a
 * turn, then after a millisecond each. After a fifth of a second it is refused: the other's thread may be stopped. */
static inline uint32_t histar_serves(histar *k)
{
    uint32_t refusal, tries;
    if (k->of) return histar_reader_call(k->room, &k->request, &k->answer);
    if (k->takes_memory) return histar_serves_with_memory(k);
    if (!k->is_seat) return histar_call(k->room, &k->request, &k->answer);
    histar_blocks_of(NULL); /* (a call that was left has not said so) */
    for (tries = 0; (refusal = histar_seat_call(k->room, &k->request, &k->answer)) == HISTAR_BUSY && tries < 400; tries++)
        if (tries >= 200) histar_waits();
        else if (tries >= 100) sched_yield();
    return refusal;
}

/* Has the library make the piece of a text that has this number, and tells how long it is: 0 past the last piece. */
static inline uint32_t histar_cuts(histar *k, uint32_t call, uint64_t at, size_t *len)
{
    uint32_t refusal;
    k->request.call = call;
    k->request.numbers[0] = at;
    refusal = histar_serves(k);
    *len = refusal ? 0 : (size_t)k->answer.numbers[0];
    if (!refusal) k->is_text = *len != 0;
    return refusal;
}
/* Leaves nothing of a text in the library or here. */
static inline void histar_drops_text(histar *k)
{
    size_t none;
    if (k->is_text) (void)histar_cuts(k, HISTAR_CALL_DUMP, UINT64_MAX, &none);
    histar_wipes(k->part, sizeof k->part);
}

/* Takes a kernel for a call where this thread left the function that was given a text by a jump, to what stands above it on the stack: what that
 * function calls itself stands below. */
__attribute__((cold, noinline, unused)) static uint32_t histar_taken_again(histar *k, uintptr_t stack)
{
    uint32_t turn = __atomic_load_n(&k->turn, __ATOMIC_ACQUIRE);
    if (histar_how(turn) != HISTAR_IS_GIVING || __atomic_load_n(&k->caller, __ATOMIC_RELAXED) != histar_thread()
        || stack <= __atomic_load_n(&k->below, __ATOMIC_RELAXED)) return HISTAR_BUSY;
    if (!histar_takes_turn(k, turn, histar_turn_after(turn))) return HISTAR_BUSY;
    histar_drops_text(k);
    return HISTAR_DONE;
}

/* Takes the kernel for a call, and fills what each call has. */
static inline uint32_t histar_asks(histar *k, uint32_t call, histar_object thread, histar_entry entry)
{
    if (!histar_is_open(k)) return HISTAR_UNAVAILABLE;
    if (histar_taken(k) && histar_taken_again(k, histar_stack())) return HISTAR_BUSY;
    if (!histar_is_open(k)) return histar_released(k, HISTAR_UNAVAILABLE); /* it was closed in between */
    if (histar_is_read(k)) return histar_released(k, HISTAR_BUSY);
    k->request.call = call;
    k->request.thread = thread.id;
    k->request.container = entry.container.id;
    k->request.object = entry.object.id;
    return HISTAR_DONE;
}

/* Wipes what a call asked with, and what it was answered: bytes, numbers, and the labels that it has. */
static inline uint32_t histar_head(const histar_label *label)
{
    uint16_t head; /* the default level, and how many pairs there are: 0 of a label that was wiped */
    memcpy(&head, label, sizeof head);
    return head;
}
static inline void histar_wipes_label(histar_label *label)
{
    volatile histar_category *pair = label->categories, *end = pair + (label->count < 24 ? label->count : 24);
    for (; pair < end; pair++) pair->number = 0;
    histar_wipes(label, offsetof(histar_label, categories));
}
__attribute__((noinline, unused)) static void histar_wipes_labels(histar_request *request)
{
    histar_wipes_label(&request->label);
    histar_wipes_label(&request->clearance);
    histar_wipes_label(&request->verify);
}
__attribute__((noinline, unused)) static void histar_wipes_call(histar *k)
{
    histar_wipes(k->request.numbers, sizeof k->request.numbers);
    histar_wipes(k->request.bytes, sizeof k->request.bytes);
    histar_wipes(k->answer.numbers, sizeof(uint64_t));
    histar_wipes(k->answer.bytes, sizeof k->answer.bytes);
    if (histar_head(&k->request.label) | histar_head(&k->request.clearance) | histar_head(&k->request.verify)) histar_wipes_labels(&k->request);
}
/* The same, and all that was answered. */
__attribute__((noinline, unused)) static void histar_wipes_records(histar *k)
{
    histar_wipes(&k->answer, sizeof k->answer);
    histar_wipes_call(k);
}

/* The ends of a call: of one that answers nothing but its refusal, of one whose answer was read, of one that answers a number, of
 * one that made something, of one that gives bytes, and of one that takes some, of which 64 may be written. */
static inline uint32_t histar_over(histar *k, uint32_t refusal)
{
    histar_wipes_call(k);
    return histar_released(k, refusal);
}
static inline uint32_t histar_done(histar *k) { return histar_over(k, histar_serves(k)); }
static inline uint32_t histar_told(histar *k, uint32_t refusal)
{
    histar_wipes_records(k);
    return histar_released(k, refusal);
}
static inline uint32_t histar_counted(histar *k, uint64_t *number)
{
    uint32_t refusal = histar_serves(k);
    if (!refusal && number) *number = k->answer.numbers[0];
    return histar_over(k, refusal);
}
static inline uint32_t histar_made(histar *k, histar_object *made) { return histar_counted(k, made ? &made->id : NULL); }
static inline uint32_t histar_gives(histar *k, const void *bytes, uint64_t len)
{
    if (len > 64) return histar_over(k, HISTAR_BAD_BATCH);
    k->request.len = (uint32_t)len;
    if (len) memcpy(k->request.bytes, bytes, len);
    return histar_done(k);
}
static inline uint32_t histar_takes(histar *k, void *bytes, uint64_t size, size_t *len)
{
    uint32_t refusal;
    if (size < 64) return histar_over(k, HISTAR_BAD_BATCH);
    refusal = histar_serves(k);
    if (!refusal) memcpy(bytes, k->answer.bytes, k->answer.len);
    if (!refusal && len) *len = k->answer.len;
    return histar_over(k, refusal);
}

/* ---- What calls answer ---- */

/* What a thread is. `space` is (0, 0) where it has no address space. */
typedef struct {
    histar_label label, clearance, verify;
    histar_entry space;
    uint64_t entry_point, closure;
} histar_self;
HISTAR_INLINE void histar_self_of(const histar_answer *answer, histar_self *self)
{
    self->label = answer->label;
    self->clearance = answer->clearance;
    self->verify = answer->verify;
    self->space = histar_in(histar_object_of(answer->numbers[0]), histar_object_of(answer->numbers[1]));
    self->entry_point = answer->numbers[2];
    self->closure = answer->numbers[3];
}

/* What an object may use and uses, in pages of 256 bytes; 1 where its quota is fixed, and where it is read-only. */
typedef struct {
    uint32_t quota, used, fixed, immutable;
} histar_quota;
HISTAR_INLINE void histar_quota_of(const histar_answer *answer, histar_quota *quota)
{
    quota->quota = (uint32_t)answer->numbers[0];
    quota->used = (uint32_t)answer->numbers[1];
    quota->fixed = (uint32_t)answer->numbers[2];
    quota->immutable = (uint32_t)answer->numbers[3];
}

/* What a container lists: its whole length, and up to 16 objects. */
typedef struct {
    uint64_t length;
    uint32_t count;
    histar_object objects[16];
} histar_list;
HISTAR_INLINE void histar_list_of(const histar_answer *answer, histar_list *list)
{
    list->length = answer->numbers[0];
    list->count = answer->len;
    memcpy(list->objects, answer->numbers + 1, sizeof list->objects);
}

/* What a slot maps, as histar_as_map has it; nothing, and zeros, where is_mapped is 0. */
typedef struct {
    int is_mapped;
    uint32_t page, first, count, rights;
    histar_entry segment;
} histar_mapping;
HISTAR_INLINE void histar_mapping_of(const histar_answer *answer, histar_mapping *mapping)
{
    const uint64_t *n = answer->numbers;
    memset(mapping, 0, sizeof *mapping);
    if (answer->len) {
        mapping->is_mapped = 1;
        mapping->page = (uint32_t)n[0];
        mapping->segment = histar_in(histar_object_of(n[1]), histar_object_of(n[2]));
        mapping->first = (uint32_t)n[3];
        mapping->count = (uint32_t)n[4];
        mapping->rights = (uint32_t)(n[5] * HISTAR_READ + n[6] * HISTAR_WRITE);
    }
}

/* ---- Write calls. A result goes where its pointer says; for `made` and `category`, NULL is allowed. Each new object may be refused
 * HISTAR_NO_ACCESS, HISTAR_CANNOT_OBSERVE, HISTAR_CANNOT_MODIFY, HISTAR_BAD_LABEL, HISTAR_LABEL_RANGE, HISTAR_AVOID_TYPE,
 * HISTAR_NO_QUOTA, HISTAR_IMMUTABLE, HISTAR_SPENT. ---- */

/* Made from bindings/calls.toml: */
/* A new category, which the thread owns: star in its label, 3 in its clearance. HISTAR_LABEL_FULL, HISTAR_SPENT. */
HISTAR_LOOKED_AT(1)
HISTAR_INLINE uint32_t histar_cat_create(histar *k, histar_object thread, histar_category *category)
{
    uint32_t refusal = histar_asks(k, HISTAR_CALL_CAT_CREATE, thread, HISTAR_NOWHERE);
    if (refusal) return refusal;
    return histar_counted(k, category ? &category->number : NULL);
}

/* The thread's label rises, to its clearance at most. HISTAR_BAD_LABEL, HISTAR_LABEL_RANGE. */
HISTAR_LOOKED_AT(1, 3)
HISTAR_INLINE uint32_t histar_self_set_label(histar *k, histar_object thread, const histar_label *label)
{
    uint32_t refusal = histar_asks(k, HISTAR_CALL_SELF_SET_LABEL, thread, HISTAR_NOWHERE);
    if (refusal) return refusal;
    k->request.label = *label;
    return histar_done(k);
}

/* The thread's clearance changes: at least its label, and at most the maximum of the old clearance and of the label
 * with star raised. HISTAR_BAD_LABEL, HISTAR_CLEARANCE_RANGE. */
HISTAR_LOOKED_AT(1, 3)
HISTAR_INLINE uint32_t histar_self_set_clearance(histar *k, histar_object thread, const histar_label *clearance)
{
    uint32_t refusal = histar_asks(k, HISTAR_CALL_SELF_SET_CLEARANCE, thread, HISTAR_NOWHERE);
    if (refusal) return refusal;
    k->request.clearance = *clearance;
    return histar_done(k);
}

/* The thread's address space changes. HISTAR_NOWHERE for none. HISTAR_WRONG_TYPE. */
HISTAR_LOOKED_AT(1)
HISTAR_INLINE uint32_t histar_self_set_as(histar *k, histar_object thread, histar_entry space)
{
    uint32_t refusal = histar_asks(k, HISTAR_CALL_SELF_SET_AS, thread, space);
    if (refusal) return refusal;
    return histar_done(k);
}

/* A new container, last in a container's list, with a quota in pages of 256 bytes and the kinds that it will not
 * hold. What refuses each new object. */
HISTAR_LOOKED_AT(1, 4)
HISTAR_INLINE uint32_t histar_container_create(histar *k, histar_object thread, histar_object container,
                                               const histar_label *label, uint64_t quota, uint64_t avoid,
                                               histar_object *made)
{
    uint32_t refusal = histar_asks(k, HISTAR_CALL_CONTAINER_CREATE, thread, histar_in(container, HISTAR_NOTHING));
    if (refusal) return refusal;
    k->request.label = *label;
    k->request.numbers[0] = quota;
    k->request.numbers[1] = avoid;
    return histar_made(k, made);
}

/* A new segment of `pages` pages of zeros, 0 to 16, last in a container's list; its quota is at least one page more.
 * What refuses each new object, and HISTAR_BOUNDS. */
HISTAR_LOOKED_AT(1, 4)
HISTAR_INLINE uint32_t histar_segment_create(histar *k, histar_object thread, histar_object container,
                                             const histar_label *label, uint64_t quota, uint64_t pages,
                                             histar_object *made)
{
    uint32_t refusal = histar_asks(k, HISTAR_CALL_SEGMENT_CREATE, thread, histar_in(container, HISTAR_NOTHING));
    if (refusal) return refusal;
    k->request.label = *label;
    k->request.numbers[0] = quota;
    k->request.numbers[1] = pages;
    return histar_made(k, made);
}

/* A new segment with the bytes of another, last in a container's list. What refuses each new object, and
 * HISTAR_WRONG_TYPE. */
HISTAR_LOOKED_AT(1, 4)
HISTAR_INLINE uint32_t histar_segment_copy(histar *k, histar_object thread, histar_object container,
                                           const histar_label *label, uint64_t quota, histar_entry source,
                                           histar_object *made)
{
    uint32_t refusal = histar_asks(k, HISTAR_CALL_SEGMENT_COPY, thread, histar_in(container, HISTAR_NOTHING));
    if (refusal) return refusal;
    k->request.label = *label;
    k->request.other_container = source.container.id;
    k->request.other_object = source.object.id;
    k->request.numbers[0] = quota;
    return histar_made(k, made);
}

/* A new address space of 16 empty slots, last in a container's list. What refuses each new object. */
HISTAR_LOOKED_AT(1, 4)
HISTAR_INLINE uint32_t histar_as_create(histar *k, histar_object thread, histar_object container,
                                        const histar_label *label, uint64_t quota, histar_object *made)
{
    uint32_t refusal = histar_asks(k, HISTAR_CALL_AS_CREATE, thread, histar_in(container, HISTAR_NOTHING));
    if (refusal) return refusal;
    k->request.label = *label;
    k->request.numbers[0] = quota;
    return histar_made(k, made);
}

/* A new thread, last in a container's list, with the verify label {3}, no address space and closure 0. What refuses
 * each new object, and HISTAR_CLEARANCE_RANGE. */
HISTAR_LOOKED_AT(1, 4, 6)
HISTAR_INLINE uint32_t histar_thread_create(histar *k, histar_object thread, histar_object container,
                                            const histar_label *label, uint64_t quota, const histar_label *clearance,
                                            uint64_t entry_point, histar_object *made)
{
    uint32_t refusal = histar_asks(k, HISTAR_CALL_THREAD_CREATE, thread, histar_in(container, HISTAR_NOTHING));
    if (refusal) return refusal;
    k->request.label = *label;
    k->request.clearance = *clearance;
    k->request.numbers[0] = quota;
    k->request.numbers[1] = entry_point;
    return histar_made(k, made);
}

/* A new gate, last in a container's list. HISTAR_NOWHERE for no address space. What refuses each new object, and
 * HISTAR_CLEARANCE_RANGE, HISTAR_WRONG_TYPE. */
HISTAR_LOOKED_AT(1, 4, 6)
HISTAR_INLINE uint32_t histar_gate_create(histar *k, histar_object thread, histar_object container,
                                          const histar_label *label, uint64_t quota, const histar_label *clearance,
                                          histar_entry space, uint64_t entry_point, uint64_t closure,
                                          histar_object *made)
{
    uint32_t refusal = histar_asks(k, HISTAR_CALL_GATE_CREATE, thread, histar_in(container, HISTAR_NOTHING));
    if (refusal) return refusal;
    k->request.label = *label;
    k->request.clearance = *clearance;
    k->request.other_container = space.container.id;
    k->request.other_object = space.object.id;
    k->request.numbers[0] = quota;
    k->request.numbers[1] = entry_point;
    k->request.numbers[2] = closure;
    return histar_made(k, made);
}

/* A second link to an object whose quota is fixed, last in the list of `target`, which is charged its whole quota.
 * HISTAR_WRONG_TYPE for a container, HISTAR_CANNOT_OBSERVE, HISTAR_CANNOT_MODIFY, HISTAR_LABEL_RANGE,
 * HISTAR_AVOID_TYPE, HISTAR_NO_QUOTA, HISTAR_NOT_FIXED, HISTAR_ALREADY_LINKED, HISTAR_IMMUTABLE. */
HISTAR_LOOKED_AT(1)
HISTAR_INLINE uint32_t histar_link(histar *k, histar_object thread, histar_object target, histar_entry entry)
{
    uint32_t refusal = histar_asks(k, HISTAR_CALL_LINK, thread, entry);
    if (refusal) return refusal;
    k->request.other_container = target.id;
    return histar_done(k);
}

/* The object leaves the container's list, and what no path from the root leads to is gone. HISTAR_CANNOT_OBSERVE,
 * HISTAR_CANNOT_MODIFY, HISTAR_ROOT_KEPT, HISTAR_IMMUTABLE. */
HISTAR_LOOKED_AT(1)
HISTAR_INLINE uint32_t histar_unref(histar *k, histar_object thread, histar_entry entry)
{
    uint32_t refusal = histar_asks(k, HISTAR_CALL_UNREF, thread, entry);
    if (refusal) return refusal;
    return histar_done(k);
}

/* The object's quota grows or shrinks by so many pages of 256 bytes. HISTAR_CANNOT_OBSERVE, HISTAR_CANNOT_MODIFY,
 * HISTAR_LABEL_RANGE, HISTAR_NO_QUOTA, HISTAR_FIXED_QUOTA, HISTAR_IMMUTABLE. */
HISTAR_LOOKED_AT(1)
HISTAR_INLINE uint32_t histar_quota_move(histar *k, histar_object thread, histar_entry entry, int64_t change)
{
    uint32_t refusal = histar_asks(k, HISTAR_CALL_QUOTA_MOVE, thread, entry);
    if (refusal) return refusal;
    /* 32 bits in two's complement; any other number makes no call */
    k->request.numbers[0] = change >= INT32_MIN && change <= INT32_MAX ? (uint32_t)change : UINT64_MAX;
    return histar_done(k);
}

/* The object's quota never changes again. HISTAR_CANNOT_OBSERVE, HISTAR_CANNOT_MODIFY, HISTAR_IMMUTABLE. */
HISTAR_LOOKED_AT(1)
HISTAR_INLINE uint32_t histar_set_fixed(histar *k, histar_object thread, histar_entry entry)
{
    uint32_t refusal = histar_asks(k, HISTAR_CALL_SET_FIXED, thread, entry);
    if (refusal) return refusal;
    return histar_done(k);
}

/* The object is read-only for good. HISTAR_WRONG_TYPE for a thread or a device, HISTAR_CANNOT_OBSERVE,
 * HISTAR_CANNOT_MODIFY. */
HISTAR_LOOKED_AT(1)
HISTAR_INLINE uint32_t histar_set_immutable(histar *k, histar_object thread, histar_entry entry)
{
    uint32_t refusal = histar_asks(k, HISTAR_CALL_SET_IMMUTABLE, thread, entry);
    if (refusal) return refusal;
    return histar_done(k);
}

/* The object's metadata are these 0 to 64 bytes, and then zeros. HISTAR_WRONG_TYPE for a thread,
 * HISTAR_CANNOT_OBSERVE, HISTAR_CANNOT_MODIFY, HISTAR_IMMUTABLE. */
HISTAR_LOOKED_AT(1)
HISTAR_INLINE uint32_t histar_meta_set(histar *k, histar_object thread, histar_entry entry, const void *bytes,
                                       uint64_t len)
{
    uint32_t refusal = histar_asks(k, HISTAR_CALL_META_SET, thread, entry);
    if (refusal) return refusal;
    return histar_gives(k, bytes, len);
}

/* The segment has so many pages, 0 to 16: what is cut off is gone, what is new is 0. HISTAR_WRONG_TYPE,
 * HISTAR_CANNOT_OBSERVE, HISTAR_CANNOT_MODIFY, HISTAR_NO_QUOTA, HISTAR_IMMUTABLE, HISTAR_BOUNDS. */
HISTAR_LOOKED_AT(1)
HISTAR_INLINE uint32_t histar_segment_resize(histar *k, histar_object thread, histar_entry entry, uint64_t pages)
{
    uint32_t refusal = histar_asks(k, HISTAR_CALL_SEGMENT_RESIZE, thread, entry);
    if (refusal) return refusal;
    k->request.numbers[0] = pages;
    return histar_done(k);
}

/* These 1 to 64 bytes, in one page of 256, are written from `offset` on. HISTAR_WRONG_TYPE, HISTAR_CANNOT_OBSERVE,
 * HISTAR_CANNOT_MODIFY, HISTAR_IMMUTABLE, HISTAR_BOUNDS. */
HISTAR_LOOKED_AT(1, 5)
HISTAR_INLINE uint32_t histar_segment_write(histar *k, histar_object thread, histar_entry entry, uint64_t offset,
                                            const void *bytes, uint64_t len)
{
    uint32_t refusal = histar_asks(k, HISTAR_CALL_SEGMENT_WRITE, thread, entry);
    if (refusal) return refusal;
    k->request.numbers[0] = offset;
    return histar_gives(k, bytes, len);
}

/* An empty slot, 0 to 15, of the address space shows pages of a segment. `count` pages, from the segment's page
 * `first` on, are seen at the virtual page `page`; `rights` are HISTAR_READ, HISTAR_WRITE or both.
 * HISTAR_WRONG_TYPE, HISTAR_CANNOT_OBSERVE, HISTAR_CANNOT_MODIFY, HISTAR_IMMUTABLE, HISTAR_BOUNDS, HISTAR_OVERLAP. */
HISTAR_LOOKED_AT(1)
HISTAR_INLINE uint32_t histar_as_map(histar *k, histar_object thread, histar_entry space, uint64_t slot, uint64_t page,
                                     histar_entry segment, uint64_t first, uint64_t count, uint64_t rights)
{
    uint32_t refusal = histar_asks(k, HISTAR_CALL_AS_MAP, thread, space);
    if (refusal) return refusal;
    k->request.other_container = segment.container.id;
    k->request.other_object = segment.object.id;
    k->request.numbers[0] = slot;
    k->request.numbers[1] = page;
    k->request.numbers[2] = first;
    k->request.numbers[3] = count;
    k->request.numbers[4] = rights;
    return histar_done(k);
}

/* A filled slot, 0 to 15, is emptied. HISTAR_WRONG_TYPE, HISTAR_CANNOT_OBSERVE, HISTAR_CANNOT_MODIFY,
 * HISTAR_IMMUTABLE, HISTAR_BOUNDS, HISTAR_NOT_MAPPED. */
HISTAR_LOOKED_AT(1)
HISTAR_INLINE uint32_t histar_as_unmap(histar *k, histar_object thread, histar_entry space, uint64_t slot)
{
    uint32_t refusal = histar_asks(k, HISTAR_CALL_AS_UNMAP, thread, space);
    if (refusal) return refusal;
    k->request.numbers[0] = slot;
    return histar_done(k);
}

/* These 1 to 64 bytes, in one page of 256, are written through the thread's address space. HISTAR_BOUNDS,
 * HISTAR_NOT_MAPPED, HISTAR_RIGHTS_DENIED. */
HISTAR_LOOKED_AT(1, 4)
HISTAR_INLINE uint32_t histar_store(histar *k, histar_object thread, uint64_t address, const void *bytes, uint64_t len)
{
    uint32_t refusal = histar_asks(k, HISTAR_CALL_STORE, thread, HISTAR_NOWHERE);
    if (refusal) return refusal;
    k->request.numbers[0] = address;
    return histar_gives(k, bytes, len);
}

/* The thread enters the gate: it has these labels from then on, and the gate's address space, entry point and
 * closure. NULL is allowed for the two results. HISTAR_WRONG_TYPE, HISTAR_BAD_LABEL, HISTAR_GATE_DENIED. */
HISTAR_LOOKED_AT(1, 4, 5, 6)
HISTAR_INLINE uint32_t histar_gate_enter(histar *k, histar_object thread, histar_entry gate, const histar_label *label,
                                         const histar_label *clearance, const histar_label *verify,
                                         uint64_t *entry_point, uint64_t *closure)
{
    uint32_t refusal = histar_asks(k, HISTAR_CALL_GATE_ENTER, thread, gate);
    if (refusal) return refusal;
    k->request.label = *label;
    k->request.clearance = *clearance;
    k->request.verify = *verify;
    refusal = histar_serves(k);
    if (!refusal && entry_point) *entry_point = k->answer.numbers[0];
    if (!refusal && closure) *closure = k->answer.numbers[1];
    return histar_told(k, refusal);
}

/* A packet of 1 to 64 bytes is last in the device's queue. HISTAR_WRONG_TYPE, HISTAR_CANNOT_OBSERVE,
 * HISTAR_CANNOT_MODIFY, HISTAR_BOUNDS, HISTAR_DEVICE_FULL. */
HISTAR_LOOKED_AT(1, 4)
HISTAR_INLINE uint32_t histar_dev_send(histar *k, histar_object thread, histar_entry device, const void *bytes,
                                       uint64_t len)
{
    uint32_t refusal = histar_asks(k, HISTAR_CALL_DEV_SEND, thread, device);
    if (refusal) return refusal;
    return histar_gives(k, bytes, len);
}

/* The first packet of the device's queue is taken out. `bytes` has room for `size`: 64 or more, whatever the
 * packet's length, which is told in *len. HISTAR_WRONG_TYPE, HISTAR_CANNOT_OBSERVE, HISTAR_CANNOT_MODIFY,
 * HISTAR_DEVICE_EMPTY. */
HISTAR_LOOKED_AT(1, 4, 6)
HISTAR_INLINE uint32_t histar_dev_recv(histar *k, histar_object thread, histar_entry device, void *bytes, uint64_t size,
                                       size_t *len)
{
    uint32_t refusal = histar_asks(k, HISTAR_CALL_DEV_RECV, thread, device);
    if (refusal) return refusal;
    return histar_takes(k, bytes, size, len);
}
/* (the end of what is made) */

/* ---- Read calls. They change nothing. ---- */

/* Made from bindings/calls.toml: */
/* What the thread is. */
HISTAR_LOOKED_AT(1, 3)
HISTAR_INLINE uint32_t histar_self_get(histar *k, histar_object thread, histar_self *self)
{
    uint32_t refusal = histar_asks(k, HISTAR_CALL_SELF_GET, thread, HISTAR_NOWHERE);
    if (refusal) return refusal;
    refusal = histar_serves(k);
    if (!refusal) histar_self_of(&k->answer, self);
    return histar_told(k, refusal);
}

/* The object's label. HISTAR_CANNOT_OBSERVE for a thread whose label the caller may not see. */
HISTAR_LOOKED_AT(1, 4)
HISTAR_INLINE uint32_t histar_obj_label(histar *k, histar_object thread, histar_entry entry, histar_label *label)
{
    uint32_t refusal = histar_asks(k, HISTAR_CALL_OBJ_LABEL, thread, entry);
    if (refusal) return refusal;
    refusal = histar_serves(k);
    if (!refusal) *label = k->answer.label;
    return histar_told(k, refusal);
}

/* What the object may use and uses. HISTAR_CANNOT_OBSERVE. */
HISTAR_LOOKED_AT(1, 4)
HISTAR_INLINE uint32_t histar_obj_quota(histar *k, histar_object thread, histar_entry entry, histar_quota *quota)
{
    uint32_t refusal = histar_asks(k, HISTAR_CALL_OBJ_QUOTA, thread, entry);
    if (refusal) return refusal;
    refusal = histar_serves(k);
    if (!refusal) histar_quota_of(&k->answer, quota);
    return histar_told(k, refusal);
}

/* The length of a container's list, and up to 16 of its ids, from the place `from` on. HISTAR_BOUNDS. */
HISTAR_LOOKED_AT(1, 5)
HISTAR_INLINE uint32_t histar_container_list(histar *k, histar_object thread, histar_object container, uint64_t from,
                                             histar_list *list)
{
    uint32_t refusal = histar_asks(k, HISTAR_CALL_CONTAINER_LIST, thread, histar_in(container, HISTAR_NOTHING));
    if (refusal) return refusal;
    k->request.numbers[0] = from;
    refusal = histar_serves(k);
    if (!refusal) histar_list_of(&k->answer, list);
    return histar_told(k, refusal);
}

/* The container that lists a container; the root's is the root. */
HISTAR_LOOKED_AT(1, 4)
HISTAR_INLINE uint32_t histar_container_parent(histar *k, histar_object thread, histar_object container,
                                               histar_object *parent)
{
    uint32_t refusal = histar_asks(k, HISTAR_CALL_CONTAINER_PARENT, thread, histar_in(container, HISTAR_NOTHING));
    if (refusal) return refusal;
    return histar_made(k, parent);
}

/* The segment's length in pages of 256 bytes. HISTAR_WRONG_TYPE, HISTAR_CANNOT_OBSERVE. */
HISTAR_LOOKED_AT(1, 4)
HISTAR_INLINE uint32_t histar_segment_len(histar *k, histar_object thread, histar_entry entry, uint64_t *pages)
{
    uint32_t refusal = histar_asks(k, HISTAR_CALL_SEGMENT_LEN, thread, entry);
    if (refusal) return refusal;
    return histar_counted(k, pages);
}

/* 1 to 64 bytes of the segment, in one page of 256, from `offset` on. HISTAR_WRONG_TYPE, HISTAR_CANNOT_OBSERVE,
 * HISTAR_BOUNDS. */
HISTAR_LOOKED_AT(1, 5)
HISTAR_INLINE uint32_t histar_segment_read(histar *k, histar_object thread, histar_entry entry, uint64_t offset,
                                           void *bytes, uint64_t len)
{
    uint32_t refusal = histar_asks(k, HISTAR_CALL_SEGMENT_READ, thread, entry);
    if (refusal) return refusal;
    k->request.numbers[0] = offset;
    k->request.numbers[1] = len;
    return histar_takes(k, bytes, 64, NULL);
}

/* The 64 bytes of the object's metadata. `bytes` has room for `size`: 64 or more. HISTAR_WRONG_TYPE for a thread,
 * HISTAR_CANNOT_OBSERVE. */
HISTAR_LOOKED_AT(1, 4)
HISTAR_INLINE uint32_t histar_meta_get(histar *k, histar_object thread, histar_entry entry, void *bytes, uint64_t size)
{
    uint32_t refusal = histar_asks(k, HISTAR_CALL_META_GET, thread, entry);
    if (refusal) return refusal;
    return histar_takes(k, bytes, size, NULL);
}

/* What a slot, 0 to 15, of the address space maps. HISTAR_WRONG_TYPE, HISTAR_CANNOT_OBSERVE, HISTAR_BOUNDS. */
HISTAR_LOOKED_AT(1, 5)
HISTAR_INLINE uint32_t histar_as_get(histar *k, histar_object thread, histar_entry space, uint64_t slot,
                                     histar_mapping *mapping)
{
    uint32_t refusal = histar_asks(k, HISTAR_CALL_AS_GET, thread, space);
    if (refusal) return refusal;
    k->request.numbers[0] = slot;
    refusal = histar_serves(k);
    if (!refusal) histar_mapping_of(&k->answer, mapping);
    return histar_told(k, refusal);
}

/* 1 to 64 bytes, in one page of 256, read through the thread's address space. HISTAR_BOUNDS, HISTAR_NOT_MAPPED,
 * HISTAR_RIGHTS_DENIED. */
HISTAR_LOOKED_AT(1, 4)
HISTAR_INLINE uint32_t histar_load(histar *k, histar_object thread, uint64_t address, void *bytes, uint64_t len)
{
    uint32_t refusal = histar_asks(k, HISTAR_CALL_LOAD, thread, HISTAR_NOWHERE);
    if (refusal) return refusal;
    k->request.numbers[0] = address;
    k->request.numbers[1] = len;
    return histar_takes(k, bytes, 64, NULL);
}
/* (the end of what is made) */

/* ---- Calls as records ---- */

/* Makes the call of a record, for what keeps calls as data: it has the number of a write or read call, 1 to 34, and the fields that the
 * function of the call fills, but for the thread. The answer is written where it is not refused; fields that it does not have are 0. */
HISTAR_LOOKED_AT(1, 3, 4)
HISTAR_INLINE uint32_t histar_make(histar *k, histar_object thread, const histar_request *call, histar_answer *answer)
{
    uint32_t refusal = histar_asks(k, call->call, thread, HISTAR_NOWHERE);
    if (refusal) return refusal;
    k->request = *call;
    k->request.thread = thread.id;
    refusal = call->call <= HISTAR_CALL_LOAD ? histar_serves(k) : (uint32_t)HISTAR_BAD_BATCH;
    if (!refusal) *answer = k->answer;
    k->request.len = 0;
    return histar_told(k, refusal);
}

/* ---- Notes between seats of a shared kernel ---- */

/* A note of what the seat has seen, for another seat to learn. HISTAR_BAD_BATCH of a kernel that is no seat. */
HISTAR_LOOKED_AT(1, 2)
HISTAR_INLINE uint32_t histar_seen(histar *seat, histar_note *note)
{
    uint32_t refusal = histar_asks(seat, HISTAR_CALL_SEEN, HISTAR_NOTHING, HISTAR_NOWHERE);
    if (refusal) return refusal;
    refusal = histar_serves(seat);
    if (!refusal) {
        *note = seat->shared;
        note->calls = seat->answer.numbers[0];
    }
    return histar_told(seat, refusal);
}

/* The seat sees all that the note tells, so its reads from here on do. HISTAR_OTHER_LIST where the note is of another shared kernel,
 * and nothing changes; or tells more calls than there are. */
HISTAR_LOOKED_AT(1)
HISTAR_INLINE uint32_t histar_learn(histar *seat, histar_note note)
{
    uint32_t refusal = histar_asks(seat, HISTAR_CALL_LEARN, HISTAR_NOTHING, HISTAR_NOWHERE);
    if (refusal) return refusal;
    if (note.at != seat->shared.at || note.since != seat->shared.since) return histar_released(seat, HISTAR_OTHER_LIST);
    seat->request.numbers[0] = note.calls;
    return histar_done(seat);
}

/* ---- Batches of a seat ---- */

/* Makes 1 to 16 write calls of a thread at once: no other call stands between them, and no seat sees some of them without the rest.
 * Each is a record with its number, 1 to 24, and the fields that the function of the call fills, but for the thread. Each is answered
 * in the state that those before it leave; one that is refused changes nothing, and the rest are made. The answers tell the replies;
 * that to a refused call has 12 as its reply, and the refusal as its first number. HISTAR_BAD_BATCH of a kernel that is no seat, of
 * another number of calls, and where a record is no write call; HISTAR_MEMORY, HISTAR_BUSY and HISTAR_LIST_FULL as of one call: no
 * call is made then, and nothing is written into the answers. */
HISTAR_LOOKED_AT(1, 3, 5)
HISTAR_INLINE uint32_t histar_batch(histar *seat, histar_object thread, const histar_request *calls, size_t count,
                                    histar_answer *answers)
{
    size_t at;
    uint32_t refusal = histar_asks(seat, HISTAR_CALL_BATCH_BEGIN, thread, HISTAR_NOWHERE);
    if (refusal) return refusal;
    refusal = histar_serves(seat);
    for (at = 0; !refusal && at < count; at++) {
        seat->request = calls[at];
        seat->request.call = calls[at].call <= HISTAR_CALL_DEV_RECV ? calls[at].call + HISTAR_CALL_IN_BATCH : 0;
        refusal = histar_serves(seat);
    }
    seat->request.thread = thread.id;
    seat->request.call = HISTAR_CALL_BATCH_MAKE;
    if (!refusal) refusal = histar_serves(seat);
    seat->request.call = HISTAR_CALL_BATCH_TOLD;
    for (at = 0; !refusal && at < count; at++) {
        memset(&seat->answer, 0, sizeof seat->answer);
        seat->request.numbers[0] = at;
        if (histar_serves(seat) != HISTAR_DONE && seat->answer.reply != 12) break; /* (no reply is told otherwise) */
        answers[at] = seat->answer;
    }
    histar_wipes(&seat->request, sizeof seat->request);
    return histar_told(seat, refusal);
}

/* ---- The log: each write call since the open or the last cut, refused or not, with its answer, and each read where all are kept. Its dump
 * is the text that `./histar run --dump` writes of a run, and histar-audit tells whether its answers are those of the rules. ---- */

/* What a log keeps: write calls, or reads too. */
enum { HISTAR_LOG_WRITES = 0, HISTAR_LOG_ALL = 1 };

/* Asks for a log. From here on calls take memory. */
static inline uint32_t histar_logs(histar *k, uint32_t call, uint64_t most, uint64_t keeps)
{
    uint32_t refusal = histar_asks(k, call, HISTAR_NOTHING, HISTAR_NOWHERE);
    if (refusal) return refusal;
    if (keeps > HISTAR_LOG_ALL) return histar_over(k, HISTAR_BAD_BATCH);
    k->request.numbers[0] = most;
    k->request.numbers[1] = keeps;
    k->takes_memory = !k->is_seat && !k->of;
    return histar_done(k);
}

/* Begins the log, of `most` calls at most, before the first write call. From here on each call that is kept takes memory. One past the bound
 * is refused HISTAR_LOG_FULL, and HISTAR_MEMORY where there is no memory for it: it is not made and not kept. Where write calls alone are
 * kept, reads are answered as ever. histar_log_cut makes room; UINT64_MAX is no bound. HISTAR_BAD_BATCH where a write call was made
 * already, and where `keeps` is neither. */
HISTAR_LOOKED_AT(1)
HISTAR_INLINE uint32_t histar_log_on(histar *k, uint64_t most, uint64_t keeps)
{
    return histar_logs(k, HISTAR_CALL_LOG_ON, most, keeps);
}

/* Begins the log anew at the kernel as it stands, of `most` calls at most, so that the memory of its calls is given back: its dump has
 * the checkpoint of this moment and the calls from here on that are kept. Where no log was kept, one begins, in which each thread's first event has number 1.
 * HISTAR_MEMORY where there is no memory for that, and the log is as before; HISTAR_BAD_BATCH of a seat. */
HISTAR_LOOKED_AT(1)
HISTAR_INLINE uint32_t histar_log_cut(histar *k, uint64_t most, uint64_t keeps)
{
    return histar_logs(k, HISTAR_CALL_LOG_CUT, most, keeps);
}

/* Where a text goes: a function of the caller's, which is given the text in parts of 1 to 4,096 bytes, one after another, each of them for
 * the length of the call. It answers 0 to go on. Any other answer ends the text. It should return. Where it does not, this call alone is lost:
 * an exception and the end of its thread give the kernel back, in C where it is compiled with -fexceptions. After a jump, a call by what
 * stands above the text's call on the stack goes on. Any other is refused HISTAR_BUSY, until a close. A close meanwhile, or a fork in the child,
 * ends the text HISTAR_UNAVAILABLE: the part is wiped by the close, and the histar itself stands until the text's call returned. */
typedef uint32_t (*histar_put)(void *context, const void *part, size_t len);

/* Room that a text is written into, and how much of it is left. */
typedef struct {
    unsigned char *at;
    size_t left;
} histar_space;
static inline uint32_t histar_fills(void *space, const void *part, size_t len)
{
    histar_space *it = (histar_space *)space;
    if (len > it->left) return HISTAR_BOUNDS;
    memcpy(it->at, part, len);
    it->at += len;
    it->left -= len;
    return HISTAR_DONE;
}

/* A text that is given: of which kernel in which turn, and where it goes. */
typedef struct {
    histar *k;
    uint32_t turn, call;
    histar_put put;
    void *context;
} histar_stream;

/* Gives a part. The kernel is not this call's any more where it was closed meanwhile, or taken after a jump, nor in a child that was forked
 * meanwhile. */
__attribute__((noinline, unused)) static uint32_t histar_gives_part(histar_stream *it, size_t len)
{
    histar *k = it->k;
    const uintptr_t below = k->below;
    uint32_t refusal, turn = it->turn | HISTAR_IS_GIVING;
    __atomic_store_n(&k->below, histar_stack(), __ATOMIC_RELAXED);
    __atomic_store_n(&k->turn, turn, __ATOMIC_RELEASE);
    refusal = it->put(it->context, k->part, len);
    if (!histar_is_open(k) || !histar_takes_turn(k, turn, it->turn)) {
        it->k = NULL;
        return HISTAR_UNAVAILABLE;
    }
    __atomic_store_n(&k->below, below, __ATOMIC_RELAXED);
    return refusal;
}

/* Gives the piece that the library made last, in parts. */
static inline uint32_t histar_puts(histar_stream *it, size_t len)
{
    histar *k = it->k;
    size_t at, some, filled = 0;
    uint32_t refusal = HISTAR_DONE;
    k->request.call = HISTAR_CALL_DUMP_TEXT;
    for (at = 0; !refusal && at < len; at += some) {
        some = len - at < 64 ? len - at : 64;
        k->request.numbers[0] = at;
        refusal = histar_serves(k);
        memcpy(k->part + filled, k->answer.bytes, some);
        filled += some;
        if (refusal || (filled < sizeof k->part && at + some < len)) continue;
        refusal = it->put == histar_fills ? histar_fills(it->context, k->part, filled) : histar_gives_part(it, filled);
        filled = 0;
    }
    return refusal;
}

/* Gives all pieces of a text, where it goes anywhere, and tells how long it is. */
static inline uint32_t histar_streams(histar_stream *it, size_t *len)
{
    uint64_t at = 0;
    size_t some = 1;
    uint32_t refusal = HISTAR_DONE;
    for (*len = 0; !refusal && some; *len += some) {
        refusal = histar_cuts(it->k, it->call, at++, &some);
        if (!refusal && some && it->put) refusal = histar_puts(it, some);
    }
    return refusal;
}

/* A text of a kernel that is taken for it, and its end: also that by an exception. */
static inline histar_stream histar_text(histar *k, uint32_t call, histar_put put, void *context)
{
    histar_stream it;
    it.k = k;
    it.turn = __atomic_load_n(&k->turn, __ATOMIC_RELAXED) & ~(uint32_t)HISTAR_TURN;
    it.call = call;
    it.put = put;
    it.context = context;
    k->takes_memory = !k->is_seat && !k->of;
    return it;
}
static inline void histar_text_ends(histar_stream *it)
{
    histar *k = it->k;
    if (!k || !histar_is_open(k)) return;
    if (__atomic_load_n(&k->turn, __ATOMIC_RELAXED) != (it->turn | HISTAR_IS_CALLED) && !histar_takes_turn(k, it->turn | HISTAR_IS_GIVING, it->turn)) return;
    histar_drops_text(k);
    (void)histar_told(k, HISTAR_DONE);
    histar_wipe_below(HISTAR_TEXT_STACK);
}
#define HISTAR_ENDS __attribute__((cleanup(histar_text_ends)))

static inline uint32_t histar_streamed(histar *k, uint32_t call, histar_put put, void *context)
{
    size_t len;
    uint32_t refusal = histar_asks(k, call, HISTAR_NOTHING, HISTAR_NOWHERE);
    if (refusal) return refusal;
    HISTAR_ENDS histar_stream it = histar_text(k, call, put, context);
    return histar_streams(&it, &len);
}

/* Gives the text of the log's dump to `put`, so that it stands nowhere whole: beside the log the library takes memory for up to 64 events
 * of it, or for the kernel's state, and of a seat for another kernel. No zero byte ends it. What `put` answers, where that is not 0, ends the
 * dump and is returned. The kernel is busy until the dump is over: no call comes between its parts, not by `put` either. Of a seat it is the
 * dump of what the seat has seen, with all calls that it was told of by a note. HISTAR_BAD_BATCH where no log was begun,
 * HISTAR_TEXT_MEMORY where there is no memory for a part, and the text has ended before it. The log stays as it is, so it may be dumped
 * again, and calls may follow. */
HISTAR_LOOKED_AT(1, 2)
HISTAR_INLINE uint32_t histar_dump_to(histar *k, histar_put put, void *context)
{
    return histar_streamed(k, HISTAR_CALL_DUMP, put, context);
}

/* Gives the dump of what the list has from what a seat has seen up to a note, as histar_dump_to gives one: it begins at a checkpoint of the
 * seat's state, in which each thread's first event has number 1, and needs no log. A service that keeps a seat which makes no call so has
 * the dump of all calls since, and begins anew by a seat beside the one of the note: histar_close of the old one gives back what it lacked.
 * HISTAR_OTHER_LIST as histar_learn, and where the seat has seen more; the other refusals are those of histar_dump_to. */
HISTAR_LOOKED_AT(1, 3)
HISTAR_INLINE uint32_t histar_dump_since(histar *older, histar_note note, histar_put put, void *context)
{
    size_t len;
    uint32_t refusal = histar_asks(older, HISTAR_CALL_DUMP_SINCE, HISTAR_NOTHING, HISTAR_NOWHERE);
    if (refusal) return refusal;
    if (note.at != older->shared.at || note.since != older->shared.since) return histar_released(older, HISTAR_OTHER_LIST);
    HISTAR_ENDS histar_stream it = histar_text(older, HISTAR_CALL_DUMP, put, context);
    older->request.numbers[0] = note.calls;
    older->is_text = 1;
    refusal = histar_serves(older);
    return refusal ? refusal : histar_streams(&it, &len);
}

/* Gives the text of a checkpoint to `put`, as histar_dump_to gives a dump's: the kernel's limits and state, with all that segments hold, so
 * keep it as you would the kernel. Where a log is kept it has the number of each thread's next call too. It is a dump without calls:
 * histar-audit finds it clean, and histar_open_at opens it. HISTAR_TEXT_MEMORY as of a dump, HISTAR_BAD_BATCH of a seat. */
HISTAR_LOOKED_AT(1, 2)
HISTAR_INLINE uint32_t histar_checkpoint_to(histar *k, histar_put put, void *context)
{
    return histar_streamed(k, HISTAR_CALL_CHECKPOINT, put, context);
}

/* Writes a text into room of the caller's: first it is asked how long it is. */
static inline uint32_t histar_writes(histar *k, uint32_t call, void *text, size_t size, size_t *needed)
{
    histar_space space;
    size_t len;
    uint32_t refusal = histar_asks(k, call, HISTAR_NOTHING, HISTAR_NOWHERE);
    if (refusal) return refusal;
    space.at = (unsigned char *)text;
    space.left = size;
    HISTAR_ENDS histar_stream it = histar_text(k, call, NULL, &space);
    refusal = histar_streams(&it, &len);
    if (!refusal) *needed = len;
    if (!refusal && size < len) refusal = HISTAR_BOUNDS;
    it.put = histar_fills;
    return refusal ? refusal : histar_streams(&it, &len);
}

/* Writes the text that histar_dump_to gives, and its length in bytes to *needed. HISTAR_BOUNDS where it is
 * longer than `size`: nothing but *needed is written then. Else refused as histar_dump_to; where that is HISTAR_TEXT_MEMORY, what stands
 * in the first `size` bytes is no text. */
HISTAR_LOOKED_AT(1, 4)
HISTAR_INLINE uint32_t histar_dump(histar *k, void *text, size_t size, size_t *needed)
{
    return histar_writes(k, HISTAR_CALL_DUMP, text, size, needed);
}

/* Writes the text that histar_checkpoint_to gives, as histar_dump writes a dump's. */
HISTAR_LOOKED_AT(1, 4)
HISTAR_INLINE uint32_t histar_checkpoint(histar *k, void *text, size_t size, size_t *needed)
{
    return histar_writes(k, HISTAR_CALL_CHECKPOINT, text, size, needed);
}

/* ---- For languages that compile no C: they call the library's functions, by their names here ---- */

/* A closed kernel in memory of the library's; NULL where there is none. What closes it, and gives that memory back unless it is refused: then
 * the kernel stands as it did. */
histar *histar_new(void);
uint32_t histar_free(histar *k);

/* How many bytes a record has, by its name as "histar_label"; and the number of a call, by its name as "segment_read". 0 of another name. */
size_t histar_size_of(const char *record);
uint32_t histar_call_number(const char *call);

/* A text that is gathered in memory of the library's. It begins as zeros. histar_gathers is what a text goes to (histar_put), and is given
 * one. histar_forgets wipes the text, gives its memory back, and leaves zeros. */
typedef struct {
    unsigned char *bytes;
    size_t len, room;
} histar_gathered;
uint32_t histar_gathers(void *gathered, const void *part, size_t len);
void histar_forgets(histar_gathered *text);

#ifdef __cplusplus
}
#endif
#endif
