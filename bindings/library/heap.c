/* The heap of the static library: the three functions that its proved code asks for memory, over malloc and free. A block is cleared before
 * it is given back, and one that grows or shrinks is cleared where it stood, so that no freed memory has what a kernel held.
 *
 * Each block stands after its size, so that what is cleared is what was asked for, whoever supplies malloc; and the blocks of a kernel in a
 * list, so that they can be given back where a call was left in the middle and nobody knows what the kernel still points to. */
#define _GNU_SOURCE
#include "histar.h"
#include <stdlib.h>

/* What the proved code is answered: whether there is a block, and a pointer that is never null. */
struct tried {
    uint64_t is_there;
    void *block;
};

/* What stands before a block, which is aligned as malloc's are: to 16 bytes. */
struct head {
    _Alignas(16) size_t size;
    struct head *next, **at; /* the block after it, in a list of a kernel or of what waits to be freed; and what points to it */
};

struct tried rattle_alloc(size_t size, size_t alignment);
struct tried rattle_realloc(void *block, size_t kept, size_t size, size_t alignment);
void rattle_dealloc(void *block);

/* Whether this thread is in the heap: then the handler of a signal that interrupts it is given no memory, since malloc may not be called
 * again, and what it frees waits. */
static __attribute__((tls_model("initial-exec"))) _Thread_local struct {
    volatile int is_in;
    struct head *volatile waits;
    struct head **blocks; /* of the kernel whose call this is */
} heap;

static struct head *head_of(void *block) { return (struct head *)block - 1; }

static struct tried tried(struct head *made)
{
    static struct head nothing;
    struct tried told = {made != NULL, made ? made + 1 : &nothing};
    return told;
}

/* Whoever follows a list from its beginning finds each of its blocks whole, at whatever instruction a call is left. */
static void put(struct head **list, struct head *it)
{
    it->at = list;
    it->next = list ? *list : NULL;
    __atomic_signal_fence(__ATOMIC_SEQ_CST);
    if (list) *list = it;
    __atomic_signal_fence(__ATOMIC_SEQ_CST);
    if (it->next) it->next->at = &it->next;
}
static void take(struct head *it)
{
    if (!it->at) return;
    *it->at = it->next;
    __atomic_signal_fence(__ATOMIC_SEQ_CST);
    if (it->next) it->next->at = it->at;
}

/* Frees a block, and what waited meanwhile. */
static void give_back(struct head *it)
{
    struct head *next;
    while (it) {
        next = it->next;
        heap.is_in = 1;
        free(it);
        heap.is_in = 0;
        it = next ? next : __atomic_exchange_n(&heap.waits, NULL, __ATOMIC_RELAXED);
    }
}

/* A block of so many bytes at a multiple of 16, which the proved code asks for no more than. */
struct tried rattle_alloc(size_t size, size_t alignment)
{
    struct head **blocks = heap.blocks, *it;
    (void)alignment;
    if (heap.is_in || size > PTRDIFF_MAX - sizeof *it) return tried(NULL);
    heap.is_in = 1;
    it = malloc(sizeof *it + size);
    heap.is_in = 0;
    if (!it) return tried(NULL);
    it->size = size;
    put(blocks, it);
    return tried(it);
}

/* The block as one of another size, of which the first `kept` bytes are as they were. Without memory for it the block is as it was. */
struct tried rattle_realloc(void *block, size_t kept, size_t size, size_t alignment)
{
    struct head *old = head_of(block);
    struct tried it = rattle_alloc(size, alignment);
    if (!it.is_there) return it;
    memcpy(it.block, block, kept);
    rattle_dealloc(old + 1);
    return it;
}

void rattle_dealloc(void *block)
{
    struct head *it = head_of(block);
    explicit_bzero(it + 1, it->size);
    take(it);
    it->next = NULL;
    if (!heap.is_in) {
        give_back(it);
        return;
    }
    it->next = heap.waits;
    heap.waits = it;
}

/* What this thread asks for from here on is kept in a kernel's list; with none, in no list. */
void histar_blocks_of(void **blocks) { heap.blocks = (struct head **)blocks; }

/* Gives back all blocks of a list, which nobody points to any more. */
void histar_blocks_end(void **blocks)
{
    struct head *it;
    while ((it = *blocks)) {
        *blocks = it->next;
        it->at = NULL;
        rattle_dealloc(it + 1);
    }
}
