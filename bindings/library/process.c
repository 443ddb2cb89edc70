/* What the header and the Rust crate ask of the system, beside memory: which process this is, whether a signal's handler runs on a stack of
 * its own, a wait, and a clean stack. */
#define _GNU_SOURCE
#include "histar.h"
#include <pthread.h>
#include <signal.h>
#include <stdlib.h>
#include <sys/mman.h>
#include <sys/syscall.h>
#include <unistd.h>

/* The page that has the number of this process. A child of fork finds zeros there, as it is before the first open. */
static const uint64_t none = 0;
const volatile uint64_t *histar_process = &none;

static void forget(void) { *(volatile uint64_t *)(uintptr_t)histar_process = 0; }

/* A page that a child of fork finds empty: by the system, or where that does not do so, by fork itself. */
static uint64_t *new_page(void)
{
    void *page = mmap(NULL, (size_t)sysconf(_SC_PAGESIZE), PROT_READ | PROT_WRITE, MAP_PRIVATE | MAP_ANONYMOUS, -1, 0);
    if (page == MAP_FAILED) return NULL;
    if (!madvise(page, (size_t)sysconf(_SC_PAGESIZE), MADV_WIPEONFORK) || !pthread_atfork(NULL, NULL, forget)) return page;
    munmap(page, (size_t)sysconf(_SC_PAGESIZE));
    return NULL;
}

static uint64_t *page_of_process(void)
{
    const volatile uint64_t *before = &none;
    uint64_t *page;
    if (__atomic_load_n(&histar_process, __ATOMIC_ACQUIRE) != &none) return (uint64_t *)(uintptr_t)histar_process;
    page = new_page();
    if (page && !__atomic_compare_exchange_n(&histar_process, &before, page, 0, __ATOMIC_ACQ_REL, __ATOMIC_ACQUIRE)) {
        munmap(page, (size_t)sysconf(_SC_PAGESIZE)); /* another thread has made one */
        page = (uint64_t *)(uintptr_t)before;
    }
    return page;
}

/* Gives this process a number that no other has had since the machine began; 0 where there is no memory for it. Its nanosecond is spread over
 * all bits, so that a later one with another process's number makes another number. */
uint64_t histar_process_begins(void)
{
    uint64_t *page = page_of_process(), number = 0, made;
    struct timespec since;
    if (!page) return 0;
    clock_gettime(CLOCK_BOOTTIME, &since);
    made = ((uint64_t)since.tv_sec * 1000000000 + (uint64_t)since.tv_nsec) * UINT64_C(0x9e3779b97f4a7c15) + (uint64_t)getpid();
    made += !made;
    return __atomic_compare_exchange_n(page, &number, made, 0, __ATOMIC_RELAXED, __ATOMIC_RELAXED) ? made : number;
}

/* The system tells so, but of a stack that is disarmed while it is used. A thread's own stack ends at the thread; that of the first thread is
 * above all others. */
int histar_is_on_signal_stack(void)
{
    stack_t stack;
    if (sigaltstack(NULL, &stack) != 0 || (stack.ss_flags & SS_ONSTACK) != 0) return 1;
    return syscall(SYS_gettid) != getpid() && histar_stack() > histar_thread();
}

/* (a thread that is to end does not end in it) */
void histar_waits(void)
{
    struct timespec millisecond = {0, 1000000};
    syscall(SYS_nanosleep, &millisecond, NULL);
}

__attribute__((noinline)) void histar_wipe_below(size_t depth) { explicit_bzero(__builtin_alloca(depth), depth); }

uint32_t histar_layout(void) { return HISTAR_LAYOUT; }
