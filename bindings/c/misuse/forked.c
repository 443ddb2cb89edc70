/* A kernel in a child of fork: each use of it there is refused, and the parent goes on. */
#include "misuse.h"
#include <pthread.h>
#include <sys/mman.h>
#include <sys/syscall.h>

/* What a child ends with. */
static uint32_t in_child(pid_t child, uint32_t (*misuses)(void))
{
    int status = 0;
    if (!child) _exit((int)misuses());
    if (child < 0 || waitpid(child, &status, 0) != child || !WIFEXITED(status)) return HISTAR_DONE;
    return (uint32_t)WEXITSTATUS(status);
}
static uint32_t in_a_child(uint32_t (*misuses)(void)) { return in_child(fork(), misuses); }

static uint32_t calls(void) { return is_called(&k); }
static uint32_t reads(void)
{
    char bytes[64];
    return histar_segment_read(&k, HISTAR_BOOT, in_root(secret), 0, bytes, 3);
}
static uint32_t closes(void) { return histar_close(&k); }
static uint32_t opens(void) { return histar_open(&k, 8); }
static uint32_t calls_after_an_open(void)
{
    must(histar_open(&closed, 8));
    must(is_called(&closed));
    return is_called(&k);
}
static uint32_t calls_in_a_child_of_its_own(void) { return in_a_child(calls_after_an_open); }
static uint32_t opens_its_own(void)
{
    must(histar_open(&closed, 8));
    must(is_called(&closed));
    return histar_close(&closed);
}
static uint32_t calls_the_seat(void) { return is_called(&seat); }
static uint32_t opens_a_seat(void) { return histar_seat_open(&closed, &seat); }
static uint32_t opens_a_reader(void) { return histar_reader_open(&closed, &seat); }

static uint32_t called(void) { return in_a_child(calls); }
static uint32_t read_there(void) { return in_a_child(reads); }
static uint32_t closed_there(void) { return in_a_child(closes); }
static uint32_t opened_there(void) { return in_a_child(opens); }
static uint32_t called_after_an_open(void) { return in_a_child(calls_after_an_open); }
static uint32_t called_two_below(void) { return in_a_child(calls_in_a_child_of_its_own); }
static uint32_t seat_called(void) { return in_a_child(calls_the_seat); }
static uint32_t seat_opened(void) { return in_a_child(opens_a_seat); }
static uint32_t reader_opened(void) { return in_a_child(opens_a_reader); }
static uint32_t own_kernel(void) { return in_a_child(opens_its_own); }
static uint32_t called_after_a_bare_fork(void) { return in_child((pid_t)syscall(SYS_fork), calls); }

/* The kernel of a child is none of its parent's, where it stands in memory that both have. */
static histar *both;
static uint32_t calls_both(void) { return is_called(both); }
static uint32_t closes_both(void) { return histar_close(both); }
static uint32_t opens_both(void) { return histar_open(both, 8); }
static uint32_t opens_in_both(void)
{
    must(histar_open(both, 8));
    return HISTAR_DONE;
}
static uint32_t with_both(uint32_t (*misuses)(void))
{
    uint32_t refusal;
    both = mmap(NULL, sizeof *both, PROT_READ | PROT_WRITE, MAP_SHARED | MAP_ANONYMOUS, -1, 0);
    must(both == MAP_FAILED || histar_open(both, 8));
    must(is_called(both));
    refusal = in_a_child(misuses);
    must(is_called(both));
    must(histar_close(both));
    must((uint32_t)munmap(both, sizeof *both));
    return refusal;
}
static uint32_t called_in_shared_memory(void) { return with_both(calls_both); }
static uint32_t closed_in_shared_memory(void) { return with_both(closes_both); }
static uint32_t opened_in_shared_memory(void) { return with_both(opens_both); }
static uint32_t opened_by_a_child(void)
{
    uint32_t refusal;
    both = mmap(NULL, sizeof *both, PROT_READ | PROT_WRITE, MAP_SHARED | MAP_ANONYMOUS, -1, 0);
    must(both == MAP_FAILED || in_a_child(opens_in_both));
    refusal = is_called(both) == HISTAR_UNAVAILABLE && histar_close(both) == HISTAR_UNAVAILABLE ? histar_open(both, 8) : HISTAR_DONE;
    must((uint32_t)munmap(both, sizeof *both));
    return refusal;
}

/* It is refused so too where another thread was in the middle of a call. */
static int stop;
static void *dumps_until_stopped(void *given)
{
    static char text[1 << 16];
    size_t needed;
    (void)given;
    while (!__atomic_load_n(&stop, __ATOMIC_SEQ_CST)) must(histar_dump(&k, text, sizeof text, &needed));
    return NULL;
}
static uint32_t forked_in_a_call(void)
{
    pthread_t other;
    uint32_t refusal = HISTAR_UNAVAILABLE;
    __atomic_store_n(&stop, 0, __ATOMIC_SEQ_CST);
    must((uint32_t)pthread_create(&other, NULL, dumps_until_stopped, NULL));
    for (int i = 0; i < 200 && refusal == HISTAR_UNAVAILABLE; i++) refusal = in_a_child(calls);
    __atomic_store_n(&stop, 1, __ATOMIC_SEQ_CST);
    pthread_join(other, NULL);
    return refusal;
}

/* The text that the function was given goes on in the parent, and in the child no more. */
static pid_t from_a_text;
static uint32_t forks_once(void *context, const void *part, size_t len)
{
    (void)context, (void)part, (void)len;
    if (from_a_text < 0) from_a_text = fork();
    return 0;
}
static uint32_t dumped_on_after_a_fork(void)
{
    uint32_t told;
    from_a_text = -1;
    told = histar_dump_to(&k, forks_once, NULL);
    if (!from_a_text) _exit((int)told);
    must(told);
    must(from_a_text < 0);
    return in_child(from_a_text, NULL);
}

const struct row FORKED[] = {
    {"a call in a child", HISTAR_UNAVAILABLE, called},
    {"a read in a child", HISTAR_UNAVAILABLE, read_there},
    {"a close in a child", HISTAR_UNAVAILABLE, closed_there},
    {"an open in a child of what its parent has opened", HISTAR_UNAVAILABLE, opened_there},
    {"a call in a child that has a kernel of its own", HISTAR_UNAVAILABLE, called_after_an_open},
    {"a call in the child of a child", HISTAR_UNAVAILABLE, called_two_below},
    {"a call in a child of a bare system call", HISTAR_UNAVAILABLE, called_after_a_bare_fork},
    {"a call by a seat in a child", HISTAR_UNAVAILABLE, seat_called},
    {"a seat beside one of the parent's", HISTAR_UNAVAILABLE, seat_opened},
    {"a reader of a seat of the parent's", HISTAR_UNAVAILABLE, reader_opened},
    {"a kernel that a child opens", HISTAR_DONE, own_kernel},
    {"a call in a child that was forked in a call", HISTAR_UNAVAILABLE, forked_in_a_call},
    {"a dump that goes on in a child", HISTAR_UNAVAILABLE, dumped_on_after_a_fork},
    {"a call in a child in shared memory", HISTAR_UNAVAILABLE, called_in_shared_memory},
    {"a close in a child in shared memory", HISTAR_UNAVAILABLE, closed_in_shared_memory},
    {"an open in a child in shared memory", HISTAR_UNAVAILABLE, opened_in_shared_memory},
    {"an open in shared memory of what a child has opened", HISTAR_UNAVAILABLE, opened_by_a_child},
    {NULL, HISTAR_DONE, NULL},
};
