// What a text goes to throws, or its thread is ended: the call alone is lost, and the kernel goes on. And a kernel can't be copied.
#include "histar.h"
#include <cstdio>
#include <pthread.h>
#include <type_traits>
#include <unistd.h>

static_assert(!std::is_copy_constructible<histar>::value && !std::is_copy_assignable<histar>::value, "a kernel is not copied");
static_assert(!std::is_move_constructible<histar>::value && !std::is_move_assignable<histar>::value, "nor moved");

static histar k = HISTAR_INIT;

static uint32_t throws(void *, const void *, size_t) { throw 7; }

static volatile bool is_waiting;
static uint32_t waits(void *, const void *, size_t)
{
    is_waiting = true;
    for (;;) pause();
}
static void *gives(void *)
{
    (void)!histar_dump_to(&k, waits, nullptr);
    return nullptr;
}

// Whether a dump throws what it is given to, and a call is made then.
static bool goes_on_after_a_throw()
{
    try {
        (void)!histar_dump_to(&k, throws, nullptr);
        return false;
    } catch (int thrown) {
        return thrown == 7 && !histar_cat_create(&k, HISTAR_BOOT, nullptr);
    }
}
static bool goes_on_after_an_end()
{
    pthread_t giver;
    if (pthread_create(&giver, nullptr, gives, nullptr)) return false;
    while (!is_waiting) usleep(100);
    pthread_cancel(giver);
    pthread_join(giver, nullptr);
    return !histar_cat_create(&k, HISTAR_BOOT, nullptr);
}

int main()
{
    if (histar_open(&k, 8) || histar_log_on(&k, 99, HISTAR_LOG_WRITES) || histar_cat_create(&k, HISTAR_BOOT, nullptr)) return 2;
    bool thrown = goes_on_after_a_throw(), ended = goes_on_after_an_end();
    std::printf("%d %d\n", thrown, ended);
    return histar_close(&k) || !thrown || !ended;
}
