/* For clang's fuzzer: each input is a kernel's pages, and then records, each a few bytes of the input. */
#include "histar.h"

/* The next byte of the input, 0 at its end. */
struct input {
    const uint8_t *at, *end;
};

static uint8_t next(struct input *it) { return it->at < it->end ? *it->at++ : 0; }

/* A small number, or one of any size after 255. */
static uint64_t number(struct input *it)
{
    uint64_t n = next(it);
    if (n < 255) return n;
    for (int i = 0; i < 8; i++) n = n << 8 | next(it);
    return n;
}

static void fill_label(struct input *it, histar_label *label)
{
    label->default_level = next(it);
    label->count = next(it);
    for (int i = 0; i < 24 && i < label->count; i++) {
        label->levels[i] = next(it);
        label->categories[i] = histar_category_of(number(it));
    }
}

static void fill(struct input *it, histar_request *r)
{
    r->call = next(it);
    r->thread = number(it);
    r->container = number(it);
    r->object = number(it);
    r->other_container = number(it);
    r->other_object = number(it);
    for (int i = 0; i < 5; i++) r->numbers[i] = number(it);
    r->len = next(it);
    for (int i = 0; i < 64; i++) r->bytes[i] = r->len < 64 ? next(it) : (uint8_t)i;
    fill_label(it, &r->label);
    fill_label(it, &r->clearance);
    fill_label(it, &r->verify);
}

int LLVMFuzzerTestOneInput(const uint8_t *bytes, size_t len)
{
    static histar k;
    struct input it = {bytes, bytes + len};
    if (histar_open(&k, next(&it))) return 0;
    while (it.at < it.end) {
        fill(&it, &k.request);
        histar_call(k.room, &k.request, &k.answer);
    }
    histar_close(&k);
    return 0;
}
