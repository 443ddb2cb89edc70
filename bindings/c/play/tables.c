/* What a kernel keeps, as a dump has it. */
#include "histar_debug.h"
#include "play.h"

/* A label that is kept, with its index. */
struct kept {
    histar_label label;
    uint16_t index;
};

static struct kept kept[4096];
static size_t kept_count;

/* Star is the least level. */
static int rank(uint8_t l) { return l == HISTAR_STAR ? 0 : l + 1; }

static int sign(uint64_t a, uint64_t b) { return (a > b) - (a < b); }

/* By the defaults, and then by the pairs, place by place. */
static int compare(const void *one, const void *other)
{
    const histar_label *a = &((const struct kept *)one)->label, *b = &((const struct kept *)other)->label;
    int it = rank(a->default_level) - rank(b->default_level);
    for (unsigned i = 0; !it && i < a->count && i < b->count; i++) {
        it = sign(a->categories[i].number, b->categories[i].number);
        if (!it) it = rank(a->levels[i]) - rank(b->levels[i]);
    }
    return it ? it : a->count - b->count;
}

static void asked(uint32_t refusal)
{
    if (refusal) faulty("a look-up is refused");
}

static void print_labels(void)
{
    int is_there;
    uint32_t bits = 0;
    for (unsigned i = 0; i <= UINT16_MAX && kept_count < sizeof kept / sizeof kept[0]; i++) {
        struct kept *it = &kept[kept_count];
        it->index = (uint16_t)i;
        asked(histar_kept_label(&k, i, &is_there, &it->label));
        kept_count += is_there != 0;
    }
    qsort(kept, kept_count, sizeof kept[0], compare);
    name_count = 0;
    for (size_t i = 0; i < kept_count; i++) {
        printf("label %zu", i);
        print_label(&kept[i].label);
        printf("\n");
    }
    for (size_t i = 0; i < kept_count; i++)
        for (size_t j = 0; j < kept_count; j++) {
            asked(histar_kept_order(&k, kept[i].index, kept[j].index, &is_there, &bits));
            if (!is_there) faulty("an order is missing");
            printf("order %zu %zu %u\n", i, j, bits);
        }
}

static void print_maps(histar_object thread)
{
    static const char *const said[] = {"-", "r", "w", "rw"};
    int is_there;
    histar_object segment = HISTAR_NOTHING;
    uint32_t rights = 0;
    for (uint32_t slot = 0; slot < 16; slot++) {
        asked(histar_kept_translation(&k, thread, slot, &is_there, &segment, &rights));
        if (is_there) printf("map %" PRIu64 " %u %" PRIu64 " %s\n", thread.id, slot, segment.id, said[rights]);
    }
}

/* Prints what the kernel keeps, as a dump has it. */
void print_tables(void)
{
    static histar_object live[4096];
    int is_there = 1;
    uint32_t count = 0, pages = 0;
    for (;; count++) {
        asked(histar_kept_live(&k, count, &is_there, &live[count]));
        if (!is_there) break;
        printf("live %" PRIu64 "\n", live[count].id);
    }
    for (uint32_t i = 0; i < count; i++) {
        asked(histar_kept_use(&k, live[i], &is_there, &pages));
        if (!is_there) faulty("a use is missing");
        printf("use %" PRIu64 " %u\n", live[i].id, pages);
    }
    for (uint32_t i = 0; i < count; i++) print_maps(live[i]);
    print_labels();
}
