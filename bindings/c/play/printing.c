/* What a script printed. */
#include "play.h"

static void print_name(uint64_t value, int is_category)
{
    for (size_t i = 0; i < name_count; i++)
        if (names[i].is_category == is_category && names[i].value == value) {
            printf("%s", names[i].text);
            return;
        }
    printf("#%" PRIu64, value);
}

void print_label(const histar_label *it)
{
    printf(" {");
    for (unsigned i = 0; i < it->count; i++) {
        print_name(it->categories[i].number, 1);
        printf(":%c,", "0123*"[it->levels[i]]);
    }
    printf("%c}", "0123*"[it->default_level]);
}

static void print_objects(const histar_object *objects, size_t count)
{
    for (size_t i = 0; i < count; i++) {
        printf(" ");
        print_name(objects[i].id, 0);
    }
}

static void print_mapping(const histar_mapping *it)
{
    static const char *const rights[] = {"-", "r", "w", "rw"};
    histar_object both[2] = {it->segment.container, it->segment.object};
    if (!it->is_mapped) {
        printf(" none");
        return;
    }
    printf(" %u", it->page);
    print_objects(both, 2);
    printf(" %u %u %s", it->first, it->count, rights[it->rights]);
}

static void print_numbers(const struct line *it)
{
    for (uint32_t i = 0; i < it->number_count; i++) printf(" %" PRIu64, it->numbers[i]);
}

static void print_line(const struct line *it)
{
    printf("%s %u: ", it->worker, it->number);
    if (it->unbound[0]) printf("unbound %s\n", it->unbound);
    else if (it->refusal == NO_THREAD) printf("refused 42 NoThread\n");
    else if (it->refusal) printf("refused %u %s\n", it->refusal, histar_refusal_name(it->refusal));
    else {
        int is_list = !strcmp(it->word, "list");
        printf("%s", it->word);
        if (it->has_category) printf(" "), print_name(it->category.number, 1);
        for (uint32_t i = 0; i < it->label_count; i++) print_label(&it->labels[i]);
        if (is_list) print_numbers(it);
        print_objects(it->objects, it->object_count);
        if (!is_list) print_numbers(it);
        if (it->has_mapping) print_mapping(&it->mapping);
        if (!strcmp(it->word, "data")) printf(" ");
        for (size_t i = 0; !strcmp(it->word, "data") && i < it->len; i++) printf("%02x", it->bytes[i]);
        printf("\n");
    }
}

void print_all(void)
{
    for (size_t i = 0; i < line_count; i++) {
        int is_first = 1;
        for (size_t j = 0; j < i && is_first; j++) is_first = strcmp(lines[j].worker, lines[i].worker) != 0;
        for (size_t j = i; is_first && j < line_count; j++)
            if (!strcmp(lines[j].worker, lines[i].worker)) print_line(&lines[j]);
    }
}
