/* The words of a line. */
#include "play.h"

char *word(void)
{
    char *it = strtok_r(NULL, " ", &rest);
    if (!it) faulty("a word is missing");
    return it;
}

static uint64_t value_of(const char *text, int is_category)
{
    const struct name *name;
    if (text[0] == '#') return strtoull(text + 1, NULL, 10);
    name = name_of(text, now->worker, now->phase);
    if (name && name->is_category == is_category) return name->value;
    if (!now->unbound[0]) copy_name(now->unbound, text);
    return 0;
}

histar_object object(void) { return histar_object_of(value_of(word(), 0)); }
uint64_t number(void) { return strtoull(word(), NULL, 10); }

histar_entry entry(void)
{
    histar_object container = object();
    return histar_in(container, object());
}

static uint8_t level(char letter) { return letter == '*' ? HISTAR_STAR : (uint8_t)(letter - '0'); }

histar_label label(void)
{
    char *text = word(), *part = text + 1, *comma;
    histar_label made = histar_level(level(text[strlen(text) - 2]));
    for (; (comma = strchr(part, ',')); part = comma + 1) {
        char *colon = strchr(part, ':');
        *colon = 0;
        made = histar_with(made, histar_category_of(value_of(part, 1)), level(colon[1]));
    }
    return made;
}

size_t bytes(uint8_t *to)
{
    char *text = word(), pair[3] = {0};
    size_t len = strcmp(text, "-") ? strlen(text) / 2 : 0;
    for (size_t i = 0; i < len; i++) {
        memcpy(pair, text + 2 * i, 2);
        to[i] = (uint8_t)strtoul(pair, NULL, 16);
    }
    return len;
}

uint32_t set(const char *letters)
{
    char *text = word();
    uint32_t found = 0;
    for (uint32_t i = 0; letters[i]; i++)
        if (strchr(text, letters[i])) found |= 1u << i;
    return found;
}
