/* Where a path lies: in which file system, and where in it. One folder that is mounted at two places has two paths and one place. */
#define _GNU_SOURCE
#include "confine.h"
#include <stdlib.h>
#include <string.h>

/* What the machine has mounted somewhere. */
struct mounted {
    char *device, *root, *point; /* the file system, what of it, and where */
};

static struct mounted *all;
static int count;

/* A path as the machine's list writes it has some bytes as \ and three digits. */
static void unescape(char *path)
{
    char *to = path;
    for (const char *from = path; *from; to++) {
        bool is_escaped = *from == '\\' && from[1] && from[2] && from[3];
        *to = is_escaped ? (char)((from[1] - '0') * 64 + (from[2] - '0') * 8 + from[3] - '0') : *from;
        from += is_escaped ? 4 : 1;
    }
    *to = 0;
}

/* Adds what a line of the list says: its third word is the device, and then come the root and the point. */
static void add(char *line)
{
    char *rest = line, *words[5];
    struct mounted *more;
    for (int i = 0; i < 5; i++)
        if (!(words[i] = strsep(&rest, " ")) || !rest) return;
    unescape(words[3]);
    unescape(words[4]);
    if (!(more = realloc(all, (size_t)(count + 1) * sizeof *all))) unable("a list of mounts");
    all = more;
    all[count++] = (struct mounted){strdup(words[2]), strdup(words[3]), strdup(words[4])};
    if (!all[count - 1].device || !all[count - 1].root || !all[count - 1].point) unable("a list of mounts");
}

static void read_all(void)
{
    char *line = NULL;
    size_t size = 0;
    FILE *list = count ? NULL : fopen("/proc/self/mountinfo", "re");
    if (!list) return;
    while (getline(&line, &size, list) > 0) add(line);
    free(line);
    fclose(list);
}

/* The mount that a path lies in: the innermost, and there the last. */
static const struct mounted *mount_of(const char *path)
{
    const struct mounted *found = NULL;
    read_all();
    for (int i = 0; i < count; i++)
        if (is_below(path, all[i].point) && (!found || strlen(all[i].point) >= strlen(found->point))) found = &all[i];
    return found;
}

const char *mounted_in(const char *folder)
{
    read_all();
    for (int i = 0; i < count; i++)
        if (is_below(all[i].point, folder) && strcmp(all[i].point, folder)) return all[i].point;
    return NULL;
}

/* Where a path lies, which is looked up once. */
struct place {
    const char *path; /* (of the plan, or of what all find: it stays where it is) */
    const struct mounted *mount; /* NULL where that can't be told */
    char *below;                 /* in its file system */
};

static const struct place *place_of(const char *path)
{
    static struct place places[MOST_SECRETS + MOST_REPORTS + MOST_OPEN + MOST_ALWAYS];
    static size_t known;
    struct place *place = places;
    while (place < places + known && place->path != path) place++;
    if (place < places + known) return place;
    if (known == sizeof places / sizeof *places) refuse("too many paths");
    *place = (struct place){path, mount_of(path), NULL};
    known++;
    if (place->mount && asprintf(&place->below, "%s%s", strcmp(place->mount->root, "/") ? place->mount->root : "",
                                 path + (strcmp(place->mount->point, "/") ? strlen(place->mount->point) : 0)) < 0)
        unable("a list of places");
    if (place->below && !*place->below) place->below = (char *)(uintptr_t)"/";
    return place;
}

bool is_placed_below(const char *path, const char *folder)
{
    const struct place *one = place_of(path), *other = place_of(folder);
    return one->mount && other->mount && !strcmp(one->mount->device, other->mount->device) && is_below(one->below, other->below);
}

bool is_mounted_below(const char *path, const char *folder)
{
    const struct place *place = place_of(path);
    if (!place->mount) return false;
    for (int i = 0; i < count; i++)
        if (is_below(all[i].point, folder) && strcmp(all[i].point, folder) && !strcmp(all[i].device, place->mount->device)
            && (is_below(all[i].root, place->below) || is_below(place->below, all[i].root)))
            return true;
    return false;
}
