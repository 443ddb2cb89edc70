/* Links that lead to what the plan names. A program names it as its user does, so the world has these links too. */
#define _GNU_SOURCE
#include "confine.h"
#include <stdlib.h>
#include <string.h>
#include <unistd.h>

enum { MOST_FOLLOWED = 40 };

const char *link_at(const struct plan *plan, const char *path)
{
    for (int i = 0; i < plan->link_count; i++)
        if (!strcmp(plan->links[i].path, path)) return plan->links[i].real;
    return NULL;
}

static void add_link(struct plan *plan, const char *word, const char *path, const char *text)
{
    struct link *link = &plan->links[plan->link_count];
    if (link_at(plan, path)) return;
    if (plan->link_count == MOST_LINKS) refuse("%s: at most %d links lead to what is named", word, MOST_LINKS);
    *link = (struct link){strdup(path), strdup(text), realpath(path, NULL)};
    if (!link->path || !link->text || !link->real) refuse("%s: %s leads nowhere", word, path);
    plan->link_count++;
}

/* A walk along a path: where it is, by a path that no link is in, and what is left of it. */
struct walk {
    char at[2 * PATH_MAX], rest[2 * PATH_MAX];
};

/* Goes by one part of the path; false where that is too long. */
static bool step(struct plan *plan, const char *word, struct walk *walk, int *followed)
{
    char part[PATH_MAX], text[PATH_MAX], rest[2 * PATH_MAX];
    size_t length = strlen(walk->at), count = strcspn(walk->rest, "/");
    ssize_t size;
    if (count >= sizeof part || length + count + 2 > sizeof walk->at) return false;
    snprintf(part, sizeof part, "%.*s", (int)count, walk->rest);
    memmove(walk->rest, walk->rest + count, strlen(walk->rest + count) + 1);
    memmove(walk->rest, walk->rest + strspn(walk->rest, "/"), strlen(walk->rest + strspn(walk->rest, "/")) + 1);
    if (!strcmp(part, "") || !strcmp(part, ".")) return true;
    if (!strcmp(part, "..")) {
        if (length) *strrchr(walk->at, '/') = 0;
        return true;
    }
    snprintf(walk->at + length, sizeof walk->at - length, "/%s", part);
    if ((size = readlink(walk->at, text, sizeof text - 1)) < 0) return true;
    text[size] = 0;
    add_link(plan, word, walk->at, text);
    walk->at[*text == '/' ? 0 : length] = 0;
    if ((size_t)snprintf(rest, sizeof rest, "%s/%s", text, walk->rest) >= sizeof rest) return false;
    strcpy(walk->rest, rest);
    return ++*followed < MOST_FOLLOWED;
}

void note_links(struct plan *plan, const char *word, const char *path)
{
    struct walk walk;
    int followed = 0;
    if (*path == '/' || !getcwd(walk.at, PATH_MAX) || !strcmp(walk.at, "/")) *walk.at = 0;
    snprintf(walk.rest, sizeof walk.rest, "%s", path);
    while (*walk.rest)
        if (!step(plan, word, &walk, &followed)) refuse("%s: %s has too many links", word, path);
}
