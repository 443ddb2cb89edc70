/* The environment of the program. What its user has there may be a secret of no folder (a key, a token): only plain names pass, and
 * those that are asked for. */
#define _GNU_SOURCE
#include "confine.h"
#include <stdlib.h>
#include <string.h>
#include <unistd.h>

/* Names that pass. One that ends with _ stands for all that begin with it. */
static const char *const PLAIN[] = {
    "PATH", "LANG", "LANGUAGE", "LC_", "TERM", "COLORTERM", "NO_COLOR", "TZ", "USER", "LOGNAME", "SHELL", NULL};

/* What stands for the home, and for the place of files for a while: the world has no other. */
static const char *const OWN[] = {"HOME=/tmp", "TMPDIR=/tmp", NULL};

/* Whether a variable, NAME=VALUE, has this name. */
static bool is_named(const char *variable, const char *name)
{
    size_t length = strlen(name);
    return !strncmp(variable, name, length) && (variable[length] == '=' || name[length - 1] == '_');
}

static bool is_asked_for(const struct plan *plan, const char *variable)
{
    for (int i = 0; i < plan->passed_count; i++)
        if (is_named(variable, plan->passed[i]) && variable[strlen(plan->passed[i])] == '=') return true;
    return false;
}

static bool passes(const struct plan *plan, const char *variable)
{
    for (const char *const *own = OWN; *own; own++)
        if (!strncmp(variable, *own, strcspn(*own, "=") + 1)) return is_asked_for(plan, variable);
    for (const char *const *name = PLAIN; *name; name++)
        if (is_named(variable, *name)) return true;
    return is_asked_for(plan, variable);
}

char **environment_of(const struct plan *plan)
{
    size_t count = 0;
    char **passed;
    while (environ[count]) count++;
    if (!(passed = calloc(count + sizeof OWN / sizeof *OWN, sizeof *passed))) unable("an environment");
    count = 0;
    for (const char *const *own = OWN; *own; own++)
        if (!is_asked_for(plan, *own)) passed[count++] = (char *)(uintptr_t)*own;
    for (char **it = environ; *it; it++)
        if (passes(plan, *it)) passed[count++] = *it;
    return passed;
}
