/* Lines for what the kernel refused: at once and at length where the plan explains, and else one for each thing at the end.
 *
 * A line has no name that the program chose: that may be at the level of a secret. */
#define _GNU_SOURCE
#include "confine.h"

/* Tells each category in which the program is above what it would write. */
static void tell_above(const struct plan *plan, const struct levels *own, const struct levels *levels)
{
    for (int i = 0; i < plan->category_count; i++)
        if (own->in[i] > levels->in[i])
            fprintf(stderr, " in the category of %s the program is at %u, and it at %u", plan->categories[i].name, own->in[i], levels->in[i]);
    fputc('\n', stderr);
}

/* Whether this is the first refusal of a thing, and is to be explained. */
static bool is_first(const struct plan *plan, bool *is_refused)
{
    bool is = plan->explains && !*is_refused;
    *is_refused = true;
    return is;
}

void explain_write(const struct plan *plan, struct report *report, const struct levels *own)
{
    if (!is_first(plan, &report->is_refused)) return;
    fprintf(stderr, "confine: refused to write %s:", report->path);
    tell_above(plan, own, &report->levels);
}

void explain_gate(const struct plan *plan, struct gate *gate, const struct levels *own, const struct levels *behind)
{
    if (!is_first(plan, &gate->is_refused)) return;
    fprintf(stderr, "confine: refused to enter the gate %s:", gate->name);
    tell_above(plan, own, behind);
}

/* A line for what must not get to a report. */
void explain_held(const struct plan *plan, const char *path, bool *is_refused, const char *held)
{
    if (is_first(plan, is_refused)) fprintf(stderr, "confine: refused to open %s: the program was given %s to write\n", path, held);
}

/* A line for what is above the program's clearance. */
void explain_clearance(const struct plan *plan, const struct family *family, const char *path, bool *is_refused, const struct levels *levels)
{
    if (!is_first(plan, is_refused)) return;
    fprintf(stderr, "confine: refused to open %s:", path);
    for (int i = 0; i < plan->category_count; i++)
        if (levels->in[i] > family->clearance.in[i])
            fprintf(stderr, " in the category of %s it is at %u, and the program's clearance at %u", plan->categories[i].name,
                    levels->in[i], family->clearance.in[i]);
    fputc('\n', stderr);
}

static void tell_one(const struct plan *plan, bool is_refused, const char *what, const char *name)
{
    if (is_refused && !plan->explains) fprintf(stderr, "confine: refused to %s %s; --explain tells why\n", what, name);
}

void tell_refused(const struct plan *plan, bool prints)
{
    for (int i = 0; i < plan->secret_count; i++) tell_one(plan, plan->secrets[i].is_refused, "open", plan->secrets[i].path);
    for (int i = 0; i < plan->report_count; i++) tell_one(plan, plan->reports[i].is_refused, "write", plan->reports[i].path);
    for (int i = 0; i < plan->gate_count; i++) tell_one(plan, plan->gates[i].is_refused, "enter the gate", plan->gates[i].name);
    if (!prints) fputs("confine: a secret was read: what was printed from then on is withheld, and the status\n", stderr);
}
