/* The label kernel's side: one thread for the program and all that it starts, one object for each thing outside. */
#define _GNU_SOURCE
#include "confine.h"
#include <stdlib.h>
#include <string.h>

/* (Each of MOST_MADE programs takes a thread and two segments: five pages. The rest takes some 40. More pages take longer to make.) */
enum { PAGES = 384, SEGMENT_QUOTA = 2, HIGHEST = 3 };

static histar kernel;
static histar_object terminal;

_Noreturn static void refused(const char *call, uint32_t refusal)
{
    fprintf(stderr, "confine: %s: refused %u %s\n", call, refusal, histar_refusal_name(refusal));
    exit(ENDS_FAULT);
}

#define MUST(call) do { uint32_t refusal_ = (call); if (refusal_) refused(#call, refusal_); } while (0)

static histar_entry entry_of(histar_object object) { return histar_in(HISTAR_ROOT, object); }

/* The label with these levels in the plan's categories, and a level in all others. */
static histar_label label_of(const struct plan *plan, const struct levels *levels, uint8_t others)
{
    histar_label label = histar_level(others);
    for (int i = 0; i < plan->category_count; i++) label = histar_with(label, plan->categories[i].category, levels->in[i]);
    return label;
}

static histar_label plain_label(const struct plan *plan, const struct levels *levels) { return label_of(plan, levels, 1); }

/* The highest label that a thread may have: its family's, or the plan's. */
static histar_label clearance_of(const struct plan *plan, const struct levels *levels) { return label_of(plan, levels, 2); }

/* What a label has in a category. */
static uint8_t level_in(const histar_label *label, histar_category category)
{
    for (unsigned i = 0; i < label->count; i++)
        if (label->categories[i].number == category.number) return label->levels[i];
    return label->default_level;
}

/* The levels of the label that the program's thread has. */
static struct levels own_levels(const struct plan *plan, const struct family *family)
{
    struct levels own = {{1, 1, 1, 1, 1, 1, 1, 1}};
    histar_self self;
    MUST(histar_self_get(&kernel, family->thread, &self));
    for (int i = 0; i < plan->category_count; i++) own.in[i] = level_in(&self.label, plan->categories[i].category);
    return own;
}

/* The program's label, risen to these levels where it is below them. */
static histar_label risen(const struct plan *plan, const struct family *family, const struct levels *levels)
{
    struct levels both = own_levels(plan, family);
    for (int i = 0; i < plan->category_count; i++)
        if (levels->in[i] > both.in[i]) both.in[i] = levels->in[i];
    return plain_label(plan, &both);
}

/* Tells what an object of the kernel is, for who asks histar-audit of the dump. */
static void tell_id(const struct plan *plan, histar_object object, const char *what)
{
    if (plan->explains) fprintf(stderr, "confine: #%llu is %s\n", (unsigned long long)object.id, what);
}

static histar_object make_segment(const struct plan *plan, const struct levels *levels, const char *what)
{
    histar_object made;
    histar_label label = plain_label(plan, levels);
    MUST(histar_segment_create(&kernel, HISTAR_BOOT, HISTAR_ROOT, &label, SEGMENT_QUOTA, 1, &made));
    tell_id(plan, made, what);
    return made;
}

void forget(histar_object object) { MUST(histar_unref(&kernel, HISTAR_BOOT, entry_of(object))); }

void forget_answers(struct family *family)
{
    for (int i = 0; i < MOST_GATES; i++) {
        if (family->answers[i].id) forget(family->answers[i]);
        family->answers[i] = HISTAR_NOTHING;
    }
}

/* A secret is a gate that nobody changes. Who enters it observes it, and comes out at its label, or above. */
static void make_secret(struct plan *plan, struct secret *secret)
{
    struct levels all = {{3, 3, 3, 3, 3, 3, 3, 3}};
    histar_label label = plain_label(plan, &secret->levels), clearance = label_of(plan, &all, 2);
    MUST(histar_gate_create(&kernel, HISTAR_BOOT, HISTAR_ROOT, &label, 1, &clearance, HISTAR_NOWHERE, 0, 0, &secret->object));
    MUST(histar_set_immutable(&kernel, HISTAR_BOOT, entry_of(secret->object)));
    tell_id(plan, secret->object, secret->path);
}

/* A gate at star in the categories that it owns. Whoever may know all that the program may know enters it. */
static void make_gate(struct plan *plan, struct gate *gate)
{
    histar_label label = histar_level(1), clearance = clearance_of(plan, &plan->clearance);
    for (int i = 0; i < plan->category_count; i++)
        if (gate->owns[i]) label = histar_with(label, plan->categories[i].category, HISTAR_STAR);
    MUST(histar_gate_create(&kernel, HISTAR_BOOT, HISTAR_ROOT, &label, 1, &clearance, HISTAR_NOWHERE, 0, 0, &gate->object));
    tell_id(plan, gate->object, gate->name);
}

static uint32_t writes(histar_object thread, histar_object object)
{
    return histar_segment_write(&kernel, thread, entry_of(object), 0, "w", 1);
}

static uint32_t reads(histar_object thread, histar_object object)
{
    char byte;
    return histar_segment_read(&kernel, thread, entry_of(object), 0, &byte, 1);
}

static void make_category(struct plan *plan, struct category *category)
{
    MUST(histar_cat_create(&kernel, HISTAR_BOOT, &category->category));
    if (plan->explains) fprintf(stderr, "confine: category #%llu is that of %s\n", (unsigned long long)category->category.number, category->name);
}

/* A thread of a label and a clearance; the refusal where the one is above the other. */
static uint32_t make_cleared(const struct plan *plan, const histar_label *label, const struct levels *levels, histar_object *made)
{
    histar_label clearance = clearance_of(plan, levels);
    return histar_thread_create(&kernel, HISTAR_BOOT, HISTAR_ROOT, label, 1, &clearance, 0, made);
}

static histar_object make_thread(const struct plan *plan, const histar_label *label)
{
    histar_object made;
    MUST(make_cleared(plan, label, &plan->clearance, &made));
    return made;
}

/* (Each program may have two more pages for each gate that answers.) */
static uint64_t pages_of(const struct plan *plan)
{
    uint64_t pages = PAGES;
    for (int i = 0; i < plan->gate_count; i++) pages += plan->gates[i].answers ? 2 * (MOST_MADE + 1) : 0;
    return pages;
}

void make_objects(struct plan *plan)
{
    struct levels plain = {{1, 1, 1, 1, 1, 1, 1, 1}};
    MUST(histar_open(&kernel, pages_of(plan)));
    if (plan->dump) MUST(histar_log_on(&kernel, UINT64_MAX, HISTAR_LOG_WRITES));
    for (int i = 0; i < plan->category_count; i++) make_category(plan, &plan->categories[i]);
    for (int i = 0; i < plan->secret_count; i++) make_secret(plan, &plan->secrets[i]);
    for (int i = 0; i < plan->report_count; i++)
        plan->reports[i].object = make_segment(plan, &plan->reports[i].levels, plan->reports[i].path);
    for (int i = 0; i < plan->faults_count; i++)
        plan->faults[i].object = make_segment(plan, &plan->faults[i].levels, plan->faults[i].path);
    for (int i = 0; i < plan->gate_count; i++) make_gate(plan, &plan->gates[i]);
    terminal = make_segment(plan, &plain, "what is printed");
}

/* The refusal of a write by a thread of this label, which is made for that and goes again. */
static uint32_t would_write(const struct plan *plan, const histar_label *label, histar_object object)
{
    histar_object probe = make_thread(plan, label);
    uint32_t refusal = writes(probe, object);
    forget(probe);
    return refusal;
}

/* A thread enters a gate, with its label but for what the gate owns: that it owns from then on. The refusal, if it may not. */
static uint32_t enter(const struct plan *plan, const struct gate *gate, histar_object thread, const histar_label *own)
{
    histar_label label, clearance = clearance_of(plan, &plan->clearance), verify = histar_level(HIGHEST);
    struct levels levels;
    for (int i = 0; i < plan->category_count; i++)
        levels.in[i] = gate->owns[i] ? HISTAR_STAR : level_in(own, plan->categories[i].category);
    label = plain_label(plan, &levels);
    return histar_gate_enter(&kernel, thread, entry_of(gate->object), &label, &clearance, &verify, NULL, NULL);
}

histar_object behind_gate(const struct plan *plan, int i, const struct family *answered)
{
    const struct gate *gate = &plan->gates[i];
    if (gate->answers) return answered->answers[i];
    return gate->report == SHOWN ? terminal : plan->reports[gate->report].object;
}

/* Whether a thread of this label, which is made for that and goes again, gets through a gate and writes an object. */
static bool gets_through(const struct plan *plan, const struct gate *gate, const histar_label *label, histar_object object)
{
    histar_object thread = make_thread(plan, label);
    bool is_through = !enter(plan, gate, thread, label) && !writes(thread, object);
    forget(thread);
    return is_through;
}

/* Whether the program holds a gate and may not get through it at this label. */
static bool is_gate_below(const struct plan *plan, const struct family *family, const histar_label *label, int i)
{
    const struct gate *gate = &plan->gates[i];
    if (!family->holds_gate[i]) return false;
    if (family->lent[i].id && !gets_through(plan, gate, label, family->lent[i])) return true;
    return (!gate->answers || family->answers[i].id) && !gets_through(plan, gate, label, behind_gate(plan, i, family));
}

/* The name of the first report or gate that the program holds and may not write at this label, or NULL. */
static const char *held_below(const struct plan *plan, const struct family *family, const histar_label *label)
{
    for (int i = 0; i < plan->report_count; i++)
        if (family->holds_report[i] && would_write(plan, label, plan->reports[i].object)) return plan->reports[i].path;
    for (int i = 0; i < plan->gate_count; i++)
        if (is_gate_below(plan, family, label, i)) return plan->gates[i].name;
    return NULL;
}

/* Whether a thread of the program's clearance may have its label, risen to these levels: one is made for that, and goes again. */
static bool is_cleared(const struct plan *plan, const struct family *family, const struct levels *levels)
{
    histar_label label = risen(plan, family, levels);
    histar_object probe;
    if (make_cleared(plan, &label, &family->clearance, &probe)) return false;
    forget(probe);
    return true;
}

/* Whether the program's label may rise to that of a thing. A line tells it by its path where it may not. */
static bool may_rise(const struct plan *plan, const struct family *family, const struct levels *levels, const char *path, bool *is_refused)
{
    histar_label label = risen(plan, family, levels);
    const char *held;
    if (!is_cleared(plan, family, levels)) explain_clearance(plan, family, path, is_refused, levels);
    else if ((held = held_below(plan, family, &label))) explain_held(plan, path, is_refused, held);
    else return true;
    return false;
}

/* Notes what a family's label is, and that it may be shown what it prints. */
static void note_label(const struct plan *plan, struct family *family)
{
    family->levels = own_levels(plan, family);
    family->prints = !writes(family->thread, terminal);
}

bool is_born(struct plan *plan, struct family *family)
{
    struct levels plain = {{1, 1, 1, 1, 1, 1, 1, 1}};
    histar_label label = plain_label(plan, &plain);
    family->clearance = plan->clearance;
    family->thread = make_thread(plan, &label);
    tell_id(plan, family->thread, "the program");
    label = plain_label(plan, &plan->born);
    if (histar_self_set_label(&kernel, family->thread, &label)) return false;
    note_label(plan, family);
    return true;
}

uint32_t is_spawned(const struct plan *plan, const struct family *by, const struct levels *levels, struct family *family)
{
    histar_label label = plain_label(plan, levels), clearance = clearance_of(plan, &family->clearance);
    uint32_t refusal = histar_thread_create(&kernel, by->thread, HISTAR_ROOT, &label, 1, &clearance, 0, &family->thread);
    if (refusal) return refusal;
    tell_id(plan, family->thread, "a program that it started");
    note_label(plan, family);
    return 0;
}

void spawn_again(const struct plan *plan, struct family *family)
{
    histar_label label = plain_label(plan, &family->levels);
    MUST(make_cleared(plan, &label, &family->clearance, &family->thread));
    tell_id(plan, family->thread, "a program that it started");
}

histar_object make_between(const struct plan *plan, const struct levels *levels)
{
    return make_segment(plan, levels, "what a program gives to another");
}

bool writes_between(const struct family *writer, histar_object between) { return !writes(writer->thread, between); }

bool reads_between(const struct family *reader, histar_object between) { return !reads(reader->thread, between); }

/* What the program knows from now on may get to all that it was given to write: the kernel is told. */
static void write_held(const struct plan *plan, struct family *family)
{
    note_label(plan, family);
    for (int i = 0; i < plan->report_count; i++)
        if (family->holds_report[i]) MUST(writes(family->thread, plan->reports[i].object));
}

bool opens_secret(struct plan *plan, struct family *family, int i)
{
    struct secret *secret = &plan->secrets[i];
    histar_label label = risen(plan, family, &secret->levels), clearance = clearance_of(plan, &family->clearance), verify = histar_level(HIGHEST);
    if (!may_rise(plan, family, &secret->levels, secret->path, &secret->is_refused)) return false;
    MUST(histar_gate_enter(&kernel, family->thread, entry_of(secret->object), &label, &clearance, &verify, NULL, NULL));
    write_held(plan, family);
    return true;
}

/* The program's label rises so that it observes a report. Whether it may. */
static bool rises_to(const struct plan *plan, struct family *family, struct report *report)
{
    histar_label label = risen(plan, family, &report->levels);
    if (!reads(family->thread, report->object)) return true;
    if (!may_rise(plan, family, &report->levels, report->path, &report->is_refused)) return false;
    MUST(histar_self_set_label(&kernel, family->thread, &label));
    note_label(plan, family);
    return true;
}

/* The write is asked for at the label that the program would have, before it rises: a refusal leaves it where it is. */
bool holds_report(struct plan *plan, struct family *family, int i)
{
    struct report *report = &plan->reports[i];
    histar_label label = risen(plan, family, &report->levels);
    struct levels own = own_levels(plan, family);
    if (is_cleared(plan, family, &report->levels) && would_write(plan, &label, report->object)) {
        explain_write(plan, report, &own);
        return false;
    }
    if (!rises_to(plan, family, report)) return false;
    MUST(writes(family->thread, report->object));
    family->holds_report[i] = true;
    return true;
}

bool observes_report(const struct plan *plan, const struct family *family, int i) { return !reads(family->thread, plan->reports[i].object); }

/* The program's thread makes another, as high as the file's label, which writes it. */
int takes_faults(const struct plan *plan, const struct family *family)
{
    for (int i = 0; i < plan->faults_count; i++) {
        histar_label label = risen(plan, family, &plan->faults[i].levels);
        histar_object thread;
        bool is_written;
        if (make_cleared(plan, &label, &family->clearance, &thread)) continue;
        is_written = !writes(thread, plan->faults[i].object);
        forget(thread);
        if (is_written) return i;
    }
    return -1;
}

/* What a gate answers is written at the label that the program has when it first opens it. */
static void make_answers(const struct plan *plan, struct family *family, int i)
{
    if (plan->gates[i].answers && !family->answers[i].id) family->answers[i] = make_segment(plan, &family->levels, "what a gate answers");
}

bool enters_gate(struct plan *plan, struct family *family, int i, const struct family *answered)
{
    struct gate *gate = &plan->gates[i];
    struct levels own = own_levels(plan, family), most = {{1, 1, 1, 1, 1, 1, 1, 1}};
    histar_label label = plain_label(plan, &own);
    if (answered == family) make_answers(plan, family, i);
    if (gets_through(plan, gate, &label, behind_gate(plan, i, answered))) {
        if (gate->answers && answered != family) family->lent[i] = answered->answers[i];
        return family->holds_gate[i] = true;
    }
    if (gate->answers) most = answered->levels;
    else if (gate->report != SHOWN) most = plan->reports[gate->report].levels;
    for (int j = 0; j < plan->category_count; j++)
        if (gate->owns[j]) most.in[j] = HIGHEST;
    explain_gate(plan, gate, &own, &most);
    return false;
}

bool passes_gate(const struct plan *plan, const struct levels *levels, int i, histar_object behind)
{
    histar_label label = plain_label(plan, levels);
    return gets_through(plan, &plan->gates[i], &label, behind);
}

/* A thread as high as any that gets to what the gate writes is asked for. */
bool shows_gate(const struct plan *plan, int i, const struct levels *levels)
{
    const struct gate *gate = &plan->gates[i];
    struct levels highest = plan->clearance;
    histar_label label;
    if (gate->answers) return passes_gate(plan, levels, i, terminal);
    if (gate->report == SHOWN) return true;
    for (int j = 0; j < plan->category_count; j++)
        if (plan->reports[gate->report].levels.in[j] < highest.in[j]) highest.in[j] = plan->reports[gate->report].levels.in[j];
    label = plain_label(plan, &highest);
    return !would_write(plan, &label, terminal);
}

bool write_dump(const struct plan *plan)
{
    size_t needed = 0, size = 0;
    char *text = NULL;
    uint32_t refusal;
    FILE *file;
    bool is_written;
    if (!plan->dump) return true;
    while ((refusal = histar_dump(&kernel, text, size, &needed)) == HISTAR_BOUNDS && size < needed) {
        free(text);
        size = needed;
        if (!(text = malloc(size))) break;
    }
    file = refusal || !text ? NULL : fopen(plan->dump, "w");
    is_written = file && fwrite(text, 1, needed, file) == needed;
    if (file && fclose(file)) is_written = false;
    free(text);
    return is_written;
}
