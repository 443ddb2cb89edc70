/* A login gate: its entry function compares a password, and only then the thread that entered gets to a user's data. The kernel
 * hands out the gate's entry point and closure; the program keeps the table of its functions. */
#include "histar.h"
#include <stdio.h>
#include <stdlib.h>

static histar k;
static histar_category category;
static histar_object data;

static void must(uint32_t refusal)
{
    if (!refusal) return;
    fprintf(stderr, "login: refused %u %s\n", refusal, histar_refusal_name(refusal));
    exit(1);
}

static histar_entry in_root(histar_object object) { return histar_in(HISTAR_ROOT, object); }

/* What runs when a thread has entered a gate: it is handed the gate's closure. */
typedef void entry_function(histar_object thread, uint64_t closure, const char *password);

/* The thread owns the category here. It leaves with 3 in it, which reads the data and can't send them on, or as it came. */
static void login(histar_object thread, uint64_t closure, const char *password)
{
    char stored[16];
    histar_label plain = histar_level(1), high = histar_with(plain, category, 3), clearance = histar_level(2);
    must(histar_segment_read(&k, thread, in_root(histar_object_of(closure)), 0, stored, sizeof stored));
    if (!strncmp(stored, password, sizeof stored)) {
        must(histar_self_set_label(&k, thread, &high));
    } else {
        must(histar_self_set_label(&k, thread, &plain));
        must(histar_self_set_clearance(&k, thread, &clearance));
    }
}

/* The functions by their entry points, from 1. */
static entry_function *const ENTRIES[] = {NULL, login};

/* Enters a gate of this program, and runs its entry function. */
static void enters(histar_object thread, histar_object gate, const char *password)
{
    uint64_t entry_point, closure;
    histar_label owner = histar_with(histar_level(1), category, HISTAR_STAR);
    histar_label clearance = histar_with(histar_level(2), category, 3), verify = histar_level(3);
    must(histar_gate_enter(&k, thread, in_root(gate), &owner, &clearance, &verify, &entry_point, &closure));
    ENTRIES[entry_point](thread, closure, password);
}

static histar_object new_segment(const histar_label *label, const char *text)
{
    histar_object made;
    must(histar_segment_create(&k, HISTAR_BOOT, HISTAR_ROOT, label, 2, 1, &made));
    must(histar_segment_write(&k, HISTAR_BOOT, in_root(made), 0, text, strlen(text) + 1));
    return made;
}

/* The gate to the data. */
static histar_object new_gate(void)
{
    histar_object made, password;
    histar_label guarded, owner, clearance;
    must(histar_cat_create(&k, HISTAR_BOOT, &category));
    guarded = histar_with(histar_level(1), category, 3);
    owner = histar_with(histar_level(1), category, HISTAR_STAR);
    clearance = histar_with(histar_level(2), category, 3);
    data = new_segment(&guarded, "mail of ann");
    password = new_segment(&guarded, "swordfish");
    must(histar_gate_create(&k, HISTAR_BOOT, HISTAR_ROOT, &owner, 1, &clearance, HISTAR_NOWHERE, 1, password.id, &made));
    return made;
}

static void tries(histar_object gate, const char *password)
{
    histar_object client;
    char bytes[64];
    histar_label plain = histar_level(1), clearance = histar_level(2);
    uint32_t refusal;
    must(histar_thread_create(&k, HISTAR_BOOT, HISTAR_ROOT, &plain, 1, &clearance, 0, &client));
    enters(client, gate, password);
    refusal = histar_segment_read(&k, client, in_root(data), 0, bytes, 12);
    if (refusal) printf("%s: refused %u %s\n", password, refusal, histar_refusal_name(refusal));
    else printf("%s: reads %s\n", password, bytes);
    refusal = histar_dev_send(&k, client, in_root(HISTAR_DEVICE), "mail", 4);
    printf("%s: sends %s\n", password, refusal ? histar_refusal_name(refusal) : "a packet");
}

int main(void)
{
    histar_object gate;
    must(histar_open(&k, 64));
    gate = new_gate();
    tries(gate, "sword");
    tries(gate, "swordfish");
    return (int)histar_close(&k);
}
