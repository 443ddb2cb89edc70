/* The calls, each by its function of histar.h. Made from bindings/calls.toml by bindings/make.py. */
#include "play.h"

static void says(const char *text) { snprintf(now->word, sizeof now->word, "%s", text); }

static void says_object(const char *text, histar_object object)
{
    says(text);
    now->objects[now->object_count++] = object;
}

static void says_number(uint64_t it) { now->numbers[now->number_count++] = it; }
static void says_label(histar_label it) { now->labels[now->label_count++] = it; }

/* Each call reads its arguments in order, and gives up before it asks where a name is not known. */
#define KNOWN() \
    if (now->unbound[0]) return

static void plays_cat_create(histar_object thread)
{
    now->refusal = histar_cat_create(&k, thread, &now->category);
    says("cat");
    now->has_category = 1;
}

static void plays_self_set_label(histar_object thread)
{
    histar_label its_label = label();
    KNOWN();
    now->refusal = histar_self_set_label(&k, thread, &its_label);
    says("ok");
}

static void plays_self_set_clearance(histar_object thread)
{
    histar_label its_clearance = label();
    KNOWN();
    now->refusal = histar_self_set_clearance(&k, thread, &its_clearance);
    says("ok");
}

static void plays_self_set_as(histar_object thread)
{
    histar_entry its_space = entry();
    KNOWN();
    now->refusal = histar_self_set_as(&k, thread, its_space);
    says("ok");
}

static void plays_container_create(histar_object thread)
{
    histar_object its_container = object();
    histar_label its_label = label();
    uint64_t its_quota = number();
    uint64_t its_avoid = set("csatgd");
    histar_object made = HISTAR_NOTHING;
    KNOWN();
    now->refusal = histar_container_create(&k, thread, its_container, &its_label, its_quota, its_avoid, &made);
    says_object("id", made);
}

static void plays_segment_create(histar_object thread)
{
    histar_object its_container = object();
    histar_label its_label = label();
    uint64_t its_quota = number();
    uint64_t its_pages = number();
    histar_object made = HISTAR_NOTHING;
    KNOWN();
    now->refusal = histar_segment_create(&k, thread, its_container, &its_label, its_quota, its_pages, &made);
    says_object("id", made);
}

static void plays_segment_copy(histar_object thread)
{
    histar_object its_container = object();
    histar_label its_label = label();
    uint64_t its_quota = number();
    histar_entry its_source = entry();
    histar_object made = HISTAR_NOTHING;
    KNOWN();
    now->refusal = histar_segment_copy(&k, thread, its_container, &its_label, its_quota, its_source, &made);
    says_object("id", made);
}

static void plays_as_create(histar_object thread)
{
    histar_object its_container = object();
    histar_label its_label = label();
    uint64_t its_quota = number();
    histar_object made = HISTAR_NOTHING;
    KNOWN();
    now->refusal = histar_as_create(&k, thread, its_container, &its_label, its_quota, &made);
    says_object("id", made);
}

static void plays_thread_create(histar_object thread)
{
    histar_object its_container = object();
    histar_label its_label = label();
    uint64_t its_quota = number();
    histar_label its_clearance = label();
    uint64_t its_entry_point = number();
    histar_object made = HISTAR_NOTHING;
    KNOWN();
    now->refusal = histar_thread_create(&k, thread, its_container, &its_label, its_quota, &its_clearance, its_entry_point, &made);
    says_object("id", made);
}

static void plays_gate_create(histar_object thread)
{
    histar_object its_container = object();
    histar_label its_label = label();
    uint64_t its_quota = number();
    histar_label its_clearance = label();
    histar_entry its_space = entry();
    uint64_t its_entry_point = number();
    uint64_t its_closure = number();
    histar_object made = HISTAR_NOTHING;
    KNOWN();
    now->refusal = histar_gate_create(&k, thread, its_container, &its_label, its_quota, &its_clearance, its_space, its_entry_point, its_closure, &made);
    says_object("id", made);
}

static void plays_link(histar_object thread)
{
    histar_object its_target = object();
    histar_entry its_entry = entry();
    KNOWN();
    now->refusal = histar_link(&k, thread, its_target, its_entry);
    says("ok");
}

static void plays_unref(histar_object thread)
{
    histar_entry its_entry = entry();
    KNOWN();
    now->refusal = histar_unref(&k, thread, its_entry);
    says("ok");
}

static void plays_quota_move(histar_object thread)
{
    histar_entry its_entry = entry();
    int64_t its_change = strtoll(word(), NULL, 10);
    KNOWN();
    now->refusal = histar_quota_move(&k, thread, its_entry, its_change);
    says("ok");
}

static void plays_set_fixed(histar_object thread)
{
    histar_entry its_entry = entry();
    KNOWN();
    now->refusal = histar_set_fixed(&k, thread, its_entry);
    says("ok");
}

static void plays_set_immutable(histar_object thread)
{
    histar_entry its_entry = entry();
    KNOWN();
    now->refusal = histar_set_immutable(&k, thread, its_entry);
    says("ok");
}

static void plays_meta_set(histar_object thread)
{
    histar_entry its_entry = entry();
    uint8_t given[64];
    size_t len = bytes(given);
    KNOWN();
    now->refusal = histar_meta_set(&k, thread, its_entry, given, len);
    says("ok");
}

static void plays_segment_resize(histar_object thread)
{
    histar_entry its_entry = entry();
    uint64_t its_pages = number();
    KNOWN();
    now->refusal = histar_segment_resize(&k, thread, its_entry, its_pages);
    says("ok");
}

static void plays_segment_write(histar_object thread)
{
    histar_entry its_entry = entry();
    uint64_t its_offset = number();
    uint8_t given[64];
    size_t len = bytes(given);
    KNOWN();
    now->refusal = histar_segment_write(&k, thread, its_entry, its_offset, given, len);
    says("ok");
}

static void plays_as_map(histar_object thread)
{
    histar_entry its_space = entry();
    uint64_t its_slot = number();
    uint64_t its_page = number();
    histar_entry its_segment = entry();
    uint64_t its_first = number();
    uint64_t its_count = number();
    uint64_t its_rights = set("rw");
    KNOWN();
    now->refusal = histar_as_map(&k, thread, its_space, its_slot, its_page, its_segment, its_first, its_count, its_rights);
    says("ok");
}

static void plays_as_unmap(histar_object thread)
{
    histar_entry its_space = entry();
    uint64_t its_slot = number();
    KNOWN();
    now->refusal = histar_as_unmap(&k, thread, its_space, its_slot);
    says("ok");
}

static void plays_store(histar_object thread)
{
    uint64_t its_address = number();
    uint8_t given[64];
    size_t len = bytes(given);
    KNOWN();
    now->refusal = histar_store(&k, thread, its_address, given, len);
    says("ok");
}

static void plays_gate_enter(histar_object thread)
{
    histar_entry its_gate = entry();
    histar_label its_label = label();
    histar_label its_clearance = label();
    histar_label its_verify = label();
    uint64_t entry_point = 0, closure = 0;
    KNOWN();
    now->refusal = histar_gate_enter(&k, thread, its_gate, &its_label, &its_clearance, &its_verify, &entry_point, &closure);
    says("entered");
    says_number(entry_point);
    says_number(closure);
}

static void plays_dev_send(histar_object thread)
{
    histar_entry its_device = entry();
    uint8_t given[64];
    size_t len = bytes(given);
    KNOWN();
    now->refusal = histar_dev_send(&k, thread, its_device, given, len);
    says("ok");
}

static void plays_dev_recv(histar_object thread)
{
    histar_entry its_device = entry();
    KNOWN();
    now->refusal = histar_dev_recv(&k, thread, its_device, now->bytes, sizeof now->bytes, &now->len);
    says("data");
}

static void plays_self_get(histar_object thread)
{
    histar_self self;
    memset(&self, 0, sizeof self);
    now->refusal = histar_self_get(&k, thread, &self);
    if (now->refusal) return;
    says_label(self.label);
    says_label(self.clearance);
    says_label(self.verify);
    says_object("self", self.space.container);
    says_object("self", self.space.object);
    says_number(self.entry_point);
    says_number(self.closure);
}

static void plays_obj_label(histar_object thread)
{
    histar_entry its_entry = entry();
    histar_label told = histar_level(0);
    KNOWN();
    now->refusal = histar_obj_label(&k, thread, its_entry, &told);
    says("label");
    says_label(told);
}

static void plays_obj_quota(histar_object thread)
{
    histar_entry its_entry = entry();
    histar_quota quota = {0, 0, 0, 0};
    KNOWN();
    now->refusal = histar_obj_quota(&k, thread, its_entry, &quota);
    says("quota");
    says_number(quota.quota);
    says_number(quota.used);
    says_number(quota.fixed);
    says_number(quota.immutable);
}

static void plays_container_list(histar_object thread)
{
    histar_object its_container = object();
    uint64_t its_from = number();
    histar_list list;
    KNOWN();
    now->refusal = histar_container_list(&k, thread, its_container, its_from, &list);
    if (now->refusal) return;
    says("list");
    says_number(list.length);
    now->object_count = list.count;
    memcpy(now->objects, list.objects, sizeof list.objects);
}

static void plays_container_parent(histar_object thread)
{
    histar_object its_container = object();
    histar_object parent = HISTAR_NOTHING;
    KNOWN();
    now->refusal = histar_container_parent(&k, thread, its_container, &parent);
    says_object("parent", parent);
}

static void plays_segment_len(histar_object thread)
{
    histar_entry its_entry = entry();
    uint64_t pages = 0;
    KNOWN();
    now->refusal = histar_segment_len(&k, thread, its_entry, &pages);
    says("pages");
    says_number(pages);
}

static void plays_segment_read(histar_object thread)
{
    histar_entry its_entry = entry();
    uint64_t its_offset = number();
    uint64_t its_count = number();
    KNOWN();
    now->refusal = histar_segment_read(&k, thread, its_entry, its_offset, now->bytes, its_count);
    now->len = its_count;
    says("data");
}

static void plays_meta_get(histar_object thread)
{
    histar_entry its_entry = entry();
    KNOWN();
    now->refusal = histar_meta_get(&k, thread, its_entry, now->bytes, sizeof now->bytes);
    now->len = 64;
    says("data");
}

static void plays_as_get(histar_object thread)
{
    histar_entry its_space = entry();
    uint64_t its_slot = number();
    KNOWN();
    now->refusal = histar_as_get(&k, thread, its_space, its_slot, &now->mapping);
    says("mapping");
    now->has_mapping = 1;
}

static void plays_load(histar_object thread)
{
    uint64_t its_address = number();
    uint64_t its_count = number();
    KNOWN();
    now->refusal = histar_load(&k, thread, its_address, now->bytes, its_count);
    now->len = its_count;
    says("data");
}

static const struct {
    const char *call;
    void (*plays)(histar_object);
} players[] = {
    {"cat_create", plays_cat_create},
    {"self_set_label", plays_self_set_label},
    {"self_set_clearance", plays_self_set_clearance},
    {"self_set_as", plays_self_set_as},
    {"container_create", plays_container_create},
    {"segment_create", plays_segment_create},
    {"segment_copy", plays_segment_copy},
    {"as_create", plays_as_create},
    {"thread_create", plays_thread_create},
    {"gate_create", plays_gate_create},
    {"link", plays_link},
    {"unref", plays_unref},
    {"quota_move", plays_quota_move},
    {"set_fixed", plays_set_fixed},
    {"set_immutable", plays_set_immutable},
    {"meta_set", plays_meta_set},
    {"segment_resize", plays_segment_resize},
    {"segment_write", plays_segment_write},
    {"as_map", plays_as_map},
    {"as_unmap", plays_as_unmap},
    {"store", plays_store},
    {"gate_enter", plays_gate_enter},
    {"dev_send", plays_dev_send},
    {"dev_recv", plays_dev_recv},
    {"self_get", plays_self_get},
    {"obj_label", plays_obj_label},
    {"obj_quota", plays_obj_quota},
    {"container_list", plays_container_list},
    {"container_parent", plays_container_parent},
    {"segment_len", plays_segment_len},
    {"segment_read", plays_segment_read},
    {"meta_get", plays_meta_get},
    {"as_get", plays_as_get},
    {"load", plays_load},
};

void plays(histar_object thread)
{
    const char *call = strtok_r(now->call, " ", &rest);
    for (size_t at = 0; at < sizeof players / sizeof *players; at++)
        if (!strcmp(call, players[at].call)) players[at].plays(thread);
}
