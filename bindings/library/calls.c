/* The header's functions as ones that are called, for languages that compile no C; and what these need beside: a kernel in memory of the
 * library's, the sizes of records and the numbers of calls, and a text that is gathered. */
#define HISTAR_INLINE
#define histar_close histar_close_into_caller
#include "histar.h"
#include "histar_debug.h"
#undef histar_close
#include <stdlib.h>

/* (who calls it stands where its frame begins) */
uint32_t histar_close(histar *k);
__attribute__((noinline)) uint32_t histar_close(histar *k) { return histar_closes(k, (uintptr_t)__builtin_dwarf_cfa()); }

histar *histar_new(void)
{
    histar *k = aligned_alloc(_Alignof(histar), sizeof *k);
    return k ? memset(k, 0, sizeof *k) : NULL;
}

uint32_t histar_free(histar *k)
{
    uint32_t refusal = k ? histar_close(k) : (uint32_t)HISTAR_DONE;
    if (!refusal) free(k);
    return refusal;
}

static const struct {
    const char *name;
    size_t size;
} RECORDS[] = {
    {"histar", sizeof(histar)},
    {"histar_object", sizeof(histar_object)},
    {"histar_category", sizeof(histar_category)},
    {"histar_entry", sizeof(histar_entry)},
    {"histar_label", sizeof(histar_label)},
    {"histar_request", sizeof(histar_request)},
    {"histar_answer", sizeof(histar_answer)},
    {"histar_note", sizeof(histar_note)},
    {"histar_self", sizeof(histar_self)},
    {"histar_quota", sizeof(histar_quota)},
    {"histar_list", sizeof(histar_list)},
    {"histar_mapping", sizeof(histar_mapping)},
    {"histar_gathered", sizeof(histar_gathered)},
};

size_t histar_size_of(const char *record)
{
    for (size_t at = 0; at < sizeof RECORDS / sizeof *RECORDS; at++)
        if (!strcmp(record, RECORDS[at].name)) return RECORDS[at].size;
    return 0;
}

static const struct {
    const char *name;
    uint32_t number;
} CALLS[] = {
    /* Made from bindings/calls.toml: */
    {"cat_create", HISTAR_CALL_CAT_CREATE},
    {"self_set_label", HISTAR_CALL_SELF_SET_LABEL},
    {"self_set_clearance", HISTAR_CALL_SELF_SET_CLEARANCE},
    {"self_set_as", HISTAR_CALL_SELF_SET_AS},
    {"container_create", HISTAR_CALL_CONTAINER_CREATE},
    {"segment_create", HISTAR_CALL_SEGMENT_CREATE},
    {"segment_copy", HISTAR_CALL_SEGMENT_COPY},
    {"as_create", HISTAR_CALL_AS_CREATE},
    {"thread_create", HISTAR_CALL_THREAD_CREATE},
    {"gate_create", HISTAR_CALL_GATE_CREATE},
    {"link", HISTAR_CALL_LINK},
    {"unref", HISTAR_CALL_UNREF},
    {"quota_move", HISTAR_CALL_QUOTA_MOVE},
    {"set_fixed", HISTAR_CALL_SET_FIXED},
    {"set_immutable", HISTAR_CALL_SET_IMMUTABLE},
    {"meta_set", HISTAR_CALL_META_SET},
    {"segment_resize", HISTAR_CALL_SEGMENT_RESIZE},
    {"segment_write", HISTAR_CALL_SEGMENT_WRITE},
    {"as_map", HISTAR_CALL_AS_MAP},
    {"as_unmap", HISTAR_CALL_AS_UNMAP},
    {"store", HISTAR_CALL_STORE},
    {"gate_enter", HISTAR_CALL_GATE_ENTER},
    {"dev_send", HISTAR_CALL_DEV_SEND},
    {"dev_recv", HISTAR_CALL_DEV_RECV},
    {"self_get", HISTAR_CALL_SELF_GET},
    {"obj_label", HISTAR_CALL_OBJ_LABEL},
    {"obj_quota", HISTAR_CALL_OBJ_QUOTA},
    {"container_list", HISTAR_CALL_CONTAINER_LIST},
    {"container_parent", HISTAR_CALL_CONTAINER_PARENT},
    {"segment_len", HISTAR_CALL_SEGMENT_LEN},
    {"segment_read", HISTAR_CALL_SEGMENT_READ},
    {"meta_get", HISTAR_CALL_META_GET},
    {"as_get", HISTAR_CALL_AS_GET},
    {"load", HISTAR_CALL_LOAD},
    /* (the end of what is made) */
};

uint32_t histar_call_number(const char *call)
{
    for (size_t at = 0; at < sizeof CALLS / sizeof *CALLS; at++)
        if (!strcmp(call, CALLS[at].name)) return CALLS[at].number;
    return 0;
}

/* Grows to twice the room, and leaves nothing where the text stood. */
static int grows(histar_gathered *text, size_t len)
{
    histar_gathered larger = {NULL, text->len, text->room ? text->room : 4096};
    while (larger.room - text->len < len) {
        if (larger.room > PTRDIFF_MAX / 2) return 0;
        larger.room *= 2;
    }
    larger.bytes = malloc(larger.room);
    if (!larger.bytes) return 0;
    if (text->len) memcpy(larger.bytes, text->bytes, text->len);
    histar_forgets(text);
    *text = larger;
    return 1;
}

uint32_t histar_gathers(void *gathered, const void *part, size_t len)
{
    histar_gathered *text = gathered;
    if (text->room - text->len < len && !grows(text, len)) return HISTAR_TEXT_MEMORY;
    memcpy(text->bytes + text->len, part, len);
    text->len += len;
    return HISTAR_DONE;
}

void histar_forgets(histar_gathered *text)
{
    if (text->bytes) histar_wipes(text->bytes, text->room);
    free(text->bytes);
    memset(text, 0, sizeof *text);
}
