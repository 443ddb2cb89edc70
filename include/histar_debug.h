/* Look-ups in what a kernel keeps beside its objects, so that calls are fast: live ids, uses, translations, labels with their
 * order. No thread makes them, so no label guards them: they are for tests and audits, and not for what serves others.
 *
 * Each returns 0, or a refusal as the functions of histar.h, and says in *is_there whether there is one. What it gives is written
 * only where there is. */
#ifndef HISTAR_DEBUG_H
#define HISTAR_DEBUG_H

#include "histar.h"

#ifdef __cplusplus
extern "C" {
#endif

/* How the functions below ask, and whether there is one: what is found is read before histar_told. */
static inline uint32_t histar_looks(histar *k, uint32_t call, histar_object object, int *is_there)
{
    *is_there = 0;
    return histar_asks(k, call, HISTAR_NOTHING, histar_in(HISTAR_NOTHING, object));
}
static inline uint32_t histar_finds(histar *k, int *is_there)
{
    uint32_t refusal = histar_serves(k);
    *is_there = !refusal && k->answer.len == 1;
    return refusal;
}

/* The live object at a place, from 0, among all in the order of their ids. */
HISTAR_LOOKED_AT(1, 3, 4)
HISTAR_INLINE uint32_t histar_kept_live(histar *k, uint64_t place, int *is_there, histar_object *object)
{
    uint32_t refusal = histar_looks(k, HISTAR_CALL_KEPT_LIVE, HISTAR_NOTHING, is_there);
    if (refusal) return refusal;
    k->request.numbers[0] = place;
    refusal = histar_finds(k, is_there);
    if (*is_there) *object = histar_object_of(k->answer.numbers[0]);
    return histar_told(k, refusal);
}

/* What an object uses, in pages of 256 bytes. There is one for each live id. */
HISTAR_LOOKED_AT(1, 3, 4)
HISTAR_INLINE uint32_t histar_kept_use(histar *k, histar_object object, int *is_there, uint32_t *pages)
{
    uint32_t refusal = histar_looks(k, HISTAR_CALL_KEPT_USE, object, is_there);
    if (refusal) return refusal;
    refusal = histar_finds(k, is_there);
    if (*is_there) *pages = (uint32_t)k->answer.numbers[0];
    return histar_told(k, refusal);
}

/* What a slot, 0 to 15, of a live thread's address space shows: a segment, and HISTAR_READ and HISTAR_WRITE. */
HISTAR_LOOKED_AT(1, 4, 5, 6)
HISTAR_INLINE uint32_t histar_kept_translation(histar *k, histar_object thread, uint64_t slot, int *is_there,
                                               histar_object *segment, uint32_t *rights)
{
    const uint64_t *n = k->answer.numbers;
    uint32_t refusal = histar_looks(k, HISTAR_CALL_KEPT_TRANSLATION, thread, is_there);
    if (refusal) return refusal;
    k->request.numbers[0] = slot;
    refusal = histar_finds(k, is_there);
    if (*is_there) *segment = histar_object_of(n[0]);
    if (*is_there) *rights = (uint32_t)(n[1] * HISTAR_READ + n[2] * HISTAR_WRITE);
    return histar_told(k, refusal);
}

/* The label of an index, from 0 to 65,535. Each stored label has one index. */
HISTAR_LOOKED_AT(1, 3, 4)
HISTAR_INLINE uint32_t histar_kept_label(histar *k, uint64_t index, int *is_there, histar_label *label)
{
    uint32_t refusal = histar_looks(k, HISTAR_CALL_KEPT_LABEL, HISTAR_NOTHING, is_there);
    if (refusal) return refusal;
    k->request.numbers[0] = index;
    refusal = histar_finds(k, is_there);
    if (*is_there) *label = k->answer.label;
    return histar_told(k, refusal);
}

/* How the label A of an index compares with the label B of another: the sum of 1 where A is at most B, 2 where it is once
 * B's star is raised, and 4 where it is once the star of both is raised. There is one where both indexes have a label. */
HISTAR_LOOKED_AT(1, 4, 5)
HISTAR_INLINE uint32_t histar_kept_order(histar *k, uint64_t first, uint64_t second, int *is_there, uint32_t *bits)
{
    uint32_t refusal = histar_looks(k, HISTAR_CALL_KEPT_ORDER, HISTAR_NOTHING, is_there);
    if (refusal) return refusal;
    k->request.numbers[0] = first;
    k->request.numbers[1] = second;
    refusal = histar_finds(k, is_there);
    if (*is_there) *bits = (uint32_t)k->answer.numbers[0];
    return histar_told(k, refusal);
}

#ifdef __cplusplus
}
#endif
#endif
