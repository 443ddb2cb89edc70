/* One thread keeps a secret from another: a category, a segment that it guards, a stranger thread, and what the
 * stranger's read is refused. */
#include "histar.h"
#include <stdio.h>

static int failed(const char *call, uint32_t refusal)
{
    fprintf(stderr, "%s: refused %u %s\n", call, refusal, histar_refusal_name(refusal));
    return 1;
}

int main(void)
{
    static histar k;
    uint32_t refusal;
    histar_category category, guests;
    histar_object secret, stranger;
    char bytes[64];
    histar_label plain = histar_level(1), clearance = histar_level(2), guarded, guest;

    if ((refusal = histar_open(&k, 64))) return failed("open", refusal);
    if ((refusal = histar_cat_create(&k, HISTAR_BOOT, &category))) return failed("cat_create", refusal);
    if ((refusal = histar_cat_create(&k, HISTAR_BOOT, &guests))) return failed("cat_create", refusal);
    guarded = histar_with(plain, category, 3);
    guest = histar_with(plain, guests, 2); /* it modifies nothing at 1, so it can't delete what the root lists */
    if ((refusal = histar_segment_create(&k, HISTAR_BOOT, HISTAR_ROOT, &guarded, 2, 1, &secret)))
        return failed("segment_create", refusal);
    if ((refusal = histar_segment_write(&k, HISTAR_BOOT, histar_in(HISTAR_ROOT, secret), 0, "key", 3)))
        return failed("segment_write", refusal);
    if ((refusal = histar_thread_create(&k, HISTAR_BOOT, HISTAR_ROOT, &guest, 1, &clearance, 0, &stranger)))
        return failed("thread_create", refusal);

    if ((refusal = histar_segment_read(&k, HISTAR_BOOT, histar_in(HISTAR_ROOT, secret), 0, bytes, 3)))
        return failed("segment_read", refusal);
    printf("the owner reads %.3s\n", bytes);
    refusal = histar_segment_read(&k, stranger, histar_in(HISTAR_ROOT, secret), 0, bytes, 3);
    printf("refused %u %s\n", refusal, histar_refusal_name(refusal));
    if (histar_unref(&k, stranger, histar_in(HISTAR_ROOT, secret)) != HISTAR_CANNOT_MODIFY) return failed("unref", HISTAR_DONE);
    histar_close(&k);
    return refusal != HISTAR_CANNOT_OBSERVE;
}
