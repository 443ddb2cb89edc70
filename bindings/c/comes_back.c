/* A service whose state outlives the process: it opens its kernel at the text of a file, counts one start more in a segment, and writes
 * the checkpoint. The first start has no file and makes the segment.
 *
 * comes_back STATE [DUMP CLIENTS]   STATE is the file; the dump of the start's calls is written to DUMP; so many clients come at the first start */
#include "histar.h"
#include <stdio.h>
#include <stdlib.h>
#include <unistd.h>

enum { PAGES = 1024 };
static histar k;

static void must(uint32_t refusal)
{
    if (!refusal) return;
    fprintf(stderr, "comes_back: refused %u %s\n", refusal, histar_refusal_name(refusal));
    exit(1);
}

static void fails(const char *what)
{
    perror(what);
    exit(1);
}

/* All that a file has. */
static char *reads(FILE *file, size_t *len)
{
    size_t room = 4096, some;
    char *text = malloc(room);
    for (*len = 0; text && (some = fread(text + *len, 1, room - *len, file)); *len += some) {
        if (*len + some < room) continue;
        room *= 2;
        text = realloc(text, room);
    }
    if (!text || ferror(file)) fails("the checkpoint");
    return text;
}

/* Opens the kernel at what the file has, or a new one where there is none. Tells whether it came back. */
static int opens(const char *path)
{
    size_t len;
    char *text;
    FILE *file = fopen(path, "rb");
    if (!file) {
        must(histar_open(&k, PAGES));
        return 0;
    }
    text = reads(file, &len);
    if (fclose(file)) fails(path);
    must(histar_open_at(&k, text, len));
    histar_wipes(text, len);
    free(text);
    return 1;
}

/* A client of the service: a category, and a thread that owns it. */
static void takes_a_client(void)
{
    histar_category category;
    histar_label label = histar_level(1), clearance = histar_level(2), owner;
    must(histar_cat_create(&k, HISTAR_BOOT, &category));
    owner = histar_with(label, category, HISTAR_STAR);
    clearance = histar_with(clearance, category, 3);
    must(histar_thread_create(&k, HISTAR_BOOT, HISTAR_ROOT, &owner, 1, &clearance, 0, NULL));
    must(histar_self_set_label(&k, HISTAR_BOOT, &label));
    clearance = histar_level(2);
    must(histar_self_set_clearance(&k, HISTAR_BOOT, &clearance));
}

/* Adds a part of a text to a file. */
static uint32_t adds(void *file, const void *part, size_t len) { return fwrite(part, 1, len, file) != len; }

/* Writes a text of the kernel to a file, in place of the old one once it is whole. */
static void saves(uint32_t (*writes)(histar *, histar_put, void *), const char *path)
{
    char made[4096];
    FILE *file;
    if (snprintf(made, sizeof made, "%s.new", path) >= (int)sizeof made) fails(path);
    file = fopen(made, "wb");
    if (!file || writes(&k, adds, file) || fflush(file) || fsync(fileno(file)) || fclose(file) || rename(made, path)) fails(made);
}

int main(int count, char **given)
{
    histar_label plain = histar_level(1);
    histar_object made = histar_object_of(4);
    unsigned char starts = 0;
    int is_back;
    if (count < 2) return 2;
    is_back = opens(given[1]);
    must(histar_log_on(&k, UINT64_MAX, HISTAR_LOG_WRITES));
    if (!is_back) must(histar_segment_create(&k, HISTAR_BOOT, HISTAR_ROOT, &plain, 2, 1, &made));
    must(histar_segment_read(&k, HISTAR_BOOT, histar_in(HISTAR_ROOT, made), 0, &starts, 1));
    for (int left = !is_back && count > 3 ? atoi(given[3]) : 0; left > 0; left--) takes_a_client();
    starts++;
    must(histar_segment_write(&k, HISTAR_BOOT, histar_in(HISTAR_ROOT, made), 0, &starts, 1));
    if (count > 2) saves(histar_dump_to, given[2]);
    saves(histar_checkpoint_to, given[1]);
    printf("start %d\n", starts);
    must(histar_close(&k));
    return 0;
}
