/* Doors. Where a secret will stand, the world has a file system of the broker's with one folder and nothing in it: a door. A program that
 * looks into the folder, or opens it, waits there until the broker has answered. Where the program may have the secret, it is put in the
 * door's place, and the program is told to look again (ESTALE), which Linux does by itself; else it is told EACCES. So a call that
 * meets no door needs no answer.
 *
 * Who may open no /dev/fuse gets no doors. The filter then asks the broker of each call that names a file (filter/make.c). */
#define _GNU_SOURCE
#include "confine.h"
#include <errno.h>
#include <linux/fuse.h>
#include <string.h>
#include <sys/stat.h>
#include <sys/uio.h>
#include <unistd.h>

enum { MOST_WRITTEN = 4096, MOST_MESSAGE = 4 * MOST_WRITTEN, FOR_LONG = 1 << 30 };

static void answer(int door, uint64_t id, int error, const void *told, size_t size)
{
    struct fuse_out_header head = {(uint32_t)(sizeof head + size), -error, id};
    struct iovec parts[2] = {{&head, sizeof head}, {(void *)(uintptr_t)told, size}};
    /* (who asked may have gone) */
    if (writev(door, parts, 2) < 0) {}
}

static void answer_begin(int door, uint64_t id)
{
    struct fuse_init_out told;
    memset(&told, 0, sizeof told);
    told.major = FUSE_KERNEL_VERSION;
    told.minor = FUSE_KERNEL_MINOR_VERSION;
    told.max_write = MOST_WRITTEN;
    answer(door, id, 0, &told, sizeof told);
}

/* The folder looks as an empty one does. */
static void answer_look(int door, uint64_t id)
{
    struct fuse_attr_out told;
    memset(&told, 0, sizeof told);
    told.attr_valid = FOR_LONG;
    told.attr.ino = told.attr.nlink = 1;
    told.attr.mode = S_IFDIR | 0755;
    told.attr.uid = getuid();
    told.attr.gid = getgid();
    answer(door, id, 0, &told, sizeof told);
}

/* Reads what is asked, and answers it. Whether more may be asked. */
static bool answer_door(struct plan *plan, struct family *family, int secret)
{
    static union { struct fuse_in_header head; char room[MOST_MESSAGE]; } asked;
    struct fuse_statfs_out space;
    int door = family->world.doors[secret], error;
    if (read(door, &asked, sizeof asked) < (ssize_t)sizeof asked.head) return errno == EINTR || errno == EAGAIN || errno == ENOENT;
    switch (asked.head.opcode) {
    case FUSE_INIT: answer_begin(door, asked.head.unique); break;
    case FUSE_GETATTR: answer_look(door, asked.head.unique); break;
    case FUSE_STATFS:
        memset(&space, 0, sizeof space);
        answer(door, asked.head.unique, 0, &space, sizeof space);
        break;
    case FUSE_LOOKUP:
    case FUSE_OPENDIR:
        error = open_secret(plan, family, secret);
        if (!bring_reports(plan, family)) break;
        answer(door, asked.head.unique, error ? error : ESTALE, NULL, 0);
        end_bringing();
        break;
    case FUSE_FORGET:
    case FUSE_BATCH_FORGET:
    case FUSE_INTERRUPT: break;
    default: answer(door, asked.head.unique, ENOSYS, NULL, 0);
    }
    return true;
}

void await_doors(const struct plan *plan, struct world *world)
{
    for (int i = 0; i < plan->secret_count; i++) world->door_places[i] = await(world->doors[i], POLLIN);
}

void answer_doors(struct plan *plan, struct family *family)
{
    struct world *world = &family->world;
    for (int i = 0; i < plan->secret_count; i++)
        if (world->doors[i] >= 0 && came(world->door_places[i]) && !answer_door(plan, family, i)) close(world->doors[i]), world->doors[i] = -1;
}
