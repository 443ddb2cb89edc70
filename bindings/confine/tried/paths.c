/* paths ROUNDS SEED: names files by drawn paths, whole, cut off by the end of a page, and at no address at all. */
#define _GNU_SOURCE
#include <errno.h>
#include <fcntl.h>
#include <stdint.h>
#include <stdio.h>
#include <stdlib.h>
#include <string.h>
#include <sys/mman.h>
#include <sys/stat.h>
#include <sys/syscall.h>
#include <unistd.h>

static const int CALLS[] = {SYS_open, SYS_openat, SYS_creat, SYS_stat, SYS_newfstatat, SYS_statx, SYS_access, SYS_readlink,
                            SYS_readlinkat, SYS_chdir, SYS_faccessat, SYS_lstat};
static uint64_t drawn;

static uint64_t draw(uint64_t below)
{
    drawn = drawn * 6364136223846793005u + 1442695040888963407u;
    return (drawn >> 33) % below;
}

/* Bytes that make long and odd paths, and names too long for any, before a page that is not there. */
static char *drawn_path(char *page)
{
    static const char BYTES[] = "abc\n\t\xff....////";
    size_t length = draw(8) ? draw(64) : draw(2) ? draw(4097) : 4096 - draw(64), kinds = draw(4) ? sizeof BYTES - 1 : 6;
    char *begin = page + 4096 - length;
    for (size_t i = 0; i < length; i++) begin[i] = BYTES[draw(kinds)];
    if (length && draw(4)) begin[length - 1] = 0;
    return begin;
}

/* A folder whose name is long, so that a long path in it is longer than any. */
static void go_deep(void)
{
    char name[208] = "/tmp/";
    memset(name + 5, 'd', 200);
    if ((mkdir(name, 0700) && errno != EEXIST) || chdir(name)) exit(2);
}

int main(int count, char **words)
{
    char *page = mmap(NULL, 8192, PROT_READ | PROT_WRITE, MAP_PRIVATE | MAP_ANONYMOUS, -1, 0);
    if (count != 3 || page == MAP_FAILED || munmap(page + 4096, 4096)) return 2;
    drawn = strtoull(words[2], NULL, 10);
    for (long i = atol(words[1]); i > 0; i--) {
        if (i % 16 == 0) go_deep();
        long call = CALLS[draw(sizeof CALLS / sizeof *CALLS)];
        uint64_t at = draw(16) ? (uint64_t)(uintptr_t)drawn_path(page) : draw(UINT64_MAX);
        int folded = call == SYS_openat || call == SYS_newfstatat || call == SYS_statx || call == SYS_readlinkat || call == SYS_faccessat;
        int folder = draw(2) ? AT_FDCWD : (int)draw(5) - 1;
        long file = folded ? syscall(call, folder, at, draw(4), 0, 0) : syscall(call, at, draw(4), 0, 0);
        if (file > 2 && (call == SYS_open || call == SYS_openat || call == SYS_creat)) close((int)file);
    }
    return write(1, "done\n", 5) != 5;
}
