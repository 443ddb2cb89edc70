/* The walls of the program's world: Landlock round its files, bounds, and no privileges. */
#define _GNU_SOURCE
#include "confine.h"
#include <errno.h>
#include <fcntl.h>
#include <linux/capability.h>
#include <linux/landlock.h>
#include <string.h>
#include <sys/prctl.h>
#include <sys/resource.h>
#include <sys/stat.h>
#include <sys/syscall.h>
#include <sys/utsname.h>
#include <unistd.h>

/* How much the program may use: bytes of one file, bytes of memory of one process, and processes. Linux never gives the first
 * 300 process numbers twice. */
enum { MOST_PROCESSES = 512, FIRST_NUMBERS = 300 };
static const rlim_t MOST_FILE = (rlim_t)1 << 30;
#ifdef __SANITIZE_ADDRESS__ /* (a build with checks maps more at its start) */
static const rlim_t MOST_MEMORY = RLIM_INFINITY;
#else
static const rlim_t MOST_MEMORY = (rlim_t)8 << 30;
#endif

enum {
    READS = LANDLOCK_ACCESS_FS_EXECUTE | LANDLOCK_ACCESS_FS_READ_FILE | LANDLOCK_ACCESS_FS_READ_DIR,
    OF_FILES = LANDLOCK_ACCESS_FS_READ_FILE | LANDLOCK_ACCESS_FS_WRITE_FILE | 1 << 14, /* (newer headers name the right to truncate) */
    ALL = (1 << 15) - 1
};

/* Allows this of what lies below a descriptor, which is closed. */
static void add_rule(int rules, int file, uint64_t rights)
{
    struct landlock_path_beneath_attr rule = {.allowed_access = rights, .parent_fd = file};
    NEEDS(syscall(SYS_landlock_add_rule, rules, LANDLOCK_RULE_PATH_BENEATH, &rule, 0));
    close(file);
}

static void add_path(int rules, const char *path, uint64_t rights)
{
    int file;
    NEEDS(file = open(path, O_PATH | O_CLOEXEC));
    add_rule(rules, file, rights);
}

static void add_rules(int rules)
{
    static const char *const DEVICES[] = {"/dev/null", "/dev/zero", "/dev/full", "/dev/random", "/dev/urandom"};
    const int *own;
    int count = own_of(&own);
    add_path(rules, "/", READS);
    for (size_t i = 0; i < sizeof DEVICES / sizeof *DEVICES; i++)
        if (!access(DEVICES[i], F_OK)) add_path(rules, DEVICES[i], OF_FILES);
    for (int i = 0; i < count; i++) {
        struct stat found;
        NEEDS(fstat(own[i], &found));
        add_rule(rules, own[i], S_ISDIR(found.st_mode) ? ALL : OF_FILES);
    }
}

/* A second wall round the files: reads of all that the world has, writes of the program's own folders and of devices alone. */
static void limit_files(void)
{
    /* (newer headers name the network's rights and the scopes of signals and sockets) */
    struct { uint64_t files, network, scopes; } all = {ALL, 3, 3};
    long version = syscall(SYS_landlock_create_ruleset, NULL, 0, LANDLOCK_CREATE_RULESET_VERSION);
    size_t size = version >= 6 ? sizeof all : version >= 4 ? 2 * sizeof(uint64_t) : sizeof(uint64_t);
    int rules;
    if (version < 3) {
        errno = ENOSYS;
        unable("Landlock");
    }
    NEEDS(rules = (int)syscall(SYS_landlock_create_ruleset, &all, size, 0));
    add_rules(rules);
    if (syscall(SYS_landlock_restrict_self, rules, 0)) unable("Landlock");
    close(rules);
}

static void limit(int resource, rlim_t most)
{
    struct rlimit limits = {most, most};
    NEEDS(setrlimit((unsigned)resource, &limits));
}

static void lose_privileges(void)
{
    struct __user_cap_header_struct header = {_LINUX_CAPABILITY_VERSION_3, 0};
    struct __user_cap_data_struct none[2] = {{0, 0, 0}, {0, 0, 0}};
    for (unsigned long capability = 0; capability < 64; capability++)
        if (prctl(PR_CAPBSET_DROP, capability, 0, 0, 0)) break;
    NEEDS(syscall(SYS_capset, &header, none));
    NEEDS(prctl(PR_SET_NO_NEW_PRIVS, 1, 0, 0, 0));
}

/* A core of 1 byte is none, and no program outside is given it to read. (A bound of 0 would not say so of one.) */
void raise_walls(void)
{
    lose_privileges();
    limit_files();
    limit(RLIMIT_NPROC, MOST_PROCESSES);
    limit(RLIMIT_FSIZE, MOST_FILE);
    limit(RLIMIT_DATA, MOST_MEMORY);
    limit(RLIMIT_CORE, 1);
}

/* Whether a world has its own greatest process number. Before, there is one for the whole machine. */
static bool numbers_are_own(void)
{
    struct utsname machine;
    int version, release;
    return !uname(&machine) && sscanf(machine.release, "%d.%d", &version, &release) == 2
        && (version > 6 || (version == 6 && release >= 14));
}

/* RLIMIT_NPROC does not bind root. Numbers bind root: 512, and once they were all used, those from 300 on. A user gets more
 * of them, so that RLIMIT_NPROC alone binds him. */
void limit_numbers(int proc)
{
    char text[16];
    int file = numbers_are_own() ? openat(proc, "sys/kernel/pid_max", O_WRONLY | O_CLOEXEC) : -1;
    snprintf(text, sizeof text, "%d", MOST_PROCESSES + 1 + (getuid() ? FIRST_NUMBERS : 0));
    if (file >= 0) {
        NEEDS(write(file, text, strlen(text)));
        close(file);
    }
    close(proc);
}
