/* The program's world, a mount namespace.
 *
 * It is an empty folder in memory, with what each program finds, the public folders and those secrets that the program has
 * opened, all read-only, and folders of its own: /tmp, /dev/shm and those that its reports stand in. It has no network, no process
 * and no queue of others.
 *
 * A public folder or a secret is an overlay of nothing over the folder. So what a program does to a file there by its
 * descriptor (a lock, a lease) or by its name (a pipe, a socket) stays in the world, also where the folder lies in one of the
 * program's own. */
#define _GNU_SOURCE
#include "confine.h"
#include <errno.h>
#include <fcntl.h>
#include <linux/mount.h>
#include <sched.h>
#include <stdlib.h>
#include <string.h>
#include <sys/mount.h>
#include <sys/sendfile.h>
#include <sys/stat.h>
#include <sys/syscall.h>
#include <sys/sysmacros.h>
#include <unistd.h>

/* Where the world is put together, before it becomes the root, and where the program's own folders are until then. They go out of sight
 * with the machine's own files. */
#define BASE "/tmp"
#define OWN "/dev"

const char *const ALWAYS[MOST_ALWAYS] = {
    "/usr", "/bin", "/sbin", "/lib", "/lib64", "/etc/alternatives", "/etc/ld.so.cache", "/etc/passwd", "/etc/group",
    "/etc/nsswitch.conf", "/etc/localtime", "/etc/mime.types", "/etc/magic", "/etc/fonts", "/etc/texmf", "/var/lib/texmf",
    "/etc/java-11-openjdk", "/etc/java-17-openjdk", "/etc/java-21-openjdk", "/dev/null", "/dev/zero", "/dev/full",
    "/dev/random", "/dev/urandom", NULL};

/* Links that each program finds. */
static const struct { const char *from, *to; } LINKS[] = {
    {"/dev/fd", "/proc/self/fd"}, {"/dev/stdin", "/proc/self/fd/0"}, {"/dev/stdout", "/proc/self/fd/1"}, {"/dev/stderr", "/proc/self/fd/2"}};

/* How much the program's own folders hold. */
static const char SCRATCH[] = "size=1g,nr_inodes=65536,mode=755";

static int trees[MOST_SECRETS];        /* each secret as a mount that has no place yet */
static int doors[MOST_SECRETS];        /* where each is asked for */
static bool has_doors;
static int report_trees[MOST_REPORTS]; /* each report that stands in a folder which is not the program's own */
static int own[2 + MOST_REPORTS];      /* what the program may write: folders of its own, and reports that stand elsewhere */
static int own_count;

enum { MOST_COPIED = 1 << 24 };
enum { READ_ONLY = MOUNT_ATTR_RDONLY | MOUNT_ATTR_NOSUID | MOUNT_ATTR_NODEV };

/* What the machine has at a path as a mount of its own, with these attributes; -1 where it isn't there. */
static int tree_of(const char *path, uint64_t attributes)
{
    struct mount_attr set = {.attr_set = attributes};
    int tree = (int)syscall(SYS_open_tree, AT_FDCWD, path, OPEN_TREE_CLONE | OPEN_TREE_CLOEXEC | AT_RECURSIVE);
    if (tree >= 0) NEEDS(syscall(SYS_mount_setattr, tree, "", AT_EMPTY_PATH | AT_RECURSIVE, &set, sizeof set));
    return tree;
}

/* An overlay of nothing over a folder that is open, as a mount that has no place yet; -1 where the machine can't make it. */
static int overlay_of(int folder)
{
    char both[128];
    int nothing = open(OWN "/nothing", O_PATH | O_CLOEXEC), tree = -1;
    int context = (int)syscall(SYS_fsopen, "overlay", FSOPEN_CLOEXEC);
    snprintf(both, sizeof both, "/proc/self/fd/%d:/proc/self/fd/%d", folder, nothing);
    if (context >= 0 && nothing >= 0 && !syscall(SYS_fsconfig, context, FSCONFIG_SET_STRING, "lowerdir", both, 0)
        && !syscall(SYS_fsconfig, context, FSCONFIG_SET_FLAG, "userxattr", NULL, 0)
        && !syscall(SYS_fsconfig, context, FSCONFIG_SET_STRING, "xino", "off", 0)
        && !syscall(SYS_fsconfig, context, FSCONFIG_SET_STRING, "redirect_dir", "nofollow", 0)
        && !syscall(SYS_fsconfig, context, FSCONFIG_CMD_CREATE, NULL, NULL, 0))
        tree = (int)syscall(SYS_fsmount, context, FSMOUNT_CLOEXEC, READ_ONLY);
    close(context);
    close(nothing);
    return tree;
}

/* Makes the folders above a path of the world. */
static void make_above(const char *path)
{
    char at[PATH_MAX + sizeof BASE];
    snprintf(at, sizeof at, "%s%s", BASE, path);
    for (char *end = strchr(at + sizeof BASE, '/'); end; end = strchr(end + 1, '/')) {
        *end = 0;
        mkdir(at, 0755);
        *end = '/';
    }
}

/* A place in the world for a folder or a file. */
static void make_place(const char *path, bool is_folder)
{
    char at[PATH_MAX + sizeof BASE];
    int made;
    make_above(path);
    snprintf(at, sizeof at, "%s%s", BASE, path);
    if (is_folder) mkdir(at, 0755);
    else if ((made = open(at, O_CREAT | O_WRONLY | O_CLOEXEC, 0644)) >= 0) close(made);
}

static void put_tree(int tree, const char *path, bool is_folder)
{
    char at[PATH_MAX + sizeof BASE];
    make_place(path, is_folder);
    snprintf(at, sizeof at, "%s%s", BASE, path);
    NEEDS(syscall(SYS_move_mount, tree, "", AT_FDCWD, at, MOVE_MOUNT_F_EMPTY_PATH));
    close(tree);
}

/* What is taken from the machine's own files, before they go out of sight. */
struct taken {
    const char *path;
    int file; /* the folder or the file, by O_PATH or to be read; -1 where it is a device or a link */
    int tree; /* a device */
    bool is_folder, is_link;
    char link[PATH_MAX];
};

/* Where the machine's root has made devices for this world alone. */
#define DEVICES "/sys"

void make_devices(void)
{
    static const struct { const char *name; unsigned number; } MADE[] = {{"null", 3}, {"zero", 5}, {"full", 7}, {"random", 8}, {"urandom", 9}};
    if (getuid() || unshare(CLONE_NEWNS) || mount(NULL, "/", NULL, MS_REC | MS_PRIVATE, NULL)) return;
    if (mount("confine", DEVICES, "tmpfs", MS_NOSUID | MS_NOEXEC, "size=64k,mode=755")) return;
    for (size_t i = 0; i < sizeof MADE / sizeof *MADE; i++) {
        char at[64];
        snprintf(at, sizeof at, DEVICES "/%s", MADE[i].name);
        if (!mknod(at, S_IFCHR | 0666, makedev(1, MADE[i].number)) && chmod(at, 0666)) unlink(at);
    }
}

/* A device as a mount: the world's own, where the machine's root could make it, or the machine's. */
static int device_of(const char *path)
{
    char at[64];
    struct stat found;
    snprintf(at, sizeof at, DEVICES "%s", strrchr(path, '/'));
    return tree_of(!stat(at, &found) && S_ISCHR(found.st_mode) ? at : path, READ_ONLY & ~MOUNT_ATTR_NODEV);
}

/* One of those things that each program finds, as it stands: a link stays a link. What isn't there is passed over. */
static bool find(struct taken *taken, const char *path)
{
    struct stat found;
    ssize_t length;
    memset(taken, 0, sizeof *taken);
    taken->path = path;
    taken->tree = taken->file = -1;
    if (lstat(path, &found)) return false;
    if (S_ISLNK(found.st_mode) && strncmp(path, "/etc/", 5)) {
        length = readlink(path, taken->link, sizeof taken->link - 1);
        taken->is_link = length > 0;
        return taken->is_link;
    }
    if (stat(path, &found)) return false;
    taken->is_folder = S_ISDIR(found.st_mode);
    if (S_ISCHR(found.st_mode)) taken->tree = device_of(path);
    else taken->file = open(path, (taken->is_folder ? O_PATH : O_RDONLY) | O_CLOEXEC);
    return taken->tree >= 0 || taken->file >= 0;
}

/* A file is copied, so that its inode is the world's own. */
static void put_copy(int file, const char *path)
{
    char at[PATH_MAX + sizeof BASE];
    int made;
    ssize_t count;
    make_above(path);
    snprintf(at, sizeof at, "%s%s", BASE, path);
    NEEDS(made = open(at, O_CREAT | O_WRONLY | O_TRUNC | O_CLOEXEC, 0644));
    while ((count = sendfile(made, file, NULL, MOST_COPIED)) > 0) {}
    NEEDS(count);
    close(made);
    close(file);
}

static void put_link(const char *from, const char *to)
{
    char at[PATH_MAX + sizeof BASE];
    make_above(from);
    snprintf(at, sizeof at, "%s%s", BASE, from);
    NEEDS(symlink(to, at));
}

/* What each program finds stands in a world as inodes of its own: a lock or a wait there is seen by no other world. (Where something is
 * mounted in it, it is taken as it is.) */
static void put(const struct taken *taken)
{
    char link[64];
    int tree = taken->tree;
    if (taken->is_link) {
        put_link(taken->path, taken->link);
        return;
    }
    if (tree < 0 && !taken->is_folder) {
        put_copy(taken->file, taken->path);
        return;
    }
    snprintf(link, sizeof link, "/proc/self/fd/%d", taken->file);
    if (tree < 0 && (tree = overlay_of(taken->file)) < 0) NEEDS(tree = tree_of(link, READ_ONLY));
    put_tree(tree, taken->path, taken->is_folder);
    if (taken->file >= 0) close(taken->file);
}

/* Whether a path lies in a folder of the program's own. */
static bool is_in_own(const struct plan *plan, const char *path)
{
    for (int i = 0; i < plan->folder_count; i++)
        if (plan->folders[i].is_whole && is_below(path, plan->folders[i].path)) return true;
    return is_below(path, "/tmp");
}

/* A folder that the program may read. One with mounts in it can't be overlaid by a user: it is taken as it is, which
 * is safe where it does not lie in a folder of the program's own. */
static int readable(const struct plan *plan, const char *path, int folder)
{
    char link[64];
    int tree = overlay_of(folder);
    snprintf(link, sizeof link, "/proc/self/fd/%d", folder);
    if (tree < 0 && !is_in_own(plan, path)) tree = tree_of(link, READ_ONLY);
    if (tree < 0) unable(path);
    close(folder);
    return tree;
}

static int open_folder(const char *path)
{
    int folder = open(path, O_PATH | O_DIRECTORY | O_CLOEXEC);
    if (folder < 0) unable(path);
    return folder;
}

/* A gate as an empty file that nobody may change: who opens it to write gets what leads to its program. */
static void make_gate_place(const struct gate *gate)
{
    char path[sizeof GATES + MOST_NAME + 2];
    snprintf(path, sizeof path, GATES "/%s", gate->name);
    make_place(path, false);
}

static void note_own(const char *name)
{
    NEEDS(own[own_count++] = open(name, O_PATH | O_CLOEXEC));
}

int own_of(const int **files)
{
    *files = own;
    return own_count;
}

/* The program's own folders, and those of its reports, the outer ones first. */
static void make_own(const struct plan *plan)
{
    static const struct { const char *name, *path; mode_t mode; } NAMED[] = {{OWN "/tmp", "/tmp", 01777}, {OWN "/shm", "/dev/shm", 01777}};
    char name[64];
    NEEDS(mount("confine", OWN, "tmpfs", MS_NOSUID | MS_NODEV, SCRATCH));
    NEEDS(mkdir(OWN "/nothing", 0755));
    for (size_t i = 0; i < sizeof NAMED / sizeof *NAMED; i++) {
        NEEDS(mkdir(NAMED[i].name, NAMED[i].mode));
        NEEDS(chmod(NAMED[i].name, NAMED[i].mode));
        note_own(NAMED[i].name);
        put_tree(tree_of(NAMED[i].name, MOUNT_ATTR_NOSUID | MOUNT_ATTR_NODEV), NAMED[i].path, true);
    }
    for (int i = 0; i < plan->folder_count; i++) {
        snprintf(name, sizeof name, OWN "/%d", i);
        NEEDS(mkdir(name, 0755));
    }
    for (size_t length = 0; length < PATH_MAX; length++)
        for (int i = 0; i < plan->folder_count; i++) {
            if (!plan->folders[i].is_whole || strlen(plan->folders[i].path) != length) continue;
            snprintf(name, sizeof name, OWN "/%d", i);
            note_own(name);
            put_tree(tree_of(name, MOUNT_ATTR_NOSUID | MOUNT_ATTR_NODEV), plan->folders[i].path, true);
        }
}

/* Each report as an empty file of long ago, that the program may not write yet. */
static void make_report_places(const struct plan *plan)
{
    static const struct timespec LONG_AGO[2] = {{0, 0}, {0, 0}};
    for (int i = 0; i < plan->report_count; i++) {
        const struct report *report = &plan->reports[i];
        char name[PATH_MAX + 64];
        int made;
        snprintf(name, sizeof name, OWN "/%d%s", report->folder, strrchr(report->path, '/'));
        NEEDS(made = open(name, O_CREAT | O_WRONLY | O_CLOEXEC, 0400));
        NEEDS(futimens(made, LONG_AGO));
        close(made);
        report_trees[i] = -1;
        if (plan->folders[report->folder].is_whole) continue;
        note_own(name);
        report_trees[i] = tree_of(name, MOUNT_ATTR_NOSUID | MOUNT_ATTR_NODEV);
    }
}

/* Whether a report is seen in the world from the start, and not only with a secret that it lies in. */
static bool is_seen(const struct plan *plan, const struct report *report)
{
    for (int i = 0; i < plan->secret_count; i++)
        if (is_below(report->path, plan->secrets[i].path)) return false;
    return true;
}

/* Opens what the broker is asked by, for all secrets or for none. */
static void open_doors(const struct plan *plan)
{
    has_doors = true;
    for (int i = 0; i < plan->secret_count && has_doors; i++) {
        doors[i] = open("/dev/fuse", O_RDWR | O_NONBLOCK | O_CLOEXEC);
        if (doors[i] < 0) has_doors = false;
        while (!has_doors && i--) close(doors[i]);
    }
}

const int *doors_of(void) { return has_doors ? doors : NULL; }

/* Sets a word of a file system that is to be mounted, to a number. */
static bool set_number(int context, const char *word, const char *form, unsigned number)
{
    char text[16];
    snprintf(text, sizeof text, form, number);
    return !syscall(SYS_fsconfig, context, FSCONFIG_SET_STRING, word, text, 0);
}

/* A file system of the broker's, as a mount that has no place yet; -1 where the machine can't make it. */
static int door_of(int door)
{
    int context = (int)syscall(SYS_fsopen, "fuse", FSOPEN_CLOEXEC), tree = -1;
    if (context >= 0 && set_number(context, "fd", "%u", (unsigned)door) && set_number(context, "rootmode", "%o", S_IFDIR)
        && set_number(context, "user_id", "%u", getuid()) && set_number(context, "group_id", "%u", getgid())
        && !syscall(SYS_fsconfig, context, FSCONFIG_CMD_CREATE, NULL, NULL, 0))
        tree = (int)syscall(SYS_fsmount, context, FSMOUNT_CLOEXEC, READ_ONLY);
    close(context);
    return tree;
}

/* Where a secret will stand: its door, or a folder of nothing. */
static void make_secret_place(const char *path, int i)
{
    int tree = has_doors ? door_of(doors[i]) : tree_of(OWN "/nothing", READ_ONLY);
    if (tree < 0) unable("a door");
    put_tree(tree, path, true);
}

/* Whether a link stands in a folder that is put into the world as it is. */
static bool is_put(const struct plan *plan, const char *path)
{
    for (int i = 0; i < plan->open_count; i++)
        if (is_below(path, plan->open[i])) return true;
    for (int i = 0; i < plan->secret_count; i++)
        if (is_below(path, plan->secrets[i].path)) return true;
    for (const char *const *it = ALWAYS; *it; it++)
        if (is_below(path, *it)) return true;
    return false;
}

/* The links that lead to what the plan names. No part of a link's own path is a link: so each is made in the world. */
static void make_links(const struct plan *plan)
{
    for (int i = 0; i < plan->link_count; i++) {
        char at[PATH_MAX + sizeof BASE];
        if (is_put(plan, plan->links[i].path)) continue;
        make_above(plan->links[i].path);
        snprintf(at, sizeof at, "%s%s", BASE, plan->links[i].path);
        if (symlink(plan->links[i].text, at) && errno != EEXIST) unable(plan->links[i].path);
    }
}

/* This program, which asks for starts in the world. */
static int own_tree(void)
{
    char path[PATH_MAX];
    ssize_t length = readlink("/proc/self/exe", path, sizeof path - 1);
    if (length < 0) return -1;
    path[length] = 0;
    return tree_of(path, READ_ONLY);
}

void make_world(const struct plan *plan)
{
    static struct taken taken[MOST_ALWAYS];
    int count = 0, folders[MOST_OPEN], secrets[MOST_SECRETS], run;
    NEEDS(mount(NULL, "/", NULL, MS_REC | MS_PRIVATE, NULL));
    for (const char *const *path = ALWAYS; *path; path++) count += find(&taken[count], *path);
    for (int i = 0; i < plan->open_count; i++) folders[i] = open_folder(plan->open[i]);
    for (int i = 0; i < plan->secret_count; i++) secrets[i] = open_folder(plan->secrets[i].path);
    run = own_tree();
    open_doors(plan);
    NEEDS(mount("confine", BASE, "tmpfs", MS_NOSUID | MS_NODEV, "size=32m,mode=755"));
    make_own(plan);
    for (int i = 0; i < count; i++) put(&taken[i]);
    for (size_t i = 0; i < sizeof LINKS / sizeof *LINKS; i++) put_link(LINKS[i].from, LINKS[i].to);
    make_report_places(plan);
    for (int i = 0; i < plan->secret_count; i++) trees[i] = readable(plan, plan->secrets[i].path, secrets[i]);
    for (int i = 0; i < plan->open_count; i++) put_tree(readable(plan, plan->open[i], folders[i]), plan->open[i], true);
    for (int i = 0; i < plan->secret_count; i++) make_secret_place(plan->secrets[i].path, i);
    for (int i = 0; i < plan->gate_count; i++) make_gate_place(&plan->gates[i]);
    for (int i = 0; i < plan->report_count; i++)
        if (report_trees[i] >= 0 && is_seen(plan, &plan->reports[i])) put_tree(report_trees[i], plan->reports[i].path, false);
    if (run >= 0) put_tree(run, RUN_FOLDER "/" RUN_NAME, false);
    make_place("/proc", true);
    make_links(plan);
}

int open_scratch(void)
{
    int scratch;
    NEEDS(scratch = open(OWN, O_RDONLY | O_DIRECTORY | O_CLOEXEC));
    return scratch;
}

/* It is read-only, and has nothing of the machine but what every process has. */
void add_proc(void)
{
    int context = (int)syscall(SYS_fsopen, "proc", FSOPEN_CLOEXEC), tree = -1;
    if (context >= 0 && !syscall(SYS_fsconfig, context, FSCONFIG_SET_STRING, "subset", "pid", 0)
        && !syscall(SYS_fsconfig, context, FSCONFIG_CMD_CREATE, NULL, NULL, 0))
        tree = (int)syscall(SYS_fsmount, context, FSMOUNT_CLOEXEC, READ_ONLY | MOUNT_ATTR_NOEXEC);
    if (tree >= 0) put_tree(tree, "/proc", true);
    close(context);
}

void enter_world(void)
{
    NEEDS(chdir(BASE));
    NEEDS(syscall(SYS_pivot_root, ".", "."));
    NEEDS(mount(NULL, "/", NULL, MS_REMOUNT | MS_BIND | MS_RDONLY | MS_NOSUID | MS_NODEV, NULL));
}

/* (It stands over the root, where no path but this one leads.) */
void leave_machine(void)
{
    NEEDS(umount2(".", MNT_DETACH));
    NEEDS(chdir("/"));
}

/* It is put below its door, which goes then; where the machine's kernel can't (before Linux 6.5), it stands there once the door has gone.
 * Reports that lie in it stand over it. */
int put_secret(const struct plan *plan, int i)
{
    enum { BELOW = 0x200 }; /* (newer headers name it) */
    const char *path = plan->secrets[i].path;
    bool is_below_door = !syscall(SYS_move_mount, trees[i], "", AT_FDCWD, path, MOVE_MOUNT_F_EMPTY_PATH | BELOW);
    if (umount2(path, MNT_DETACH)) return errno;
    if (!is_below_door && syscall(SYS_move_mount, trees[i], "", AT_FDCWD, path, MOVE_MOUNT_F_EMPTY_PATH)) return errno;
    for (int j = 0; j < plan->report_count; j++)
        if (report_trees[j] >= 0 && is_below(plan->reports[j].path, path)
            && syscall(SYS_move_mount, report_trees[j], "", AT_FDCWD, plan->reports[j].path, MOVE_MOUNT_F_EMPTY_PATH))
            return errno;
    return 0;
}
