/* Refuses one system call by which a program saves a file, the Nth, N in REFUSE, and says so by a byte to the file descriptor in
   REFUSED, so that who counts N up sees when a run meets no Nth. Where RECORD is a file descriptor, each call that is made is
   told there in a line: `open PATH DESCRIPTOR`, `write DESCRIPTOR`, `fsync DESCRIPTOR`, `rename PATH PATH`. Loaded before the program by
   LD_PRELOAD. */
typedef unsigned long size_t;

extern void *dlsym(void *, const char *);
extern char *getenv(const char *);
extern int *__errno_location(void);

enum { BROKEN = 5 }; /* EIO */
#define NEXT ((void *)-1l)

static long number_in(const char *name) {
    const char *digit = getenv(name);
    long number = 0;
    while (digit && *digit) number = number * 10 + (*digit++ - '0');
    return number;
}

static long asked; /* calls so far, of all threads */

static int is_refused(void) {
    if (__sync_add_and_fetch(&asked, 1) != number_in("REFUSE")) return 0;
    long (*put)(int, const void *, size_t) = (long (*)(int, const void *, size_t))dlsym(NEXT, "write");
    put((int)number_in("REFUSED"), "!", 1);
    *__errno_location() = BROKEN;
    return 1;
}

static void tell(const char *call, const char *first, const char *second) {
    long (*put)(int, const void *, size_t) = (long (*)(int, const void *, size_t))dlsym(NEXT, "write");
    const char *words[] = {call, " ", first, second ? " " : "", second ? second : "", "\n"};
    int told = (int)number_in("RECORD");
    for (int at = 0; told && at < 6; at++) {
        size_t size = 0;
        while (words[at][size]) size++;
        put(told, words[at], size);
    }
}

enum { DIGITS = 20 };

/* The digits of a number, in room for them. */
static const char *spelled(int number, char room[DIGITS]) {
    int at = DIGITS - 1;
    room[at] = 0;
    do room[--at] = (char)('0' + number % 10); while (number /= 10);
    return room + at;
}

static void tell_descriptor(const char *call, int file) {
    char room[DIGITS];
    tell(call, spelled(file, room), 0);
}

long write(int to, const void *bytes, size_t size) {
    long (*put)(int, const void *, size_t) = (long (*)(int, const void *, size_t))dlsym(NEXT, "write");
    if (is_refused()) return -1;
    tell_descriptor("write", to);
    return put(to, bytes, size);
}
int fsync(int file) {
    int (*sync)(int) = (int (*)(int))dlsym(NEXT, "fsync");
    if (is_refused()) return -1;
    tell_descriptor("fsync", file);
    return sync(file);
}
int rename(const char *from, const char *to) {
    int (*move)(const char *, const char *) = (int (*)(const char *, const char *))dlsym(NEXT, "rename");
    if (is_refused()) return -1;
    tell("rename", from, to);
    return move(from, to);
}
int unlink(const char *path) {
    int (*drop)(const char *) = (int (*)(const char *))dlsym(NEXT, "unlink");
    return is_refused() ? -1 : drop(path);
}
int open(const char *path, int flags, int mode) {
    int (*begin)(const char *, int, int) = (int (*)(const char *, int, int))dlsym(NEXT, "open");
    if (is_refused()) return -1;
    char room[DIGITS];
    int made = begin(path, flags, mode);
    if (made >= 0) tell("open", path, spelled(made, room));
    return made;
}
