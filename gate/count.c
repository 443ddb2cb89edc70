/* Counts a program's requests for memory, of all threads, and tells the number so far before what is written to standard
   output each time. A reallocation counts too, also one that stays where it was. Loaded before the program by LD_PRELOAD. */
typedef unsigned long size_t;

extern void *__libc_malloc(size_t);
extern void *__libc_calloc(size_t, size_t);
extern void *__libc_realloc(void *, size_t);
extern void *__libc_memalign(size_t, size_t);
extern long __write(int, const void *, size_t);
extern long syscall(long, ...);

enum { OUT_OF_MEMORY = 12 /* ENOMEM */, MAP = 9 /* the number of mmap */, DIGITS = 20 };

static unsigned long asked;

static void count(void) { __sync_add_and_fetch(&asked, 1); }

void *malloc(size_t size) { count(); return __libc_malloc(size); }
void *calloc(size_t number, size_t size) { count(); return __libc_calloc(number, size); }
void *realloc(void *old, size_t size) { count(); return __libc_realloc(old, size); }
void *memalign(size_t unit, size_t size) { count(); return __libc_memalign(unit, size); }
void *aligned_alloc(size_t unit, size_t size) { count(); return __libc_memalign(unit, size); }
int posix_memalign(void **made, size_t unit, size_t size) {
    void *found;
    count();
    found = __libc_memalign(unit, size);
    if (!found) return OUT_OF_MEMORY;
    *made = found;
    return 0;
}
void *mmap(void *start, size_t size, int protection, int flags, int file, long offset) {
    count();
    return (void *)syscall(MAP, start, size, protection, flags, file, offset);
}

static void tell(void) {
    char digits[DIGITS];
    int at = DIGITS;
    unsigned long left = asked;
    do digits[--at] = '0' + left % 10; while (left /= 10);
    __write(1, "requests ", 9);
    __write(1, digits + at, DIGITS - at);
    __write(1, ": ", 2);
}

long write(int file, const void *bytes, size_t size) {
    if (file == 1) tell();
    return __write(file, bytes, size);
}
