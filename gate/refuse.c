/* Refuses one request for memory of a program, the Nth, N in REFUSE, and says so by a byte to the file descriptor in
   REFUSED, so that who counts N up sees when a run meets no Nth. Loaded before the program by LD_PRELOAD. */
typedef unsigned long size_t;

extern void *__libc_malloc(size_t);
extern void *__libc_calloc(size_t, size_t);
extern void *__libc_realloc(void *, size_t);
extern void *__libc_memalign(size_t, size_t);
extern char *getenv(const char *);
extern long write(int, const void *, size_t);
extern int *__errno_location(void);

enum { OUT_OF_MEMORY = 12 }; /* ENOMEM */

static long number_in(const char *name) {
    const char *digit = getenv(name);
    long number = 0;
    while (digit && *digit) number = number * 10 + (*digit++ - '0');
    return number;
}

static long asked; /* requests so far, of all threads */

static int is_refused(void) {
    if (__sync_add_and_fetch(&asked, 1) != number_in("REFUSE")) return 0;
    write(number_in("REFUSED"), "!", 1);
    *__errno_location() = OUT_OF_MEMORY;
    return 1;
}

void *malloc(size_t size) { return is_refused() ? 0 : __libc_malloc(size); }
void *calloc(size_t count, size_t size) { return is_refused() ? 0 : __libc_calloc(count, size); }
void *realloc(void *old, size_t size) { return is_refused() ? 0 : __libc_realloc(old, size); }
void *memalign(size_t unit, size_t size) { return is_refused() ? 0 : __libc_memalign(unit, size); }
void *aligned_alloc(size_t unit, size_t size) { return is_refused() ? 0 : __libc_memalign(unit, size); }
int posix_memalign(void **made, size_t unit, size_t size) {
    void *found = is_refused() ? 0 : __libc_memalign(unit, size);
    if (!found) return OUT_OF_MEMORY;
    *made = found;
    return 0;
}
