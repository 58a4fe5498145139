/* Loaded in front of the C library, it refuses the growth of memory (a malloc or a realloc) with
 * the number in REFUSE, and the next ones up to THROUGH. With COUNT it says at the end how many
 * growths there were. It needs no header, so the kit's own clang and ld.lld make it. */
typedef unsigned long size_t;
extern void *__libc_malloc(size_t);
extern void *__libc_realloc(void *, size_t);
extern char *getenv(const char *);
extern unsigned long strtoul(const char *, char **, int);
extern long write(int, const void *, size_t);
extern long syscall(long, ...);

static unsigned long seen, first, last;
static int ready;

static unsigned long number(const char *name, unsigned long none) {
    const char *word = getenv(name);
    return word ? strtoul(word, 0, 10) : none;
}

static int refused(void) {
    unsigned long place;
    if (!ready) {
        first = number("REFUSE", 0);
        last = number("THROUGH", first);
        ready = 1;
    }
    place = __atomic_add_fetch(&seen, 1, __ATOMIC_SEQ_CST);
    return first <= place && place <= last && first != 0;
}

void *malloc(size_t size) { return refused() ? 0 : __libc_malloc(size); }

void *realloc(void *block, size_t size) { return refused() ? 0 : __libc_realloc(block, size); }

__attribute__((destructor)) static void tell(void) {
    static int told;
    char line[32];
    int at = 32;
    unsigned long left = seen;
    if (told || !getenv("COUNT")) return;
    told = 1;
    line[--at] = '\n';
    do line[--at] = '0' + left % 10; while (left /= 10);
    write(2, "growths ", 8);
    write(2, line + at, 32 - at);
}

/* A program with threads ends by this call, without destructors. 231 is exit_group of x86_64. */
__attribute__((noreturn)) void _exit(int status) {
    tell();
    for (;;) syscall(231, (long)status);
}
