/* A library to be loaded before the C library: while the file that the variable NO_THREAD names begins
   with a digit other than 0, no thread is made, as by a system that has no room for one (EAGAIN). It is
   linked with nothing, so that it fits the C library of whatever loads it. */
extern char *getenv(const char *);
extern int open(const char *, int, ...);
extern long read(int, void *, unsigned long);
extern int close(int);
extern void *dlsym(void *, const char *);

typedef int make(void *, const void *, void *(*)(void *), void *);

int pthread_create(void *thread, const void *attributes, void *(*start)(void *), void *given)
{
    const char *path = getenv("NO_THREAD");
    char digit = '0';
    int control = path ? open(path, 0) : -1;
    if (control >= 0) {
        if (read(control, &digit, 1) != 1)
            digit = '0';
        close(control);
    }
    if (digit != '0')
        return 11;
    return ((make *)dlsym((void *)-1l, "pthread_create"))(thread, attributes, start, given);
}
