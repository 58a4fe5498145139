/* A library to be loaded before the C library: each fdatasync first waits as many milliseconds as the
   file that the variable SLOW_SYNC names says, in decimal digits; and it fails (EIO) while a ! stands
   behind them. It appends an octet to the file that SYNCS_COUNTED names. It is linked with nothing, so
   that it fits the C library of whatever loads it. */
struct timespec {
    long seconds, nanoseconds;
};

extern char *getenv(const char *);
extern int open(const char *, int, ...);
extern long read(int, void *, unsigned long);
extern long write(int, const void *, unsigned long);
extern int close(int);
extern int nanosleep(const struct timespec *, struct timespec *);
extern long syscall(long, ...);
extern int *__errno_location(void);

/* What the control says; the octets behind it are zeros. */
static void read_control(char *said, unsigned long size)
{
    const char *path = getenv("SLOW_SYNC");
    int control = path ? open(path, 0) : -1;
    if (control < 0) return;
    if (read(control, said, size) < 0) said[0] = 0;
    close(control);
}

/* One sync more: O_WRONLY, O_CREAT and O_APPEND of Linux. */
static void count_one(void)
{
    const char *path = getenv("SYNCS_COUNTED");
    int counted = path ? open(path, 01 | 0100 | 02000, 0600) : -1;
    if (counted < 0) return;
    if (write(counted, ".", 1) != 1) *__errno_location() = 0;
    close(counted);
}

int fdatasync(int file)
{
    char said[16] = { 0 };
    long milliseconds = 0;
    int at = 0;
    read_control(said, sizeof said - 1);
    for (; said[at] >= '0' && said[at] <= '9'; at++)
        milliseconds = milliseconds * 10 + (said[at] - '0');
    if (milliseconds > 0) {
        struct timespec wait = {milliseconds / 1000, milliseconds % 1000 * 1000000};
        nanosleep(&wait, 0);
    }
    count_one();
    if (said[at] == '!') {
        *__errno_location() = 5;
        return -1;
    }
    return (int)syscall(75, file);
}
