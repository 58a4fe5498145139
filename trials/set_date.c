/* A library to be loaded before the C library: the date of the machine is as many seconds ahead as the
   file that the variable SET_DATE names says, in decimal digits, or with a minus in front so many
   back. The clock that nobody sets stays as it is. It is linked with nothing, so that it fits the C
   library of whatever loads it. */
struct timespec {
    long seconds, nanoseconds;
};

extern char *getenv(const char *);
extern int open(const char *, int, ...);
extern long read(int, void *, unsigned long);
extern int close(int);
extern long syscall(long, ...);

static long ahead(void)
{
    const char *path = getenv("SET_DATE");
    char digits[32];
    long seconds = 0, size = 0, at = 0;
    int control = path ? open(path, 0) : -1;
    if (control >= 0) {
        size = read(control, digits, sizeof digits);
        close(control);
    }
    int is_back = size > 0 && digits[0] == '-';
    for (at = is_back; at < size && digits[at] >= '0' && digits[at] <= '9'; at++)
        seconds = seconds * 10 + (digits[at] - '0');
    return is_back ? -seconds : seconds;
}

int clock_gettime(int clock, struct timespec *now)
{
    int found = (int)syscall(228, clock, now);
    if (found == 0 && clock == 0)
        now->seconds += ahead();
    return found;
}
