/* A library to be loaded before the C library: a datagram to the port of IPv4 that the file which the
   variable LATE_REPLY names says, in decimal digits, goes out two seconds late. It is linked with nothing,
   so that it fits the C library of whatever loads it. */
struct timespec {
    long seconds, nanoseconds;
};

extern char *getenv(const char *);
extern int open(const char *, int, ...);
extern long read(int, void *, unsigned long);
extern int close(int);
extern int nanosleep(const struct timespec *, struct timespec *);
extern long syscall(long, ...);

long sendto(int socket, const void *octets, unsigned long size, int flags, const void *to, unsigned int length)
{
    const unsigned char *address = to;
    const char *path = getenv("LATE_REPLY");
    char digits[16];
    long port = 0, read_so_far = 0;
    int control = path ? open(path, 0) : -1;
    if (control >= 0) {
        read_so_far = read(control, digits, sizeof digits);
        close(control);
    }
    for (long at = 0; at < read_so_far && digits[at] >= '0' && digits[at] <= '9'; at++)
        port = port * 10 + (digits[at] - '0');
    if (to && port > 0 && address[2] * 256 + address[3] == port) {
        struct timespec wait = {2, 0};
        nanosleep(&wait, 0);
    }
    return syscall(44, socket, octets, size, flags, to, length);
}
