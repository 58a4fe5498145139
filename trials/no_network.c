/* A library to be loaded before the C library: while the file that the variable NO_NETWORK names begins
   with a digit other than 0, each datagram that is to be sent to an address is refused, as by a machine
   whose network is down (ENETUNREACH). It is linked with nothing, so that it fits the C library of
   whatever loads it. */
extern char *getenv(const char *);
extern int open(const char *, int, ...);
extern long read(int, void *, unsigned long);
extern int close(int);
extern long syscall(long, ...);
extern int *__errno_location(void);

long sendto(int socket, const void *octets, unsigned long size, int flags, const void *to, unsigned int length)
{
    const char *path = getenv("NO_NETWORK");
    char digit = '0';
    int control = path ? open(path, 0) : -1;
    if (control >= 0) {
        if (read(control, &digit, 1) != 1)
            digit = '0';
        close(control);
    }
    if (to && digit != '0') {
        *__errno_location() = 101;
        return -1;
    }
    return syscall(44, socket, octets, size, flags, to, length);
}
