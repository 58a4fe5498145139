/* What the programs that talk to a gateway over sockets share. */
#ifndef WIRE_H
#define WIRE_H
#define _GNU_SOURCE
#include "plain.h"
#include <arpa/inet.h>
#include <errno.h>
#include <fcntl.h>
#include <poll.h>
#include <signal.h>
#include <sys/socket.h>
#include <time.h>
#include <unistd.h>

enum { CONNECT = 0x04, CONNACK = 0x05, PUBLISH = 0x0c, PUBACK = 0x0d, SUBSCRIBE = 0x12, SUBACK = 0x13 };
enum { PINGREQ = 0x16, PINGRESP = 0x17, DISCONNECT = 0x18 };

static inline double now(void)
{
    struct timespec at;
    clock_gettime(CLOCK_MONOTONIC, &at);
    return at.tv_sec + at.tv_nsec / 1e9;
}

static inline void failed(const char *what)
{
    fprintf(stderr, "wire: %s: %s\n", what, strerror(errno));
    exit(1);
}

static inline struct sockaddr_in address(long port)
{
    struct sockaddr_in made = { .sin_family = AF_INET, .sin_port = htons((uint16_t)port), .sin_addr.s_addr = htonl(INADDR_LOOPBACK) };
    return made;
}

static inline int opened(int kind, long port, int (*with)(int, const struct sockaddr *, socklen_t), const char *what)
{
    struct sockaddr_in at = address(port);
    int made = socket(AF_INET, kind, 0);
    if (made < 0 || with(made, (struct sockaddr *)&at, sizeof at)) failed(what);
    return made;
}

static inline long port_of(int fd)
{
    struct sockaddr_in at;
    socklen_t size = sizeof at;
    if (getsockname(fd, (struct sockaddr *)&at, &size)) failed("the port of a socket");
    return ntohs(at.sin_port);
}

static inline size_t message(uint8_t *at, uint8_t kind, const void *body, size_t len)
{
    at[0] = (uint8_t)(len + 2);
    at[1] = kind;
    memcpy(at + 2, body, len);
    return len + 2;
}

static inline long memory_of(long process)
{
    char path[64], line[256];
    long found = -1;
    snprintf(path, sizeof path, "/proc/%ld/status", process);
    FILE *file = fopen(path, "r");
    if (!file) failed(path);
    while (fgets(line, sizeof line, file)) sscanf(line, "VmRSS: %ld", &found);
    fclose(file);
    if (found < 0) stop("wire: the system does not tell VmRSS");
    return found;
}
#endif
