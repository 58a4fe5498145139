/* Clients of a gateway over UDP at 127.0.0.1, and a plain server that answers as a gateway would and keeps nothing but octets.
 *
 * wire ports COUNT                                   free ports, one a line; the system gives them
 * wire guard PROGRAM ARGUMENT..                      runs the program, which ends with the shell that started it
 * wire plain [FILE OCTETS [MOST]]                    the plain server; prints its port; appends so many octets, synced, before a PUBACK;
 *                                                    with MOST it takes so many datagrams that wait, and syncs once for them
 * wire pings PORT ROUNDS                             PINGREQ of one client, one at a time
 * wire puts PORT CLIENTS MESSAGES APIECE [FILE]      PUBLISH at quality of service 1, one at a time of each client; what FILE grows by
 * wire flood PORT RATE SECONDS APIECE                so many PUBLISH per second, then PINGREQ; SECONDS may be a fraction
 * wire deltas LINK COUNT FILE SYNCS                  so many deltas of gateway 2 at once, over a link; how often was synced until FILE, the
 *                                                    journal, has them: what SYNCS, to which each sync adds an octet, grows by
 * wire turn PORT LINK CLIENTS LINKS MESSAGES APIECE  as puts, with links that read what comes; the longest gaps between answers
 * wire memory PORT PROCESS FEW MANY                  messages put, delivered and acknowledged; VmRSS behind FEW and behind MANY
 *
 * Messages wait for sleepers, of which each has APIECE. What is not answered within half a second is repeated. Of a run one line is
 * printed: names, each with its number behind it; times are in microseconds.
 */
#include "wire.h"
#include <sys/epoll.h>
#include <sys/prctl.h>
#include <sys/stat.h>

#define AGAIN 0.5
#define PATIENCE 40 /* how often a request is repeated */
#define MOST_CLIENTS 256
#define GAPS 5

/* ---- datagrams */

static size_t connect_frame(uint8_t *at, const char *name)
{
    uint8_t body[32] = { 0x00, 0x01, 0x00, 0x00 };
    memcpy(body + 4, name, strlen(name));
    return message(at, CONNECT, body, 4 + strlen(name));
}

/* The short name of a topic: 3,844 of them. */
static void topic_of(long place, uint8_t *at)
{
    static const char letters[] = "abcdefghijklmnopqrstuvwxyzABCDEFGHIJKLMNOPQRSTUVWXYZ0123456789";
    at[0] = (uint8_t)letters[place / 62 % 62];
    at[1] = (uint8_t)letters[place % 62];
}

static size_t publish_frame(uint8_t *at, long place, uint16_t id)
{
    uint8_t body[21] = { 0x22 };
    topic_of(place, body + 1);
    body[3] = (uint8_t)(id >> 8);
    body[4] = (uint8_t)id;
    memcpy(body + 5, "sixteen octets !", 16);
    return message(at, PUBLISH, body, sizeof body);
}

/* Asks until an answer of the kind comes. */
static void ask(int fd, const uint8_t *octets, size_t len, uint8_t kind, const char *what)
{
    uint8_t answer[2048];
    for (int turn = 0; turn < PATIENCE; turn++) {
        if (send(fd, octets, len, 0) < 0 && errno != ECONNREFUSED) failed("a send");
        double end = now() + AGAIN;
        for (double left = AGAIN; left > 0; left = end - now()) {
            struct pollfd ready = { .fd = fd, .events = POLLIN };
            if (poll(&ready, 1, (int)(left * 1000) + 1) <= 0) continue;
            ssize_t size = recv(fd, answer, sizeof answer, MSG_DONTWAIT);
            if (size < 2 || answer[1] != kind) continue;
            if (kind == CONNACK && answer[2] != 0) stop("wire: a CONNECT was refused");
            if (kind == SUBACK && answer[size - 1] != 0) stop("wire: a SUBSCRIBE was refused");
            return;
        }
    }
    fprintf(stderr, "wire: %s was not answered within %.0f seconds\n", what, PATIENCE * AGAIN);
    exit(1);
}

static int client_at(long port, const char *name)
{
    uint8_t octets[64];
    int fd = opened(SOCK_DGRAM, port, connect, "a socket");
    ask(fd, octets, connect_frame(octets, name), CONNACK, "CONNECT");
    return fd;
}

static void subscribe_to(int fd, long place)
{
    uint8_t octets[64], body[5] = { 0x22, 0, 1 };
    topic_of(place, body + 3);
    ask(fd, octets, message(octets, SUBSCRIBE, body, sizeof body), SUBACK, "SUBSCRIBE");
}

/* Clients that subscribe to a topic each and fall asleep. */
static void sleepers(long port, long count)
{
    static const uint8_t duration[2] = { 0xff, 0xff };
    uint8_t octets[64];
    char name[16];
    if (count > 900) stop("wire: more sleepers than a gateway has room for; give each more messages");
    for (long place = 0; place < count; place++) {
        snprintf(name, sizeof name, "sleeper-%03ld", place);
        int fd = client_at(port, name);
        subscribe_to(fd, place);
        ask(fd, octets, message(octets, DISCONNECT, duration, sizeof duration), DISCONNECT, "DISCONNECT");
        close(fd);
    }
}

/* ---- clients with one request under way each */

struct client {
    int fd;
    uint16_t id;
    size_t len;
    uint8_t octets[64];
    double first, again;
};

struct load {
    struct client clients[MOST_CLIENTS];
    int count, ready, links;
    int link[MOST_CLIENTS];
    long total, given, answered, repeats, apiece, link_octets, links_lost;
    uint8_t wanted;
    double slowest, last, gaps[GAPS];
};

static void next_request(struct load *load, int place)
{
    struct client *client = &load->clients[place];
    if (load->given == load->total) {
        client->len = 0;
        return;
    }
    client->id = (uint16_t)(client->id % 65535 + 1);
    client->len = load->wanted == PINGRESP ? message(client->octets, PINGREQ, "", 0)
                                           : publish_frame(client->octets, load->given / load->apiece, client->id);
    load->given++;
    client->first = client->again = now();
    if (send(client->fd, client->octets, client->len, 0) < 0) failed("a send");
}

/* One of the longest gaps, the longest first. */
static void note_gap(struct load *load, double gap)
{
    for (int place = 0; place < GAPS; place++) {
        if (gap <= load->gaps[place]) continue;
        double smaller = load->gaps[place];
        load->gaps[place] = gap;
        gap = smaller;
    }
}

static void answers_of(struct load *load, int place)
{
    struct client *client = &load->clients[place];
    uint8_t answer[2048];
    ssize_t size;
    while ((size = recv(client->fd, answer, sizeof answer, MSG_DONTWAIT)) >= 2) {
        if (!client->len || answer[1] != load->wanted) continue;
        if (load->wanted == PUBACK && (size != 7 || get16(answer + 4) != client->id)) continue;
        if (load->wanted == PUBACK && answer[6] != 0) stop("wire: a PUBLISH was refused");
        double moment = now();
        note_gap(load, moment - load->last);
        load->last = moment;
        if (moment - client->first > load->slowest) load->slowest = moment - client->first;
        load->answered++;
        next_request(load, place);
    }
}

static void link_octets(struct load *load, int place)
{
    uint8_t octets[65536];
    ssize_t size = recv(load->link[place], octets, sizeof octets, MSG_DONTWAIT);
    if (size > 0) load->link_octets += size;
    if (size > 0 || (size < 0 && errno == EAGAIN)) return;
    epoll_ctl(load->ready, EPOLL_CTL_DEL, load->link[place], NULL);
    load->links_lost++;
}

static void repeat_late(struct load *load)
{
    double moment = now();
    for (int place = 0; place < load->count; place++) {
        struct client *client = &load->clients[place];
        if (!client->len || moment - client->again < AGAIN) continue;
        if (moment - client->first > PATIENCE * AGAIN) stop("wire: a request was not answered within 20 seconds");
        client->again = moment;
        load->repeats++;
        if (send(client->fd, client->octets, client->len, 0) < 0 && errno != ECONNREFUSED) failed("a send");
    }
}

static void watch(struct load *load, int fd, uint32_t place)
{
    struct epoll_event event = { .events = EPOLLIN, .data.u32 = place };
    if (epoll_ctl(load->ready, EPOLL_CTL_ADD, fd, &event)) failed("epoll");
}

static double drive(struct load *load)
{
    double began = now(), late = began;
    load->last = began;
    for (int place = 0; place < load->count; place++) next_request(load, place);
    while (load->answered < load->total) {
        struct epoll_event events[64];
        int found = epoll_wait(load->ready, events, 64, 50);
        for (int k = 0; k < found; k++) {
            uint32_t place = events[k].data.u32;
            if (place < MOST_CLIENTS) answers_of(load, (int)place);
            else link_octets(load, (int)place - MOST_CLIENTS);
        }
        if (now() - late > 0.05) {
            late = now();
            repeat_late(load);
        }
    }
    return now() - began;
}

static struct load *load_of(long port, long count, long total, long apiece, uint8_t wanted)
{
    char name[16];
    struct load *load = room(sizeof *load);
    memset(load, 0, sizeof *load);
    if (count < 1 || count > MOST_CLIENTS) stop("wire: from 1 to 256 clients");
    load->count = (int)count;
    load->total = total;
    load->apiece = apiece;
    load->wanted = wanted;
    load->ready = epoll_create1(0);
    for (int place = 0; place < load->count; place++) {
        snprintf(name, sizeof name, "client-%03d", place);
        load->clients[place].fd = client_at(port, name);
        watch(load, load->clients[place].fd, (uint32_t)place);
    }
    return load;
}

static void told(const struct load *load, double seconds)
{
    printf("answered %ld seconds %.3f rate %.1f slowest %.0f gap %.0f repeats %ld", load->answered, seconds, load->answered / seconds,
           load->slowest * 1e6, load->gaps[0] * 1e6, load->repeats);
}

static long size_of(const char *path)
{
    struct stat found;
    if (stat(path, &found)) failed(path);
    return (long)found.st_size;
}

static void pings(long port, long rounds)
{
    struct load *load = load_of(port, 1, rounds, 1, PINGRESP);
    told(load, drive(load));
    printf("\n");
}

static void puts_of(long port, long clients, long messages, long apiece, const char *file)
{
    sleepers(port, (messages + apiece - 1) / apiece);
    struct load *load = load_of(port, clients, messages, apiece, PUBACK);
    long before = file ? size_of(file) : 0;
    told(load, drive(load));
    if (file) printf(" octets %.1f", (double)(size_of(file) - before) / messages);
    printf("\n");
}

/* ---- links */

/* A link says a number, and that it has nothing; then it reads. */
static void dial(struct load *load, long port, int place)
{
    uint8_t octets[] = { 1, 0, 0, 0, 1, (uint8_t)(200 + place), 2, 0, 0, 0, 5, 1, 0, 0, 0, 0 };
    load->link[place] = opened(SOCK_STREAM, port, connect, "a link");
    if (send(load->link[place], octets, sizeof octets, 0) != sizeof octets) failed("a link");
    watch(load, load->link[place], (uint32_t)(MOST_CLIENTS + place));
    load->links++;
}

static void turn(long port, long link, long clients, long links, long messages, long apiece)
{
    if (links < 0 || links > 50) stop("wire: at most 50 links");
    sleepers(port, (messages + apiece - 1) / apiece);
    struct load *load = load_of(port, clients, messages, apiece, PUBACK);
    for (int place = 0; place < links; place++) dial(load, link, place);
    told(load, drive(load));
    for (int place = 1; place < GAPS; place++) printf(" gap%d %.0f", place + 1, load->gaps[place] * 1e6);
    printf(" links %ld lost %ld octets %ld\n", links, load->links_lost, load->link_octets);
}

/* ---- a flood */

struct flood {
    int fd;
    long sent, answered, pongs;
};

static void flood_answers(struct flood *flood)
{
    uint8_t answer[2048];
    ssize_t size;
    while ((size = recv(flood->fd, answer, sizeof answer, MSG_DONTWAIT)) >= 2) {
        if (answer[1] == PUBACK) flood->answered++;
        if (answer[1] == PINGRESP) flood->pongs++;
    }
}

/* Sends at a rate, each millisecond what is due. */
static void pour(struct flood *flood, double rate, long total, long apiece)
{
    static const struct timespec millisecond = { 0, 1000000 };
    uint8_t octets[64];
    double began = now();
    while (flood->sent < total) {
        long due = (long)((now() - began) * rate);
        for (; flood->sent < total && flood->sent < due; flood->sent++) {
            size_t len = publish_frame(octets, flood->sent / apiece, (uint16_t)(flood->sent + 1));
            if (send(flood->fd, octets, len, MSG_DONTWAIT) < 0 && errno != EAGAIN && errno != ENOBUFS) failed("a send");
        }
        flood_answers(flood);
        nanosleep(&millisecond, NULL);
    }
}

/* How long a PINGREQ waits for its answer; it is repeated each tenth of a second. */
static double answer_behind(struct flood *flood)
{
    uint8_t octets[2] = { 2, PINGREQ };
    double began = now(), again = 0;
    while (!flood->pongs) {
        if (now() - began > 30) stop("wire: no answer within 30 seconds behind the flood");
        if (now() - again > 0.1) {
            again = now();
            if (send(flood->fd, octets, 2, 0) < 0) failed("a send");
        }
        struct pollfd ready = { .fd = flood->fd, .events = POLLIN };
        poll(&ready, 1, 10);
        flood_answers(flood);
    }
    return now() - began;
}

static void flood(long port, double rate, double seconds, long apiece)
{
    double most = 60000 / rate; /* each message has an id of its own */
    long total = (long)(rate * (seconds < most ? seconds : most) + 0.5);
    sleepers(port, (total + apiece - 1) / apiece);
    struct flood flood = { .fd = client_at(port, "flood") };
    int size = 4 << 20;
    setsockopt(flood.fd, SOL_SOCKET, SO_RCVBUF, &size, sizeof size);
    double began = now();
    pour(&flood, rate, total, apiece);
    double poured = now() - began, waited = answer_behind(&flood);
    for (long seen = -1; seen != flood.answered;) {
        seen = flood.answered;
        struct pollfd ready = { .fd = flood.fd, .events = POLLIN };
        poll(&ready, 1, 1000);
        flood_answers(&flood);
    }
    printf("sent %ld rate %.1f answered %ld dropped %.4f after %.0f\n", flood.sent, flood.sent / poured, flood.answered,
           1 - (double)flood.answered / flood.sent, waited * 1e6);
}

/* ---- deltas of a peer */

enum { MOST_DELTAS = 100, LONGEST_DELTA = 64 };

/* A link's message: what gateway 2 makes of the first CONNECT of a client. */
static size_t delta_of(uint8_t *at, long place)
{
    static const uint8_t front[] = { 3, 0, 0, 0, 36, 1, 0, 0, 0, 1, 1, 4 };
    static const uint8_t back[] = { 0, 0, 0, 0, 0, 0, 0, 1, 2, 0, 0, 0, 1, 0, 60, 0, 1, 0, 0, 0, 0, 0, 0, 0, 0 };
    const uint8_t name[4] = { 'd', '-', (uint8_t)('0' + place / 10), (uint8_t)('0' + place % 10) };
    memcpy(at, front, sizeof front);
    memcpy(at + sizeof front, name, 4);
    memcpy(at + sizeof front + 4, back, sizeof back);
    return sizeof front + 4 + sizeof back;
}

/* Waits until a file has so many octets and has not grown for half a second. */
static void settle(const char *file, long octets)
{
    static const struct timespec half = { 0, 500000000 };
    double end = now() + 20;
    for (long before = -1, size; (size = size_of(file)) != before || size < octets; before = size) {
        if (now() > end) stop("wire: the deltas are not in the journal within 20 seconds");
        nanosleep(&half, NULL);
    }
}

static void deltas(long link, long count, const char *file, const char *syncs)
{
    static uint8_t octets[MOST_DELTAS * LONGEST_DELTA];
    uint8_t hello[] = { 1, 0, 0, 0, 1, 2, 2, 0, 0, 0, 5, 1, 0, 0, 0, 0 }, answer[4096];
    size_t len = 0;
    int fd = opened(SOCK_STREAM, link, connect, "a link");
    if (send(fd, hello, sizeof hello, 0) != sizeof hello || recv(fd, answer, sizeof answer, 0) <= 0) failed("a link");
    settle(file, 0);
    for (long place = 0; place < count; place++) len += delta_of(octets + len, place);
    long had = size_of(file), before = size_of(syncs);
    if (send(fd, octets, len, 0) != (ssize_t)len) failed("a link");
    settle(file, had + (long)len);
    printf("deltas %ld syncs %ld octets %ld\n", count, size_of(syncs) - before, size_of(file) - had);
}

/* ---- memory */

/* A client that is there takes so many messages and acknowledges each. It asks by PINGREQ, which a delivery follows. */
static void take(int fd, long wanted)
{
    uint8_t octets[2048], ping[2] = { 2, PINGREQ }, answer[7] = { 7, PUBACK };
    long got = 0, last = -1;
    double again = 0, end = now() + 60;
    while (got < wanted) {
        if (now() > end) stop("wire: messages did not come to their subscriber within a minute");
        if (now() - again > AGAIN) {
            again = now();
            if (send(fd, ping, 2, 0) < 0) failed("a send");
        }
        struct pollfd ready = { .fd = fd, .events = POLLIN };
        if (poll(&ready, 1, 100) <= 0) continue;
        ssize_t size = recv(fd, octets, sizeof octets, MSG_DONTWAIT);
        if (size < 7 || octets[1] != PUBLISH) continue;
        memcpy(answer + 2, octets + 3, 4);
        if (send(fd, answer, sizeof answer, 0) < 0) failed("a send");
        if (get16(octets + 5) != last) got++;
        last = get16(octets + 5);
        again = now();
    }
}

static void memory(long port, long process, long few, long many)
{
    int subscriber = client_at(port, "subscriber"), publisher = client_at(port, "publisher");
    long at_few = 0, most = 0;
    subscribe_to(subscriber, 0);
    double began = now();
    for (long put = 0; put < many;) {
        uint8_t octets[64];
        long more = many - put < 50 ? many - put : 50;
        if (put < few && few - put < more) more = few - put;
        for (long place = 0; place < more; place++, put++)
            ask(publisher, octets, publish_frame(octets, 0, (uint16_t)(put % 65535 + 1)), PUBACK, "PUBLISH");
        take(subscriber, more);
        long found = memory_of(process);
        if (put == few) at_few = found;
        if (put >= few && found > most) most = found;
    }
    printf("few %ld many %ld most %ld seconds %.1f\n", at_few, memory_of(process), most, now() - began);
}

/* ---- the plain server */

/* How many datagrams it takes at most before one sync and their answers, and of how many octets. */
enum { MOST_TAKEN = 64, LONGEST = 2048 };

struct taken {
    uint8_t octets[LONGEST], answer[64];
    struct sockaddr_in from;
    size_t back;
};

static uint8_t *kept;
static size_t kept_len;
static int kept_file = -1;

/* The answer to a datagram, if it is answered. */
static size_t answer_to(const uint8_t *octets, size_t len, uint8_t *answer)
{
    uint8_t body[6] = { 0 };
    if (len < 2) return 0;
    switch (octets[1]) {
    case CONNECT:
        return message(answer, CONNACK, body, 1);
    case PINGREQ:
        return message(answer, PINGRESP, body, 0);
    case DISCONNECT:
        return message(answer, DISCONNECT, body, 0);
    case SUBSCRIBE:
        if (len < 5) return 0;
        body[0] = octets[2] & 0x60;
        memcpy(body + 3, octets + 3, 2);
        return message(answer, SUBACK, body, 6);
    case PUBLISH:
        if (len < 7) return 0;
        memcpy(body, octets + 3, 4);
        return message(answer, PUBACK, body, 5);
    default:
        return 0;
    }
}

/* Appends as much as one publication takes. */
static long keep_octets(const struct taken *one, size_t len)
{
    if (kept_file < 0 || len < 7 || one->octets[1] != PUBLISH) return 0;
    if (write(kept_file, kept, kept_len) != (ssize_t)kept_len) failed("a write");
    return 1;
}

/* Takes what waits, so many datagrams at most: one sync for what they keep, and then their answers. How many came. */
static long take_some(int fd, struct taken *all, long most)
{
    long came = 0, puts = 0;
    for (; came < most; came++) {
        struct taken *one = all + came;
        socklen_t size = sizeof one->from;
        ssize_t len = recvfrom(fd, one->octets, sizeof one->octets, 0, (struct sockaddr *)&one->from, &size);
        if (len < 0 && errno == EAGAIN) break;
        if (len < 0) failed("a receive");
        one->back = answer_to(one->octets, (size_t)len, one->answer);
        puts += keep_octets(one, (size_t)len);
    }
    if (puts && fdatasync(kept_file)) failed("fdatasync");
    for (long place = 0; place < came; place++) {
        struct taken *one = all + place;
        if (one->back) sendto(fd, one->answer, one->back, 0, (struct sockaddr *)&one->from, sizeof one->from);
    }
    return came;
}

/* The calls of the daemon's socket: recvfrom; where nothing is there, epoll_wait and recvfrom; sendto. */
static void plain(const char *file, long octets, long most)
{
    static struct taken all[MOST_TAKEN];
    int fd = opened(SOCK_DGRAM, 0, bind, "a socket"), ready = epoll_create1(0);
    struct epoll_event event = { .events = EPOLLIN | EPOLLET };
    if (prctl(PR_SET_PDEATHSIG, SIGKILL)) failed("prctl");
    if (fcntl(fd, F_SETFL, O_NONBLOCK) || epoll_ctl(ready, EPOLL_CTL_ADD, fd, &event)) failed("the socket");
    if (file) {
        kept_len = (size_t)octets;
        kept = room(kept_len + 1);
        memset(kept, 'x', kept_len);
        kept_file = open(file, O_WRONLY | O_CREAT | O_APPEND, 0600);
        if (kept_file < 0) failed(file);
    }
    printf("%ld\n", port_of(fd));
    fflush(stdout);
    for (;;)
        if (!take_some(fd, all, most)) epoll_wait(ready, &event, 1, 100);
}

/* ---- all */

static void ports(long count)
{
    for (long place = 0; place < count; place++) {
        int kind = place % 2 ? SOCK_STREAM : SOCK_DGRAM; /* all are held until the end, so no port comes twice */
        printf("%ld\n", port_of(opened(kind, 0, bind, "a socket")));
    }
}

static void guard(char **words)
{
    if (prctl(PR_SET_PDEATHSIG, SIGKILL)) failed("prctl");
    execv(words[0], words);
    failed(words[0]);
}

int main(int count, char **words)
{
    const char *what = count > 1 ? words[1] : "";
    long n[8] = { 0 };
    for (int place = 2; place < count && place < 8; place++) n[place] = atol(words[place]);
    if (!strcmp(what, "ports") && count == 3) ports(n[2]);
    else if (!strcmp(what, "guard") && count > 2) guard(words + 2);
    else if (!strcmp(what, "plain") && count == 2) plain(NULL, 0, 1);
    else if (!strcmp(what, "plain") && count == 4) plain(words[2], n[3], 1);
    else if (!strcmp(what, "plain") && count == 5 && n[4] >= 1 && n[4] <= MOST_TAKEN) plain(words[2], n[3], n[4]);
    else if (!strcmp(what, "pings") && count == 4) pings(n[2], n[3]);
    else if (!strcmp(what, "puts") && (count == 6 || count == 7) && n[5] >= 1) puts_of(n[2], n[3], n[4], n[5], words[6]);
    else if (!strcmp(what, "flood") && count == 6 && n[3] > 0 && n[5] >= 1) flood(n[2], n[3], atof(words[4]), n[5]);
    else if (!strcmp(what, "deltas") && count == 6 && n[3] >= 1 && n[3] <= MOST_DELTAS) deltas(n[2], n[3], words[4], words[5]);
    else if (!strcmp(what, "turn") && count == 8 && n[7] >= 1) turn(n[2], n[3], n[4], n[5], n[6], n[7]);
    else if (!strcmp(what, "memory") && count == 6) memory(n[2], n[3], n[4], n[5]);
    else stop("usage: wire ports|guard|plain|pings|puts|flood|deltas|turn|memory .. (the head of bench/wire.c says what of)");
    return 0;
}
