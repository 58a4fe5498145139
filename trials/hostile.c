/* Hostile octets for a gateway at 127.0.0.1: datagrams for its UDP port, streams for the port of its links.
 *
 * hostile datagrams PORT COUNT SEED NAMES     random octets, and frames that were changed, cut or made longer; of so many client names
 * hostile streams LINK COUNT SEED             streams of links: random, cut, changed, well-formed prefixes, huge counts
 *
 * Behind each 48 datagrams a SEARCHGW has to be answered within 30 seconds, and then those datagrams were read. A CONNECT goes out under one
 * of NAMES names and no other, so a gateway knows of no more clients; messages are short, and a session is cleared often. Six
 * processes throw streams at once, and each waits a while for what the gateway says. Of a run one line is printed: names, each with its number
 * behind it. Status 1 where no answer came.
 */
#include "wire.h"
#include <sys/wait.h>

#define SENDERS 32
#define EACH 48
#define PROCESSES 6
#define LARGEST 65000

enum { REGISTER = 0x0a, REGACK = 0x0b, PUBREC = 0x0f, PUBREL = 0x10, PUBCOMP = 0x0e, UNSUBSCRIBE = 0x14, SEARCHGW = 0x01, GWINFO = 0x02 };
enum { WILLTOPIC = 0x07, WILLMSG = 0x09, WILLTOPICUPD = 0x1a, WILLMSGUPD = 0x1c, ENCAPSULATED = 0xfe };

/* ---- chance */

static uint64_t chance;

static uint64_t next(void)
{
    chance ^= chance >> 12;
    chance ^= chance << 25;
    chance ^= chance >> 27;
    return chance * 0x2545f4914f6cdd1du;
}

static size_t below(size_t bound)
{
    return bound ? next() % bound : 0;
}

static void random_octets(uint8_t *at, size_t len)
{
    for (size_t place = 0; place < len; place++) at[place] = (uint8_t)next();
}

/* ---- datagrams */

static size_t name_at(uint8_t *at, long names)
{
    return (size_t)sprintf((char *)at, "hostile-%ld", (long)below((size_t)names));
}

static void id_at(uint8_t *at)
{
    at[0] = (uint8_t)next();
    at[1] = (uint8_t)next();
}

static size_t connecting(uint8_t *at, long names)
{
    uint8_t body[64] = { below(3) ? 0x04 : 0x00, 0x01 };
    if (!below(8)) body[0] |= 0x08;
    id_at(body + 2);
    return message(at, CONNECT, body, 4 + name_at(body + 4, names));
}

static size_t publishing(uint8_t *at)
{
    static const uint8_t flags[] = { 0x02, 0x22, 0x42, 0x62, 0x20, 0x40, 0x61, 0x21 };
    uint8_t body[64] = { flags[below(sizeof flags)], 'a', (uint8_t)('a' + below(4)) };
    if (body[0] & 1) memcpy(body + 1, "\0\007", 2);
    if (!(body[0] & 3)) memcpy(body + 1, "\0\001", 2);
    id_at(body + 3);
    return message(at, PUBLISH, body, 5 + below(50));
}

/* Behind a flag octet and an id, or behind two ids, a topic. */
static size_t about_topic(uint8_t *at, uint8_t kind)
{
    static const char *topics[] = { "ab", "t/+", "#", "topic/1", "topic/2", "topic/3", "+/1", "a" };
    uint8_t body[64] = { 0x20 };
    const char *topic = topics[below(8)];
    size_t front = kind == REGISTER ? 4 : 3;
    if (kind != REGISTER && strlen(topic) == 2) body[0] = 0x22;
    if (kind == REGISTER) body[0] = 0;
    id_at(body + front - 2);
    memcpy(body + front, topic, strlen(topic));
    return message(at, kind, body, front + strlen(topic));
}

static size_t answering(uint8_t *at)
{
    static const uint8_t kinds[] = { PUBACK, PUBREC, PUBREL, PUBCOMP, REGACK };
    uint8_t body[8] = { 'a', 'b', 0, (uint8_t)below(40), (uint8_t)below(5) };
    uint8_t kind = kinds[below(5)];
    if (kind == PUBACK || kind == REGACK) return message(at, kind, body, 5);
    return message(at, kind, body + 2, 2);
}

static size_t good(uint8_t *at, long names)
{
    uint8_t body[64] = { 0 };
    switch (below(20)) {
    case 0: case 1: case 2: return connecting(at, names);
    case 3: case 4: case 5: case 6: return publishing(at);
    case 7: case 8: return about_topic(at, SUBSCRIBE);
    case 9: return about_topic(at, REGISTER);
    case 10: return about_topic(at, UNSUBSCRIBE);
    case 11: case 12: case 13: return answering(at);
    case 14: return message(at, PINGREQ, body, below(2) ? name_at(body, names) : 0);
    case 15: id_at(body); return message(at, DISCONNECT, body, below(2) * 2);
    case 16: return message(at, below(2) ? WILLTOPIC : WILLTOPICUPD, "\040will", 5);
    case 17: return message(at, below(2) ? WILLMSG : WILLMSGUPD, "message", 7);
    case 18: return message(at, SEARCHGW, body, 1);
    default: return message(at, ENCAPSULATED, body, 1 + name_at(body + 1, names));
    }
}

static size_t changed(uint8_t *at, size_t len)
{
    for (size_t turn = below(3); turn > 0; turn--) at[below(len)] = (uint8_t)next();
    if (!below(5)) len = below(len + 1);
    if (!below(5)) {
        size_t more = below(20);
        random_octets(at + len, more);
        len += more;
    }
    if (len && below(2)) at[0] = (uint8_t)(len < 255 ? len : 255);
    return len;
}

static size_t random_datagram(uint8_t *at)
{
    size_t len = below(100) ? below(2) ? below(8) : below(64) : below(4) ? below(1500) : below(LARGEST);
    random_octets(at, len);
    if (len && below(2)) at[0] = (uint8_t)(len < 255 ? len : 255);
    return len;
}

/* Whether it is one of the names. */
static int is_name(const uint8_t *at, size_t len, long names)
{
    if (len < 9 || len > 15 || memcmp(at, "hostile-", 8) || (at[8] == '0' && len > 9)) return 0;
    long number = 0;
    for (size_t place = 8; place < len; place++) {
        if (at[place] < '0' || at[place] > '9') return 0;
        number = number * 10 + at[place] - '0';
    }
    return number < names;
}

/* A CONNECT of another name would be one client more: it becomes something else. */
static void keep_names(uint8_t *at, size_t len, long names)
{
    size_t front = len > 3 && at[0] == 1 ? 4 : 2;
    if (len > front + 4 && at[front - 1] == CONNECT && !is_name(at + front + 4, len - front - 4, names)) at[front - 1] = 0x7f;
}

static size_t hostile_datagram(uint8_t *at, long names)
{
    size_t len = below(10) < 3 ? random_datagram(at) : changed(at, good(at, names));
    keep_names(at, len, names);
    return len;
}

struct answers {
    long answered, refused;
};

/* A refusal is DISCONNECT, or an answer with a return code above 0. */
static void note_answer(struct answers *seen, const uint8_t *at, ssize_t len)
{
    uint8_t kind = at[1];
    int coded = kind == CONNACK || kind == REGACK || kind == SUBACK || kind == PUBACK || kind == 0x1b || kind == 0x1d;
    seen->answered++;
    if (kind == DISCONNECT || (coded && at[len - 1] != 0)) seen->refused++;
}

static void drain(struct answers *seen, int fd)
{
    uint8_t came[65536];
    ssize_t len;
    while ((len = recv(fd, came, sizeof came, MSG_DONTWAIT)) >= 2) note_answer(seen, came, len);
}

/* How long a SEARCHGW waits for its answer; it is repeated each half second. */
static double probe(int fd)
{
    uint8_t octets[8], came[64];
    size_t len = message(octets, SEARCHGW, "", 1);
    double began = now(), again = 0;
    while (now() - began < 30) {
        if (now() - again > 0.5) {
            again = now();
            if (send(fd, octets, len, 0) < 0 && errno != ECONNREFUSED) failed("a send");
        }
        struct pollfd ready = { .fd = fd, .events = POLLIN };
        if (poll(&ready, 1, 100) > 0 && recv(fd, came, sizeof came, MSG_DONTWAIT) >= 3 && came[1] == GWINFO) return now() - began;
    }
    stop("hostile: no answer to SEARCHGW within 30 seconds");
    return 0;
}

static void datagrams(long port, long count, long names)
{
    static uint8_t octets[LARGEST + 256];
    int fds[SENDERS], asking = opened(SOCK_DGRAM, port, connect, "a socket");
    struct answers seen = { 0 };
    double began = now(), slowest = 0, size = 0;
    for (int place = 0; place < SENDERS; place++) fds[place] = opened(SOCK_DGRAM, port, connect, "a socket");
    for (long sent = 0; sent < count; sent++) {
        size_t len = hostile_datagram(octets, names);
        size += (double)len;
        if (send(fds[below(SENDERS)], octets, len, 0) < 0 && errno != ECONNREFUSED) failed("a send");
        if (sent % EACH != EACH - 1 && sent != count - 1) continue;
        double waited = probe(asking);
        if (waited > slowest) slowest = waited;
        for (int place = 0; place < SENDERS; place++) drain(&seen, fds[place]);
    }
    double seconds = now() - began;
    printf("sent %ld seconds %.1f rate %.1f octets %.0f answered %ld refused %ld slowest %.0f\n", count, seconds, count / seconds, size,
           seen.answered, seen.refused, slowest * 1e6);
}

/* ---- streams */

static void link_message(struct buffer *to, uint8_t kind, const void *body, size_t len)
{
    put8(to, kind);
    put32(to, (uint32_t)len);
    put(to, body, len);
}

static void hello(struct buffer *to)
{
    uint8_t gateway = (uint8_t)(1 + below(255));
    link_message(to, 1, &gateway, 1);
}

static const uint8_t NOTHING[] = { 1, 0, 0, 0, 0 }; /* the digest of somebody who has nothing */

static void noise(struct buffer *to, size_t most)
{
    size_t len = below(most);
    reserve(to, len);
    random_octets(to->at + to->len, len);
    to->len += len;
}

/* What a link of its own is told: a number, a digest, and deltas. */
static struct buffer corpus_of(long port)
{
    struct buffer said = { 0 }, held = { 0 };
    uint8_t gateway = 200, came[65536];
    int fd = opened(SOCK_STREAM, port, connect, "a link");
    link_message(&said, 1, &gateway, 1);
    link_message(&said, 2, NOTHING, sizeof NOTHING);
    if (send(fd, said.at, said.len, 0) != (ssize_t)said.len) failed("a link");
    for (double end = now() + 10; now() < end && held.len < 200000;) {
        struct pollfd ready = { .fd = fd, .events = POLLIN };
        int found = poll(&ready, 1, 2000);
        if (found <= 0 && held.len) break;
        ssize_t size = found > 0 ? recv(fd, came, sizeof came, 0) : 0;
        if (found > 0 && size <= 0) break;
        put(&held, came, (size_t)size);
    }
    close(fd);
    if (held.len < 20) stop("hostile: a link was not answered within 10 seconds");
    return held;
}

static void changed_corpus(struct buffer *to, const struct buffer *corpus, int huge)
{
    size_t begin = to->len, len = corpus->len < 4000 ? corpus->len : 4000;
    put(to, corpus->at, len);
    for (size_t turn = 1 + below(3); turn > 0; turn--) {
        size_t place = begin + below(len - 8);
        if (huge) memset(to->at + place, below(2) ? 0xff : 0x7f, 4);
        else to->at[place] = (uint8_t)next();
    }
}

static void hostile_stream(struct buffer *to, const struct buffer *corpus)
{
    uint8_t body[9] = { 1, 0xff, 0xff, 0xff, 0xff };
    to->len = 0;
    switch (below(16)) {
    case 0: noise(to, 2000); return;
    case 1: hello(to); noise(to, 2000); return;
    case 2: link_message(to, 1, "", 1); return;
    case 3: link_message(to, 1, "", 0); return;
    case 4: for (size_t turn = 1 + below(20); turn > 0; turn--) hello(to); return;
    case 5: hello(to); to->len = below(6); return;
    case 6: hello(to); put8(to, (uint8_t)(1 + below(3))); put32(to, (uint32_t)next()); return;
    case 7: hello(to); put8(to, 3); put32(to, 8388608); noise(to, 20000); return;
    case 8: hello(to); random_octets(body, 9); link_message(to, 2, body, below(10)); return;
    case 9: hello(to); for (size_t turn = 1 + below(3); turn > 0; turn--) link_message(to, 2, NOTHING, sizeof NOTHING); return;
    case 10: link_message(to, 2, NOTHING, sizeof NOTHING); return;
    case 11: hello(to); link_message(to, 3, body, sizeof body); return;
    case 12: hello(to); link_message(to, 2, body, sizeof body); return;
    case 13: changed_corpus(to, corpus, 0); return;
    case 14: changed_corpus(to, corpus, 1); return;
    default: put(to, corpus->at, below(corpus->len)); return;
    }
}

struct streams {
    long thrown, greeted, closed, away, octets;
};

static void send_in_pieces(int fd, const struct buffer *octets)
{
    static const size_t sizes[] = { 1, 5, 64, 4096, 65536 };
    size_t size = sizes[below(5)];
    for (size_t place = 0; place < octets->len;) {
        size_t more = octets->len - place < size ? octets->len - place : size;
        if (place > 200) more = octets->len - place;
        ssize_t sent = send(fd, octets->at + place, more, MSG_NOSIGNAL);
        if (sent <= 0) return;
        place += (size_t)sent;
    }
}

/* Waits for what the gateway says, and whether it closes the link. A link that is taken is told a number before it is heard. */
static int listen_to(int fd, struct streams *seen, double behind)
{
    static uint8_t came[65536];
    int greeted = 0;
    for (double end = now() + 1, left; (left = end - now()) > 0;) {
        struct pollfd ready = { .fd = fd, .events = POLLIN };
        if (poll(&ready, 1, (int)(left * 1000) + 1) <= 0) break;
        ssize_t size = recv(fd, came, sizeof came, MSG_DONTWAIT);
        if (size <= 0) {
            seen->closed += greeted;
            break;
        }
        if (!greeted) end = now() + behind;
        greeted = 1;
        seen->octets += size;
    }
    seen->greeted += greeted;
    return greeted;
}

/* Whether the gateway took the link: it has eight at most, and closes others at once. */
static int throw_once(long port, const struct buffer *octets, struct streams *seen)
{
    struct linger at_once = { 1, 0 };
    struct sockaddr_in at = address(port);
    int taken = 0, fd = socket(AF_INET, SOCK_STREAM, 0);
    if (fd < 0) failed("a socket");
    if (!connect(fd, (struct sockaddr *)&at, sizeof at)) {
        send_in_pieces(fd, octets);
        taken = listen_to(fd, seen, below(4) ? 0.02 : 0.2);
    }
    if (below(2)) setsockopt(fd, SOL_SOCKET, SO_LINGER, &at_once, sizeof at_once);
    close(fd);
    return taken;
}

static void throw_one(long port, const struct buffer *octets, struct streams *seen)
{
    seen->thrown++;
    for (int turn = 0; turn < 20 && !throw_once(port, octets, seen); turn++) {
        seen->away++;
        usleep(10000);
    }
}

static struct streams throw_all(long port, long count, const struct buffer *corpus)
{
    struct buffer octets = { 0 };
    struct streams seen = { 0 };
    reserve(&octets, 1 << 18);
    for (long thrown = 0; thrown < count; thrown++) {
        hostile_stream(&octets, corpus);
        throw_one(port, &octets, &seen);
    }
    return seen;
}

static void streams(long port, long count)
{
    struct buffer corpus = corpus_of(port);
    struct streams all = { 0 }, one;
    int ends[2];
    double began = now();
    if (pipe(ends)) failed("a pipe");
    for (int place = 0; place < PROCESSES; place++) {
        pid_t made = fork();
        if (made < 0) failed("a process");
        if (made > 0) continue;
        chance += (uint64_t)place * 0x9e3779b97f4a7c15u;
        one = throw_all(port, count / PROCESSES + (place < count % PROCESSES), &corpus);
        exit(write(ends[1], &one, sizeof one) != sizeof one);
    }
    for (int place = 0; place < PROCESSES; place++) {
        int status;
        if (wait(&status) < 0 || status) stop("hostile: a process that threw streams failed");
        if (read(ends[0], &one, sizeof one) != sizeof one) failed("a pipe");
        all.thrown += one.thrown;
        all.greeted += one.greeted;
        all.closed += one.closed;
        all.away += one.away;
        all.octets += one.octets;
    }
    double seconds = now() - began;
    printf("thrown %ld seconds %.1f rate %.1f greeted %ld closed %ld away %ld octets %ld corpus %zu\n", all.thrown, seconds,
           all.thrown / seconds, all.greeted, all.closed, all.away, all.octets, corpus.len);
}

int main(int count, char **words)
{
    const char *what = count > 1 ? words[1] : "";
    long n[6] = { 0 };
    for (int place = 2; place < count && place < 6; place++) n[place] = atol(words[place]);
    chance = 0x9e3779b97f4a7c15u ^ (uint64_t)n[4] * 0xbf58476d1ce4e5b9u;
    for (int turn = 0; turn < 10; turn++) next();
    if (!strcmp(what, "datagrams") && count == 6 && n[3] > 0 && n[5] > 0) datagrams(n[2], n[3], n[5]);
    else if (!strcmp(what, "streams") && count == 5 && n[3] > 0) streams(n[2], n[3]);
    else stop("usage: hostile datagrams|streams .. (the head of trials/hostile.c says what of)");
    return 0;
}
