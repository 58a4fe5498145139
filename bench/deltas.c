/* The work `deltas` of crates/node_rows in plain C: the same operations, written as a delta, and read
   again into operations that own their octets. */
#include "plain.h"

enum { CLIENTS = 100, CHANGES = 3, PUTS = 20, RANGES = 5, BODY = 4096, MOST = 8388608 };

enum { SESSION = 1, PUT, ACK };

/* An operation. Which fields count depends on the kind, and on the tag of a session's change. */
struct op {
    uint8_t kind, gateway, counter, tag, presence, clean, qos;
    uint16_t duration, next_id;
    uint64_t first, last;
    struct octets client, topic, body;
};

struct ops {
    struct op *at;
    size_t len, held;
};

static struct op *push(struct ops *ops)
{
    if (ops->len == ops->held) {
        ops->held = ops->held ? ops->held * 2 : 4;
        ops->at = realloc(ops->at, ops->held * sizeof *ops->at);
        if (!ops->at) stop("out of memory");
    }
    struct op *op = &ops->at[ops->len++];
    memset(op, 0, sizeof *op);
    return op;
}

static void drop(struct ops *ops)
{
    for (size_t i = 0; i < ops->len; i++) {
        free(ops->at[i].client.at);
        free(ops->at[i].topic.at);
        free(ops->at[i].body.at);
    }
    free(ops->at);
}

static struct octets name(const char *form, unsigned client)
{
    char text[32];
    int len = snprintf(text, sizeof text, form, client);
    return copy_of((const uint8_t *)text, len);
}

/* The operations, in the order of their names. */
static struct ops operations(void)
{
    struct ops ops = { 0 };
    uint32_t state = 1;
    for (unsigned c = 0; c < CLIENTS; c++) {
        for (unsigned i = 0; i <= CHANGES; i++) {
            struct op *op = push(&ops);
            op->kind = SESSION;
            op->client = name("sensor-%02u", c);
            op->first = 1;
            op->gateway = 1;
            op->counter = i;
            op->tag = i > 0;
            op->presence = i > 0;
            op->duration = i ? i * 60 : 60;
            op->next_id = 1;
        }
    }
    for (unsigned c = 0; c < CLIENTS; c++) {
        for (unsigned i = 1; i <= PUTS; i++) {
            struct op *op = push(&ops);
            op->kind = PUT;
            op->client = name("sensor-%02u", c);
            op->gateway = 1;
            op->first = i;
            op->topic = name("field/%02u/soil", c);
            op->qos = c % 3;
            op->body = (struct octets){ room(BODY), BODY };
            for (int j = 0; j < BODY; j++) op->body.at[j] = next_number(&state);
        }
    }
    for (unsigned c = 0; c < CLIENTS; c++) {
        for (unsigned i = 0; i < RANGES; i++) {
            struct op *op = push(&ops);
            op->kind = ACK;
            op->client = name("sensor-%02u", c);
            op->gateway = 2;
            op->first = 1 + i * 10;
            op->last = op->first + 4;
        }
    }
    return ops;
}

static void encode(const struct ops *ops, struct buffer *out)
{
    static const uint8_t parts[8];
    put8(out, 1);
    put32(out, ops->len);
    for (size_t i = 0; i < ops->len; i++) {
        const struct op *op = &ops->at[i];
        put8(out, op->kind);
        put8(out, op->client.len);
        put(out, op->client.at, op->client.len);
        switch (op->kind) {
        case SESSION:
            put64(out, op->first);
            put8(out, op->gateway);
            put8(out, op->counter);
            put8(out, op->tag);
            put8(out, op->presence);
            if (op->tag == 0) put8(out, op->clean);
            put16(out, op->duration);
            if (op->tag == 0) {
                put16(out, op->next_id);
                put(out, parts, sizeof parts);
            }
            break;
        case PUT:
            put8(out, op->gateway);
            put64(out, op->first);
            put16(out, op->topic.len);
            put(out, op->topic.at, op->topic.len);
            put8(out, op->qos);
            put16(out, op->body.len);
            put(out, op->body.at, op->body.len);
            break;
        case ACK:
            put8(out, op->gateway);
            put64(out, op->first);
            put64(out, op->last);
            break;
        }
    }
}

/* What is left to read. */
struct rest {
    const uint8_t *at, *end;
};

static const uint8_t *take(struct rest *r, size_t count)
{
    if ((size_t)(r->end - r->at) < count) stop("truncated");
    const uint8_t *at = r->at;
    r->at += count;
    return at;
}

static unsigned ranged(unsigned n, unsigned least, unsigned most)
{
    if (n < least || n > most) stop("out of range");
    return n;
}

static unsigned octet(struct rest *r, unsigned least, unsigned most)
{
    return ranged(*take(r, 1), least, most);
}

static unsigned two(struct rest *r, unsigned least, unsigned most)
{
    return ranged(get16(take(r, 2)), least, most);
}

static uint64_t counted(struct rest *r)
{
    uint64_t n = get64(take(r, 8));
    if (n == 0) stop("out of range");
    return n;
}

static struct octets octets(struct rest *r, size_t len)
{
    return copy_of(take(r, len), len);
}

static void decode_op(struct rest *r, struct op *op)
{
    op->kind = octet(r, 1, 3);
    op->client = octets(r, octet(r, 1, 23));
    switch (op->kind) {
    case SESSION:
        op->first = counted(r);
        op->gateway = octet(r, 1, 255);
        op->counter = octet(r, 0, 255);
        op->tag = op->counter ? octet(r, 1, 1) : octet(r, 0, 0);
        op->presence = octet(r, 0, 4);
        if (op->tag == 0) op->clean = octet(r, 0, 1);
        op->duration = two(r, 0, 65535);
        if (op->tag == 0) {
            op->next_id = two(r, 1, 65535);
            for (int i = 0; i < 8; i++) octet(r, 0, 0);
        }
        break;
    case PUT:
        op->gateway = octet(r, 1, 255);
        op->first = counted(r);
        op->topic = octets(r, two(r, 1, 256));
        for (size_t i = 0; i < op->topic.len; i++)
            if (op->topic.at[i] == '+' || op->topic.at[i] == '#') stop("a wildcard");
        op->qos = octet(r, 0, 2);
        op->body = octets(r, two(r, 0, 4096));
        break;
    case ACK:
        op->gateway = octet(r, 1, 255);
        op->first = counted(r);
        op->last = get64(take(r, 8));
        if (op->last < op->first) stop("out of range");
        break;
    }
}

static int order(const struct octets *a, const struct octets *b)
{
    size_t len = a->len < b->len ? a->len : b->len;
    int found = memcmp(a->at, b->at, len);
    if (found) return found;
    return (a->len > b->len) - (a->len < b->len);
}

static int order64(uint64_t a, uint64_t b)
{
    return (a > b) - (a < b);
}

/* How the names of two operations are ordered. */
static int order_of(const struct op *a, const struct op *b)
{
    if (a->kind != b->kind) return a->kind - b->kind;
    int found = order(&a->client, &b->client);
    if (found) return found;
    if (a->kind == SESSION && (found = order64(a->first, b->first))) return found;
    if (a->gateway != b->gateway) return a->gateway - b->gateway;
    if (a->kind == SESSION) return a->counter - b->counter;
    return order64(a->first, b->first);
}

/* Whether the second may stand behind the first. */
static int may_follow(const struct op *a, const struct op *b)
{
    if (order_of(a, b) >= 0) return 0;
    if (a->kind != ACK || b->kind != ACK || a->gateway != b->gateway || order(&a->client, &b->client)) return 1;
    return a->last < b->first && b->first - a->last > 1;
}

static struct ops decode(const uint8_t *at, size_t len)
{
    struct ops ops = { 0 };
    struct rest r = { at, at + len };
    if (len > MOST) stop("too long");
    octet(&r, 1, 1);
    uint32_t count = (uint32_t)two(&r, 0, 65535) << 16;
    count |= two(&r, 0, 65535);
    for (uint32_t i = 0; i < count; i++) {
        struct op *op = push(&ops);
        decode_op(&r, op);
        if (i && !may_follow(op - 1, op)) stop("out of order");
    }
    if (r.at != r.end) stop("octets behind the delta");
    return ops;
}

int main(void)
{
    unsigned rounds;
    if (scanf("deltas %u", &rounds) != 1) stop("a line is a work and a number");
    struct ops ops = operations();
    struct buffer bytes = { 0 };
    uint64_t count = 0;
    for (unsigned r = 0; r < rounds; r++) {
        bytes.len = 0;
        encode(&ops, &bytes);
        struct ops read = decode(bytes.at, bytes.len);
        count += read.len;
        drop(&read);
    }
    printf("deltas: %llu operations, %zu octets a round, checksum %016llx\n", (unsigned long long)count, bytes.len,
           (unsigned long long)checksum(bytes.at, bytes.len));
    return 0;
}
