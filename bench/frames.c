/* The work `frames` of crates/node_rows in plain C: the same datagrams, decoded into messages that own
   their octets, and encoded again. */
#include "plain.h"

enum { COUNT = 10000 };

static const uint8_t SHAPES[32][4] = {
    { 0x00, 0x01, 3, 0 }, { 0x01, 0x01, 1, 0 }, { 0x02, 0x01, 1, 4 }, { 0x04, 0x0c, 5, 22 },
    { 0x05, 0x00, 1, 0 }, { 0x06, 0x00, 0, 0 }, { 0x07, 0x30, 2, 60 }, { 0x08, 0x00, 0, 0 },
    { 0x09, 0x41, 0, 250 }, { 0x0a, 0x00, 5, 60 }, { 0x0b, 0x00, 5, 0 }, { 0x0c, 0x00, 5, 250 },
    { 0x0c, 0x21, 5, 250 }, { 0x0c, 0x22, 5, 250 }, { 0x0c, 0x40, 5, 40 }, { 0x0d, 0x00, 5, 0 },
    { 0x0e, 0x00, 2, 0 }, { 0x0f, 0x00, 2, 0 }, { 0x10, 0x00, 2, 0 }, { 0x12, 0x20, 4, 60 },
    { 0x12, 0x21, 5, 0 }, { 0x13, 0x20, 6, 0 }, { 0x14, 0x20, 4, 60 }, { 0x15, 0x00, 2, 0 },
    { 0x16, 0x73, 0, 23 }, { 0x17, 0x00, 0, 0 }, { 0x18, 0x00, 0, 0 }, { 0x18, 0x00, 2, 0 },
    { 0x1a, 0x10, 2, 60 }, { 0x1b, 0x00, 1, 0 }, { 0x1c, 0x41, 0, 250 }, { 0x1d, 0x00, 1, 0 },
};

enum {
    ADVERTISE = 0x00, SEARCHGW, GWINFO, CONNECT = 0x04, CONNACK, WILLTOPICREQ, WILLTOPIC, WILLMSGREQ,
    WILLMSG, REGISTER, REGACK, PUBLISH, PUBACK, PUBCOMP, PUBREC, PUBREL, SUBSCRIBE = 0x12, SUBACK,
    UNSUBSCRIBE, UNSUBACK, PINGREQ, PINGRESP, DISCONNECT, WILLTOPICUPD = 0x1a, WILLTOPICRESP,
    WILLMSGUPD, WILLMSGRESP,
};

/* A message. Which fields count depends on the type. */
struct frame {
    uint8_t type, flags, octet, is_there;
    uint16_t id, msg_id;
    struct octets text;
};

static struct buffer datagram(uint32_t *state, const uint8_t *shape)
{
    struct buffer b = { 0 };
    unsigned size = shape[2] + next_number(state) % (shape[3] + 1);
    int is_long = next_number(state) % 4 == 0 || size > 253;
    if (is_long) {
        put8(&b, 1);
        put16(&b, size + 4);
    } else {
        put8(&b, size + 2);
    }
    put8(&b, shape[0]);
    if (size) put8(&b, shape[1]);
    for (unsigned i = 1; i < size; i++) put8(&b, next_number(state));
    return b;
}

/* Whether a topic field of SUBSCRIBE and UNSUBSCRIBE has the size that the flags ask for. */
static int fits(uint8_t flags, size_t len)
{
    unsigned kind = flags & 3;
    return kind == 0 || kind == 3 || len == 2;
}

/* Reads a datagram; 0 where it is no frame. */
static int decode(const uint8_t *at, size_t len, struct frame *f)
{
    if (len == 0) return 0;
    size_t head = at[0] == 1 ? 4 : 2;
    if (len < head) return 0;
    size_t said = at[0] == 1 ? get16(at + 1) : at[0];
    if (said != len) return 0;
    *f = (struct frame){ .type = at[head - 1] };
    const uint8_t *b = at + head;
    size_t n = len - head;
    switch (f->type) {
    case ADVERTISE:
        if (n != 3) return 0;
        f->octet = b[0];
        f->id = get16(b + 1);
        return 1;
    case SEARCHGW: case CONNACK: case WILLTOPICRESP: case WILLMSGRESP:
        if (n != 1) return 0;
        f->octet = b[0];
        return 1;
    case GWINFO:
        if (n < 1) return 0;
        f->octet = b[0];
        f->text = copy_of(b + 1, n - 1);
        return 1;
    case CONNECT:
        if (n < 5 || n > 27) return 0;
        f->flags = b[0];
        f->octet = b[1];
        f->id = get16(b + 2);
        f->text = copy_of(b + 4, n - 4);
        return 1;
    case WILLTOPICREQ: case WILLMSGREQ: case PINGRESP:
        return n == 0;
    case WILLTOPIC: case WILLTOPICUPD:
        f->is_there = n > 0;
        if (n == 0) return 1;
        f->flags = b[0];
        f->text = copy_of(b + 1, n - 1);
        return 1;
    case WILLMSG: case WILLMSGUPD:
        f->text = copy_of(b, n);
        return 1;
    case REGISTER:
        if (n < 4) return 0;
        f->id = get16(b);
        f->msg_id = get16(b + 2);
        f->text = copy_of(b + 4, n - 4);
        return 1;
    case REGACK: case PUBACK:
        if (n != 5) return 0;
        f->id = get16(b);
        f->msg_id = get16(b + 2);
        f->octet = b[4];
        return 1;
    case PUBLISH:
        if (n < 5) return 0;
        f->flags = b[0];
        f->id = get16(b + 1);
        f->msg_id = get16(b + 3);
        f->text = copy_of(b + 5, n - 5);
        return 1;
    case PUBCOMP: case PUBREC: case PUBREL: case UNSUBACK:
        if (n != 2) return 0;
        f->msg_id = get16(b);
        return 1;
    case SUBSCRIBE: case UNSUBSCRIBE:
        if (n < 3 || !fits(b[0], n - 3)) return 0;
        f->flags = b[0];
        f->msg_id = get16(b + 1);
        f->text = copy_of(b + 3, n - 3);
        return 1;
    case SUBACK:
        if (n != 6) return 0;
        f->flags = b[0];
        f->id = get16(b + 1);
        f->msg_id = get16(b + 3);
        f->octet = b[5];
        return 1;
    case PINGREQ:
        if (n > 23) return 0;
        f->text = copy_of(b, n);
        return 1;
    case DISCONNECT:
        if (n != 0 && n != 2) return 0;
        f->is_there = n == 2;
        if (n) f->id = get16(b);
        return 1;
    default:
        return 0;
    }
}

/* How many octets the body has in front of its text. */
static size_t fixed_size(const struct frame *f)
{
    switch (f->type) {
    case SEARCHGW: case CONNACK: case WILLTOPICRESP: case WILLMSGRESP: case GWINFO: return 1;
    case PUBCOMP: case PUBREC: case PUBREL: case UNSUBACK: return 2;
    case ADVERTISE: case SUBSCRIBE: case UNSUBSCRIBE: return 3;
    case CONNECT: case REGISTER: return 4;
    case REGACK: case PUBACK: case PUBLISH: return 5;
    case SUBACK: return 6;
    case WILLTOPIC: case WILLTOPICUPD: return f->is_there ? 1 : 0;
    case DISCONNECT: return f->is_there ? 2 : 0;
    default: return 0;
    }
}

/* Appends a frame with the shortest Length; 0 where a field has a size that it may not have. */
static int encode(const struct frame *f, struct buffer *out)
{
    if (f->type == CONNECT && (f->text.len < 1 || f->text.len > 23)) return 0;
    if (f->type == PINGREQ && f->text.len > 23) return 0;
    if ((f->type == SUBSCRIBE || f->type == UNSUBSCRIBE) && !fits(f->flags, f->text.len)) return 0;
    size_t size = fixed_size(f) + f->text.len;
    if (size > 65531) return 0;
    reserve(out, size + 4);
    if (size <= 253) {
        put8(out, size + 2);
    } else {
        put8(out, 1);
        put16(out, size + 4);
    }
    put8(out, f->type);
    switch (f->type) {
    case ADVERTISE: put8(out, f->octet); put16(out, f->id); break;
    case SEARCHGW: case CONNACK: case WILLTOPICRESP: case WILLMSGRESP: case GWINFO: put8(out, f->octet); break;
    case CONNECT: put8(out, f->flags); put8(out, f->octet); put16(out, f->id); break;
    case WILLTOPIC: case WILLTOPICUPD: if (f->is_there) put8(out, f->flags); break;
    case REGISTER: put16(out, f->id); put16(out, f->msg_id); break;
    case REGACK: case PUBACK: put16(out, f->id); put16(out, f->msg_id); put8(out, f->octet); break;
    case PUBLISH: put8(out, f->flags); put16(out, f->id); put16(out, f->msg_id); break;
    case PUBCOMP: case PUBREC: case PUBREL: case UNSUBACK: put16(out, f->msg_id); break;
    case SUBSCRIBE: case UNSUBSCRIBE: put8(out, f->flags); put16(out, f->msg_id); break;
    case SUBACK: put8(out, f->flags); put16(out, f->id); put16(out, f->msg_id); put8(out, f->octet); break;
    case DISCONNECT: if (f->is_there) put16(out, f->id); break;
    }
    put(out, f->text.at, f->text.len);
    return 1;
}

int main(void)
{
    unsigned rounds;
    if (scanf("frames %u", &rounds) != 1) stop("a line is a work and a number");
    struct buffer *datagrams = room(COUNT * sizeof *datagrams);
    uint32_t state = 1;
    for (int i = 0; i < COUNT; i++) {
        const uint8_t *shape = SHAPES[next_number(&state) % 32];
        datagrams[i] = datagram(&state, shape);
    }
    struct buffer out = { 0 };
    uint64_t count = 0;
    for (unsigned r = 0; r < rounds; r++) {
        out.len = 0;
        for (int i = 0; i < COUNT; i++) {
            struct frame f;
            if (!decode(datagrams[i].at, datagrams[i].len, &f)) stop("no frame");
            if (!encode(&f, &out)) stop("no datagram");
            free(f.text.at);
        }
        count += COUNT;
    }
    printf("frames: %llu datagrams, %zu octets a round, checksum %016llx\n", (unsigned long long)count, out.len,
           (unsigned long long)checksum(out.at, out.len));
    return 0;
}
