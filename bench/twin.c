/* The same work as the program loopback, in C written for the purpose: one end of a TP 2.0 connection with the same calls
 * and the same checks (phases, IDs, sorting, both halves, tests, timers, order of sending), records passed by pointer; two
 * such ends, open from the start, over perfect links, messages of every length from 1 to 1,024 each way. Standard input has
 * the number of rounds. It is there to be measured against, and nothing else uses it. */
#include <stdbool.h>
#include <stdint.h>
#include <stdio.h>
#include <stdlib.h>
#include <string.h>

enum { LONGEST = 1024, PIECE = 7, NUMBERS = 16 };

/* ---- telegrams ---- */

struct payload {
    size_t len;
    uint8_t bytes[8];
};

struct fields {
    uint8_t block, t1, t3;
};

enum kind { DATA, ACK, TEST, BREAK, DISCONNECT, SETUP, ACCEPT, MALFORMED };

struct telegram {
    enum kind kind;
    bool padded; /* a control telegram filled up to 8 bytes */
    bool asks, last, ready;
    uint8_t number;
    struct fields fields;
};

static inline uint32_t tenths_of(uint8_t code)
{
    static const uint16_t unit[4] = {1, 10, 100, 1000};
    return (uint32_t)(code & 63) * unit[code >> 6];
}

static inline uint32_t less(uint32_t timer, uint64_t by)
{
    return timer <= by ? 0 : timer - (uint32_t)by;
}

static inline unsigned frames_of(size_t len)
{
    return (unsigned)((len + 8) / PIECE);
}

static inline struct telegram sort(const uint8_t *s, size_t n)
{
    struct telegram t = {.kind = MALFORMED};
    if (n == 0)
        return t;
    uint8_t b = s[0];
    if (b >> 6 == 0) {
        if (n < 2 || n > 8)
            return t;
        t.kind = DATA;
        t.asks = !(b & 0x20);
        t.last = b & 0x10;
        t.number = b & 15;
        return t;
    }
    if (n == 1 || n == 8) {
        t.padded = n == 8;
        switch (b) {
        case 0xA3: t.kind = TEST; return t;
        case 0xA4: t.kind = BREAK; return t;
        case 0xA8: t.kind = DISCONNECT; return t;
        }
        if ((b & 0xD0) == 0x90) {
            t.kind = ACK;
            t.ready = b & 0x20;
            t.number = b & 15;
            return t;
        }
        t.padded = false;
    }
    if (n == 6 && b == 0xA0) {
        t.kind = SETUP;
    } else if ((n == 6 || n == 8) && b == 0xA1) {
        t.kind = ACCEPT;
        t.padded = n == 8;
    } else {
        return t;
    }
    t.fields = (struct fields){s[1], s[2], s[4]};
    return t;
}

static inline void write_byte(struct payload *p, uint8_t b)
{
    *p = (struct payload){1, {b}};
}

static inline void write_fields(struct payload *p, uint8_t opcode, const struct fields *f)
{
    *p = (struct payload){6, {opcode, f->block, f->t1, 0xFF, f->t3, 0xFF}};
}

static inline void write_request(struct payload *p, uint8_t unit, uint16_t receive)
{
    *p = (struct payload){7, {unit, 0xC0, 0x00, 0x10, receive & 255, receive >> 8 & 7, 0x01}};
}

static inline bool asks_at(uint8_t block, unsigned frames, unsigned place)
{
    return place + 1 == frames || (block && (place + 1) % block == 0);
}

/* The frame behind `place` others of a message. */
static inline void write_frame(struct payload *p, const uint8_t *message, size_t len, bool asks, bool last,
                               uint8_t number, unsigned place)
{
    size_t at = (size_t)PIECE * place;
    size_t n = len + 2 - at < PIECE ? len + 2 - at : PIECE;
    memset(p->bytes, 0, 8);
    p->len = 1 + n;
    p->bytes[0] = (asks ? 0 : 0x20) | (last ? 0x10 : 0) | (number & 15);
    if (at == 0) {
        p->bytes[1] = len >> 8 & 15;
        p->bytes[2] = len & 255;
        memcpy(p->bytes + 3, message, n - 2);
    } else if (n == PIECE) {
        memcpy(p->bytes + 1, message + at - 2, PIECE);
    } else {
        memcpy(p->bytes + 1, message + at - 2, n);
    }
}

/* ---- the sending half ---- */

struct terms {
    uint8_t block;
    uint32_t t1, t3;
    uint8_t repeats;
    uint32_t pause;
};

struct sender {
    uint16_t length, acked, high, next;
    uint8_t oldest, count;
    uint32_t wait, hold, gap;
};

enum answer {
    GOOD, DONE, MALFORMED_BYTES, BLOCK_SIZE, OTHER_ID, NOT_DUE, BUSY, BAD_LENGTH, SHORT_BUFFER, USED_UP,
    BROKEN, REFUSED, NO_CHANGE
};

static inline enum answer sender_offer(struct sender *s, size_t len)
{
    if (s->length)
        return BUSY;
    if (len == 0 || len > LONGEST)
        return BAD_LENGTH;
    s->length = (uint16_t)len;
    s->acked = s->high = s->next = 0;
    s->count = 0;
    s->wait = 0;
    return GOOD;
}

static inline enum answer sender_hear(struct sender *s, const struct terms *t, bool ready, uint8_t number)
{
    if (s->length == 0 || s->hold)
        return NO_CHANGE;
    unsigned d = (number - s->oldest) & (NUMBERS - 1);
    if (d == 0) {
        if (ready)
            return NO_CHANGE;
        if (s->count >= t->repeats)
            return USED_UP;
        s->next = s->acked;
        s->count++;
        s->wait = 0;
        s->hold = t->pause;
        return GOOD;
    }
    unsigned reached = s->acked + d;
    if (reached > s->high)
        return NO_CHANGE;
    s->oldest = (s->oldest + d) & (NUMBERS - 1);
    s->count = 0;
    s->wait = 0;
    s->hold = ready ? 0 : t->pause;
    if (reached == frames_of(s->length)) {
        s->length = s->acked = s->high = s->next = 0;
        return DONE;
    }
    s->acked = s->next = (uint16_t)reached;
    return GOOD;
}

/* Whether the repeats are used up. */
static inline bool sender_pass(struct sender *s, const struct terms *t, uint64_t tenths)
{
    if (s->wait && s->wait <= tenths) {
        if (s->count >= t->repeats)
            return true;
        s->next = s->acked;
        s->count++;
    }
    s->wait = less(s->wait, tenths);
    s->hold = less(s->hold, tenths);
    s->gap = less(s->gap, tenths);
    return false;
}

enum handing { FRAME, NOTHING, OTHER_LENGTH };

static inline enum handing sender_hand(struct sender *s, const struct terms *t, const uint8_t *message, size_t len,
                                       struct payload *p)
{
    if (!s->length || s->wait || s->hold || s->gap)
        return NOTHING;
    unsigned frames = frames_of(s->length);
    unsigned place = s->next;
    if (place >= frames)
        return NOTHING;
    if (len != s->length)
        return OTHER_LENGTH;
    bool asks = asks_at(t->block, frames, place);
    uint8_t number = (uint8_t)(s->oldest - s->acked + place) & (NUMBERS - 1);
    write_frame(p, message, len, asks, place + 1 == frames, number, place);
    s->next = (uint16_t)(place + 1);
    if (s->high < s->next)
        s->high = s->next;
    s->wait = asks ? t->t1 : 0;
    s->gap = t->t3;
    return FRAME;
}

/* ---- the receiving half ---- */

/* A message as its first frame declares it; length 0 is none. */
struct message {
    uint16_t length;
    uint8_t flags;
};

static const struct message none = {0, 0};

struct standing {
    uint8_t expected;
    bool discarding;
    struct message begun;
    uint16_t fill;
};

struct receiver {
    struct standing at, back;
    struct message complete;
    bool ack_due, ack_ready;
    uint8_t ack_number;
};

static inline void receiver_settle(struct receiver *r, bool asks, bool last, bool waited)
{
    if (asks) {
        r->ack_due = true;
        r->ack_ready = !waited;
        r->ack_number = r->at.expected;
    }
    if (asks || last)
        r->back = r->at;
}

static inline enum answer receiver_discard(struct receiver *r, bool asks, bool last, enum answer why)
{
    r->at.expected = (r->at.expected + 1) & (NUMBERS - 1);
    r->at.discarding = !last;
    r->at.begun = none;
    r->at.fill = 0;
    receiver_settle(r, asks, last, false);
    return why;
}

static inline enum answer receiver_data(struct receiver *r, const struct telegram *t, const uint8_t *bytes, size_t n,
                                        uint8_t *buffer, size_t room)
{
    bool asks = t->asks, last = t->last;
    if (t->number != r->at.expected) {
        receiver_settle(r, asks, false, r->complete.length != 0);
        return NO_CHANGE;
    }
    if (r->complete.length) {
        receiver_settle(r, asks, false, true);
        return BUSY;
    }
    if (r->at.discarding)
        return receiver_discard(r, asks, last, GOOD);
    unsigned length = r->at.begun.length, fill = r->at.fill;
    uint8_t flags = r->at.begun.flags;
    if (length == 0) {
        if (n < 2)
            return receiver_discard(r, asks, last, BROKEN);
        length = (unsigned)(bytes[0] & 15) << 8 | bytes[1];
        flags = bytes[0] >> 4;
        if (length == 0 || length > LONGEST)
            return receiver_discard(r, asks, last, BROKEN);
        bytes += 2;
        n -= 2;
    } else if (room < length) {
        return SHORT_BUFFER;
    }
    size_t filled = fill + n;
    if (filled > length || (last ? filled < length : filled == length))
        return receiver_discard(r, asks, last, BROKEN);
    if (room < length)
        return receiver_discard(r, asks, last, SHORT_BUFFER);
    if (n == PIECE)
        memcpy(buffer + fill, bytes, PIECE);
    else
        memcpy(buffer + fill, bytes, n);
    r->at.expected = (r->at.expected + 1) & (NUMBERS - 1);
    r->at.begun.length = last ? 0 : (uint16_t)length;
    r->at.begun.flags = last ? 0 : flags;
    r->at.fill = last ? 0 : (uint16_t)filled;
    if (last)
        r->complete = (struct message){(uint16_t)length, flags};
    receiver_settle(r, asks, last, false);
    return GOOD;
}

/* ---- the connection ---- */

struct settings {
    uint16_t receive;
    uint8_t unit, block, t1, t3;
    uint16_t reply;
    uint8_t requests, repeats;
    uint16_t pause, interval;
    uint8_t tests;
};

static const struct settings defaults = {0x300, 0x01, 8, 0x8A, 0x32, 1000, 10, 5, 1000, 10000, 5};

enum phase { CLOSED, REQUESTING, AGREEING, OPEN };

struct connection {
    enum phase phase;
    struct settings settings;
    uint16_t transmit;
    /* the request of the opening */
    bool due, asked;
    uint32_t wait;
    uint8_t repeats;
    /* closed, with one A8 due */
    bool leaving;
    /* the open channel */
    struct terms terms;
    uint32_t interval;
    struct sender sender;
    struct receiver receiver;
    bool test_out, test_again;
    uint32_t test_wait, test_left;
    uint8_t unanswered;
    bool accept;
};

struct frame {
    uint16_t id;
    struct payload payload;
};

static inline void make_closed(struct connection *c)
{
    *c = (struct connection){.settings = defaults};
}

static inline void make_leaving(struct connection *c)
{
    uint16_t transmit = c->transmit;
    make_closed(c);
    c->transmit = transmit;
    c->leaving = true;
}

/* The A1 opens the channel: all numbers start at 0, and nothing is left from before. */
static inline void make_open(struct connection *c, const struct fields *peer)
{
    struct settings s = c->settings;
    *c = (struct connection){
        .phase = OPEN,
        .settings = s,
        .transmit = c->transmit,
        .terms = {s.block < peer->block ? s.block : peer->block, tenths_of(s.t1), tenths_of(peer->t3), s.repeats,
                  s.pause},
        .interval = s.interval,
        .test_left = s.interval,
    };
}

static inline enum answer on_reply(struct connection *c, const uint8_t *s, size_t n)
{
    if (n != 7 || s[0] != 0x00)
        return MALFORMED_BYTES;
    uint8_t opcode = s[1];
    if (opcode == 0xD6 || opcode == 0xD7 || opcode == 0xD8) {
        if (!c->asked)
            return NOT_DUE;
        make_closed(c);
        return REFUSED;
    }
    if (opcode != 0xD0 || s[3] >= 8 || (s[2] | s[3] << 8) != c->settings.receive || s[5] >= 8 || s[6] != 0x01)
        return MALFORMED_BYTES;
    if (!c->asked)
        return NOT_DUE;
    struct settings settings = c->settings;
    *c = (struct connection){
        .phase = AGREEING, .settings = settings, .transmit = (uint16_t)(s[4] | s[5] << 8), .due = true};
    return GOOD;
}

static inline enum answer on_agreeing(struct connection *c, const struct telegram *t)
{
    switch (t->kind) {
    case MALFORMED:
        return MALFORMED_BYTES;
    case DISCONNECT:
        make_leaving(c);
        return GOOD;
    case ACCEPT:
        break;
    default:
        return NOT_DUE;
    }
    if (!c->asked)
        return NOT_DUE;
    if (t->fields.block == 0 || t->fields.block > 15)
        return BLOCK_SIZE;
    make_open(c, &t->fields);
    return GOOD;
}

static inline enum answer on_open(struct connection *c, const struct telegram *t, const uint8_t *s, size_t n,
                                  uint8_t *buffer, size_t room)
{
    enum answer a;
    switch (t->kind) {
    case DATA:
        a = receiver_data(&c->receiver, t, s + 1, n - 1, buffer, room);
        break;
    case ACK:
        a = sender_hear(&c->sender, &c->terms, t->ready, t->number);
        if (a == USED_UP) {
            make_closed(c);
            return a;
        }
        break;
    case TEST:
        c->accept = true;
        a = GOOD;
        break;
    case BREAK:
        c->receiver.at = c->receiver.back;
        a = GOOD;
        break;
    case DISCONNECT:
        make_leaving(c);
        return GOOD;
    case ACCEPT:
        if (!c->test_out)
            return NOT_DUE;
        if (t->fields.block == 0 || t->fields.block > 15)
            return BLOCK_SIZE;
        c->test_out = c->test_again = false;
        c->test_wait = 0;
        c->unanswered = 0;
        a = GOOD;
        break;
    case SETUP:
        return NOT_DUE;
    default:
        return MALFORMED_BYTES;
    }
    if (a == GOOD || a == DONE)
        c->test_left = c->interval;
    return a;
}

static enum answer connection_arrive(struct connection *c, uint16_t id, const uint8_t *s, size_t n, uint8_t *buffer,
                                     size_t room, bool *padded)
{
    *padded = false;
    if (c->phase == CLOSED)
        return NOT_DUE;
    if (id != (c->phase == REQUESTING ? 0x200 + c->settings.unit : c->settings.receive))
        return OTHER_ID;
    if (c->phase == REQUESTING)
        return on_reply(c, s, n);
    struct telegram t = sort(s, n);
    *padded = t.padded;
    if (c->phase == AGREEING)
        return on_agreeing(c, &t);
    return on_open(c, &t, s, n, buffer, room);
}

static enum answer connection_elapse(struct connection *c, uint64_t tenths)
{
    switch (c->phase) {
    case CLOSED:
        return GOOD;
    case REQUESTING:
    case AGREEING:
        if (c->wait == 0)
            return GOOD;
        if (tenths < c->wait) {
            c->wait = less(c->wait, tenths);
            return GOOD;
        }
        if (c->repeats >= c->settings.requests) {
            make_closed(c);
            return USED_UP;
        }
        c->due = true;
        c->wait = 0;
        c->repeats++;
        return GOOD;
    case OPEN:
        break;
    }
    bool lost = sender_pass(&c->sender, &c->terms, tenths);
    if (c->test_wait && c->test_wait <= tenths) {
        if (c->unanswered >= c->settings.tests) {
            lost = true;
        } else {
            c->test_again = true;
            c->unanswered++;
        }
    }
    if (lost) {
        make_closed(c);
        return USED_UP;
    }
    c->test_wait = less(c->test_wait, tenths);
    c->test_left = less(c->test_left, tenths);
    return GOOD;
}

static inline bool test_due(const struct connection *c)
{
    if (c->sender.acked < c->sender.high)
        return false;
    return c->test_again || (!c->test_out && c->test_left == 0 && c->interval > 0);
}

static inline enum answer open_due(struct connection *c, const uint8_t *message, size_t len, bool *given,
                                   struct frame *f)
{
    if (c->accept) {
        c->accept = false;
        struct fields own = {c->settings.block, c->settings.t1, c->settings.t3};
        write_fields(&f->payload, 0xA1, &own);
    } else if (test_due(c)) {
        c->test_out = true;
        c->test_again = false;
        c->test_wait = c->terms.t1;
        write_byte(&f->payload, 0xA3);
    } else if (c->receiver.ack_due) {
        write_byte(&f->payload, (c->receiver.ack_ready ? 0xB0 : 0x90) | (c->receiver.ack_number & 15));
        c->receiver.ack_due = c->receiver.ack_ready = false;
        c->receiver.ack_number = 0;
    } else {
        switch (sender_hand(&c->sender, &c->terms, message, len, &f->payload)) {
        case NOTHING:
            return GOOD;
        case OTHER_LENGTH:
            return SHORT_BUFFER;
        case FRAME:
            break;
        }
    }
    c->test_left = c->interval;
    f->id = c->transmit;
    *given = true;
    return GOOD;
}

static enum answer connection_due(struct connection *c, const uint8_t *message, size_t len, bool *given,
                                  struct frame *f)
{
    *given = false;
    switch (c->phase) {
    case CLOSED:
        if (!c->leaving)
            return GOOD;
        f->id = c->transmit;
        write_byte(&f->payload, 0xA8);
        *given = true;
        make_closed(c);
        return GOOD;
    case REQUESTING:
    case AGREEING:
        if (!c->due)
            return GOOD;
        if (c->phase == REQUESTING) {
            f->id = 0x200;
            write_request(&f->payload, c->settings.unit, c->settings.receive);
        } else {
            struct fields own = {c->settings.block, c->settings.t1, c->settings.t3};
            f->id = c->transmit;
            write_fields(&f->payload, 0xA0, &own);
        }
        c->due = false;
        c->asked = true;
        c->wait = c->settings.reply;
        *given = true;
        return GOOD;
    case OPEN:
        break;
    }
    return open_due(c, message, len, given, f);
}

static enum answer connection_send(struct connection *c, size_t len)
{
    if (c->phase != OPEN)
        return NOT_DUE;
    return sender_offer(&c->sender, len);
}

/* The message is the first m->length bytes of the lent buffer. */
static enum answer connection_take(struct connection *c, size_t room, struct message *m)
{
    *m = none;
    if (c->phase != OPEN)
        return NOT_DUE;
    if (c->receiver.complete.length == 0)
        return BUSY;
    if (room < c->receiver.complete.length)
        return SHORT_BUFFER;
    *m = c->receiver.complete;
    c->receiver.complete = none;
    return GOOD;
}

/* ---- the work ---- */

/* The block size of both ends, whatever the default is; the time between two data frames; the turns of a run; the frames of
 * the longest message; and the runs that a message may take. */
enum { BLOCK = 15, GAP = 50, TURNS = BLOCK + 1, FRAMES = (LONGEST + 8) / PIECE, RUNS = 2 * (FRAMES / BLOCK + 1) };

struct tally {
    uint64_t messages, frames, bytes, sum, checksum;
};

static inline void count(struct tally *t, const struct payload *p)
{
    t->frames++;
    t->bytes += p->len;
    uint64_t sum = t->sum, checksum = t->checksum;
    for (size_t i = 0; i < p->len; i++) {
        sum += p->bytes[i];
        checksum += sum;
    }
    t->sum = sum;
    t->checksum = checksum;
}

/* An end with the default settings but for its receive ID and its block size, as the A1 of a peer with the same settings
 * leaves it. */
static void make_end(struct connection *c, uint16_t receive, uint16_t transmit)
{
    struct fields peer = {BLOCK, defaults.t1, defaults.t3};
    make_closed(c);
    c->settings.receive = receive;
    c->settings.block = BLOCK;
    c->transmit = transmit;
    make_open(c, &peer);
}

static uint8_t message[LONGEST], buffer[LONGEST];

/* What the one end has due arrives at the other, frame by frame, until nothing is due, the message is done, or an end is
 * not open; the answer is whether it is done. Before each frame the time between two data frames passes. */
static bool run(struct connection *from, struct connection *to, struct tally *tally, size_t len)
{
    if (from->phase != OPEN || to->phase != OPEN)
        return false;
    for (unsigned left = TURNS; left > 0; left--) {
        struct frame f;
        bool given;
        connection_elapse(from, GAP);
        if (from->phase != OPEN)
            return false;
        connection_due(from, message, len, &given, &f);
        if (from->phase != OPEN || !given)
            return false;
        bool padded;
        bool done = connection_arrive(to, f.id, f.payload.bytes, f.payload.len, buffer, sizeof buffer, &padded) == DONE;
        if (to->phase != OPEN)
            return false;
        count(tally, &f.payload);
        if (done)
            return true;
    }
    return false;
}

/* A run of frames there, a run of Acks back, and so on until the message is done; the answer is whether it was handed out
 * as it was sent. */
static bool one_way(struct connection *near, struct connection *far, struct tally *tally, size_t len, uint8_t step)
{
    uint8_t b = (uint8_t)len;
    for (size_t i = 0; i < LONGEST; i++, b += step)
        message[i] = b;
    connection_send(near, len);
    struct connection *from = near, *to = far;
    bool done = false;
    for (unsigned left = RUNS; left > 0 && !done; left--) {
        done = run(from, to, tally, from == near ? len : 0);
        struct connection *other = to;
        to = from;
        from = other;
    }
    struct message taken;
    connection_take(far, sizeof buffer, &taken);
    tally->messages++;
    return done && taken.length == len && taken.flags == 0 && memcmp(buffer, message, len) == 0;
}

/* The number of rounds: 1 for no input, and 0 for what is no such number. */
static unsigned long read_rounds(void)
{
    char text[4096];
    size_t n = fread(text, 1, sizeof text - 1, stdin);
    text[n] = 0;
    if (n == 0)
        return 1;
    size_t digits = strspn(text, "0123456789");
    if (digits == 0 || digits > 7 || (text[digits] && strcmp(text + digits, "\n") != 0))
        return 0;
    unsigned long rounds = strtoul(text, NULL, 10);
    return rounds <= 1000000 ? rounds : 0;
}

int main(void)
{
    unsigned long rounds = read_rounds();
    if (rounds == 0) {
        puts("error: standard input is not a number of rounds from 1 to 1000000");
        return 0;
    }
    struct connection one, other;
    struct tally tally = {0};
    make_end(&one, 0x300, 0x740);
    make_end(&other, 0x740, 0x300);
    for (; rounds > 0; rounds--)
        for (size_t len = 1; len <= LONGEST; len++)
            if (!one_way(&one, &other, &tally, len, 3) || !one_way(&other, &one, &tally, len, 5)) {
                puts("error: a message was not handed out as it was sent");
                return 0;
            }
    printf("messages %llu\nframes %llu\nbytes %llu\nchecksum %llu\n", (unsigned long long)tally.messages,
           (unsigned long long)tally.frames, (unsigned long long)tally.bytes, (unsigned long long)tally.checksum);
    return 0;
}
