/* The messages of both directions. What a message is follows from its number, which crosses as its payload identifier. */
#include "exchange.h"
#include <stdio.h>

static struct direction {
    uint32_t sent, came;
    uint32_t due[STREAMS]; /* the least number that an ordered message of a stream may have now */
    size_t parts[MESSAGES]; /* bytes that came of it */
    bool whole[MESSAGES];
} from[2];

static uint32_t drawn(uint64_t *from_here, uint32_t below) {
    *from_here = *from_here * 6364136223846793005u + 1442695040888963407u;
    return (uint32_t)(((*from_here >> 32) * below) >> 32);
}

/* Whether it may be given up. Under I-DATA usrsctp takes unordered ones of ours for ordered ones, and with one of its own that has many fragments
 * it gives up others. */
static bool may_be_mortal(unsigned end, struct message m) {
    if (!(wanted.agreed & PARTIAL)) return false;
    if (!(wanted.agreed & INTERLEAVED)) return true;
    return end == OURS ? m.ordered : m.length <= FRAGMENT;
}

/* How long it may be: a FORWARD-TSN makes usrsctp lose fragments of unordered messages that it had acknowledged. */
static size_t most(unsigned end, bool ordered) { return end == OURS && wanted.agreed == PARTIAL && !ordered ? FRAGMENT : LONGEST; }

struct message message(unsigned end, uint32_t number) {
    static const uint32_t longest[2][4] = { { 16, 1100, 3000, 20000 }, { 16, 1100, 3000, 8000 } };
    uint64_t place = number * 2654435761u + end * 40503u + 77;
    struct message m = { (uint16_t)drawn(&place, STREAMS), drawn(&place, 3) != 0, drawn(&place, 3) == 0, 1 };
    m.length += drawn(&place, longest[wanted.narrow][number % 4]);
    if (!wanted.narrow && number % 24 == 7) m.length = end == OURS ? SCTP_EP_LONGEST_MESSAGE : LONGEST;
    if (m.length > most(end, m.ordered)) m.length = most(end, m.ordered);
    m.mortal = m.mortal && may_be_mortal(end, m);
    return m;
}

static uint8_t byte(unsigned end, uint32_t number, size_t at) { return (uint8_t)(number * 31 + at * 7 + (at >> 8) + end); }

void fill(unsigned end, uint32_t number, uint8_t *bytes, size_t length) {
    for (size_t i = 0; i < length; i++) bytes[i] = byte(end, number, i);
}

uint32_t sent(unsigned end) { return from[end].sent; }
uint32_t came(unsigned end) { return from[end].came; }
bool is_whole(unsigned end, uint32_t number) { return from[end].whole[number]; }

void send_next(unsigned end, bool (*accepted)(uint32_t number)) {
    if (from[end].sent < MESSAGES && accepted(from[end].sent)) from[end].sent++;
}

/* An ordered message came: none before it on its stream is missing that may not be given up. */
static void in_order(unsigned end, uint32_t number, uint16_t stream) {
    need_of(end, number >= from[end].due[stream], "an ordered message came late", number);
    for (uint32_t before = from[end].due[stream]; before < number; before++) {
        struct message m = message(end, before);
        need_of(end, m.stream != stream || !m.ordered || m.mortal, "an ordered message was passed over", before);
    }
    from[end].due[stream] = number + 1;
}

void part(unsigned end, uint32_t number, uint16_t stream, bool ordered, const uint8_t *bytes, size_t length, bool whole) {
    struct direction *d = &from[end];
    need_of(end, number < d->sent && !d->whole[number], "a message came again, or was not sent", number);
    struct message m = message(end, number);
    need_of(end, m.stream == stream && m.ordered == ordered && length <= m.length - d->parts[number], "another stream, order or length", number);
    for (size_t i = 0; i < length; i++) need_of(end, bytes[i] == byte(end, number, d->parts[number] + i), "other bytes", number);
    d->parts[number] += length;
    if (!whole) return;
    need_of(end, d->parts[number] == m.length, "a message isn't whole", number);
    d->whole[number] = true, d->came++;
    if (ordered) in_order(end, number, stream);
}

void broken_off(unsigned end, uint32_t stream) {
    for (uint32_t number = 0; number < from[end].sent; number++) {
        struct message m = message(end, number);
        if (m.stream != stream || !m.mortal || from[end].whole[number] || from[end].parts[number] == 0) continue;
        from[end].parts[number] = m.length; /* not a byte more */
        return;
    }
    need_of(end, false, "a message was broken off that may not be given up", stream);
}

void all_came(unsigned end, bool (*given_up)(uint32_t number)) {
    for (uint32_t number = 0; number < MESSAGES; number++) {
        if (from[end].whole[number]) continue;
        need_of(end, number < from[end].sent && message(end, number).mortal, "a message is lost", number);
        need_of(end, given_up(number), "a message is lost that its end didn't give up", number);
    }
}
