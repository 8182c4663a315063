/* Looks for dear packets. `dearest search SECONDS SEED` makes states and packets from seeds, from this one on, and prints each packet of at most 1,500 bytes
 * that took an endpoint longer (processor time) than any of its kind: a kind is what chunks it has, and whether there are data channels. `dearest SEED heard` makes
 * the state and the packet of a seed and processes it, in `counted`, with all events of channels that follow; `dearest SEED show` prints them.
 *
 * A seed chooses the state (states.h). Then it chooses one to three chunks, and how their numbers go on from one to the next, and repeats them as long as they
 * fit. */
#define _DEFAULT_SOURCE /* clock_gettime, also with -std=c11 */
#include "bytes.h"
#include "states.h"
#include <time.h>

enum { KINDS = 1024 };

__attribute__((noinline)) void counted(void) {
    if (over_channels) hand_to_channels(), take_events();
    else hand_in();
    settle();
}

/* ---- packets */

struct rule { uint32_t kind, from, step, stream, many, flags, bytes; };

static const uint8_t kinds[] = { DATA, DATA, DATA, SACK, SACK, HEARTBEAT, ERROR, SHUTDOWN, COOKIE_ECHO, RE_CONFIG, RE_CONFIG, FORWARD, FORWARD, 63, 127, 191, 255 };

static struct rule make_rule(void) {
    struct rule r = { kinds[below(sizeof kinds)], 0, ONE_OF(0, 1, 1, 1, 2, 3, -1), below(4), ONE_OF(0, 0, 1, 2, 32, 365, below(365)), below(8), ONE_OF(1, 1, 1, 1, 1200) };
    r.from = ONE_OF(0, 1, 1, 2, 16384, 16385, WINDOW - 1, WINDOW, WINDOW + 1, received + 1, below(WINDOW));
    return r;
}

static bool put_config(struct rule r, uint32_t at) {
    uint8_t value[LIMIT] = { 0 };
    size_t many = r.many > 600 ? 600 : r.many, all;
    switch (r.flags) {
    case 0: case 1: case 2: case 3: /* an outgoing reset, of all streams or of those listed */
        put16(value, 13), put32(value + 4, at + 1), put32(value + 8, r.flags & 1 ? 0 : 1), put32(value + 12, r.from);
        for (size_t i = 0; i < many; i++) put16(value + 16 + 2 * i, (uint32_t)(i * (r.stream + 1)) % streams);
        all = 16 + 2 * many;
        break;
    case 4: /* an incoming one */
        put16(value, 14), put32(value + 4, at + 1);
        for (size_t i = 0; i < many; i++) put16(value + 8 + 2 * i, (uint32_t)i % streams);
        all = 8 + 2 * many;
        break;
    case 5: put16(value, 15), put32(value + 4, at + 1), all = 8; break;
    case 6: put16(value, 16), put32(value + 4, r.step), put32(value + 8, r.bytes % 7), all = 12; break; /* a response */
    default: put16(value, 17), put32(value + 4, at + 1), put16(value + 8, 1), all = 12;
    }
    put16(value + 2, (uint32_t)all);
    return put(RE_CONFIG, 0, value, all);
}

/* What a channel may get: a content, an OPEN or an empty message. */
static bool put_content(uint32_t tsn, uint32_t stream, struct rule r) {
    uint8_t value[24] = { 0 };
    put32(value, tsn), put16(value + 4, stream), put16(value + 6, r.many), put32(value + 8, payload_id), value[12] = 3;
    return put(DATA, (uint8_t)r.flags, value, payload_id == 50 ? sizeof value : 13);
}

static bool put_chunk(struct rule r, uint32_t at) {
    uint8_t value[LIMIT] = { 0 };
    uint32_t now = r.from + at * r.step, stream = r.stream == 0 ? 0 : r.stream == 1 ? now % streams : r.stream == 2 ? at % streams : streams - 1;
    size_t before = length;
    switch (r.kind) {
    case DATA: return payload_id ? put_content(now, stream, r) : put_data(now, stream, r.many == 0 ? now / streams : r.many == 1 ? now : at, r.many, (uint8_t)r.flags, r.bytes);
    case SACK:
        if (at % 2 && r.bytes > 1) put_sack(acknowledged, 0, 0, 0, 0);
        else put_sack(acknowledged + (r.from > WINDOW || r.flags < 5 ? 0 : now), r.many > 368 ? 368 : r.many, r.many > 1 ? WINDOW / r.many : 0, r.many > 1 ? WINDOW / r.many - r.flags % 3 : 32764, r.stream * at);
        return length > before;
    case SHUTDOWN: put32(value, r.flags < 4 ? 0 : now); return put(SHUTDOWN, 0, value, 4);
    case FORWARD:
        put32(value, now);
        for (uint32_t i = 0; i < r.many; i++) {
            if (interleaved) put16(value + 4 + 8 * (i % 180), i % streams), put16(value + 6 + 8 * (i % 180), r.flags & 1), put32(value + 8 + 8 * (i % 180), r.bytes > 1 ? i : 40000);
            else put16(value + 4 + 4 * i, i % streams), put16(value + 6 + 4 * i, r.bytes > 1 ? i : 30000);
        }
        return put(interleaved ? I_FORWARD : FORWARD, 0, value, 4 + (interleaved ? 8 * (r.many % 180) : 4 * r.many));
    case RE_CONFIG: return put_config(r, at);
    case HEARTBEAT: put16(value, 1), put16(value + 2, r.bytes > 1 ? 1204 : 4); return put(HEARTBEAT, 0, value, r.bytes > 1 ? 1204 : 4);
    case ERROR: put16(value, 200), put16(value + 2, 4); return put(ERROR, 0, value, 4);
    case COOKIE_ECHO: return put(COOKIE_ECHO, 0, value, r.bytes > 1 ? 1480 : 12);
    default: return put((uint8_t)r.kind, 0, value, r.bytes > 1 ? 1200 : 0);
    }
}

/* the packet of a seed: its kind, as the kinds of its chunks */
static uint32_t make_packet(void) {
    static struct rule rules[3];
    uint32_t many = ONE_OF(1, 1, 1, 2, 2, 3), times = ONE_OF(1, 400, 400, 400), kind = over_channels ? 512 : 0;
    for (uint32_t i = 0; i < many; i++) rules[i] = make_rule(), kind |= (rules[i].kind == 0 ? 1 : rules[i].kind == SACK ? 2 : rules[i].kind == FORWARD ? 4 : rules[i].kind == RE_CONFIG ? 8
        : rules[i].kind == SHUTDOWN ? 16 : rules[i].kind == HEARTBEAT ? 32 : rules[i].kind == COOKIE_ECHO ? 64 : rules[i].kind == ERROR ? 128 : 256);
    begin();
    for (uint32_t at = 0; at < times; at++) {
        size_t before = length;
        for (uint32_t i = 0; i < many; i++) put_chunk(rules[i], at);
        if (length == before) break;
    }
    finish();
    return kind;
}

static double nanoseconds(void) {
    struct timespec t;
    clock_gettime(CLOCK_THREAD_CPUTIME_ID, &t);
    return (double)t.tv_sec * 1e9 + (double)t.tv_nsec;
}

static void show_kind(uint32_t kind) {
    static const char *const names[] = { "DATA", "SACK", "FORWARD", "RE-CONFIG", "SHUTDOWN", "HEARTBEAT", "COOKIE-ECHO", "ERROR", "unknown", "over channels" };
    for (int i = 0; i < 10; i++) if (kind >> i & 1) printf("%s ", names[i]);
}

static void search(double seconds, uint64_t seed) {
    static double best[KINDS];
    double start = nanoseconds();
    unsigned long tried = 0;
    for (; nanoseconds() - start < seconds * 1e9; seed++, tried++) {
        make_state(seed);
        uint32_t kind = make_packet();
        double from = nanoseconds();
        counted();
        double took = nanoseconds() - from;
        if (took > best[kind] * 1.02) {
            best[kind] = took, printf("%.0f ns, seed %lu: ", took, (unsigned long)seed), show_kind(kind), puts("");
            fflush(stdout);
        }
        free_state();
    }
    printf("%lu tried\n", tried);
}

static void show_packet(void) {
    printf("%s, %u streams, %u outstanding, %u received in the way %u:\n", interleaved ? "I-DATA" : "DATA", streams, outstanding, received, kept);
    for (size_t i = 0; i < length; i++) printf("%02x", packet[i]);
    puts("");
}

int main(int argc, char **argv) {
    if (argc < 3) return 2;
    if (!strcmp(argv[1], "search")) return search(atof(argv[2]), argc > 3 ? strtoull(argv[3], 0, 10) : 1), 0;
    make_state(strtoull(argv[1], 0, 10)), make_packet();
    if (!strcmp(argv[2], "heard")) counted();
    if (!strcmp(argv[2], "show")) show_packet();
    return 0;
}
