/* What a call costs an endpoint that keeps n of something: `growth list` prints the cases, each with what is called, what n is and n; `growth CASE N` makes the
 * state and calls as often as the case says, in `counted`. A call that costs its own work alone takes the same at n, 2 n and 4 n. */
#include "bytes.h"

enum { CALLS = 20, STREAMS = 32, FAST = SCTP_EP_FAST_RETRANSMIT, LATE = 100, LATER = 900 };

static uint8_t packets[CALLS][LIMIT + 8];
static size_t lengths[CALLS], many;
static int made;

static void keep_packet(void) { finish(), memcpy(packets[made], packet, length), lengths[made++] = length; }

static void open_with(uint32_t streams, uint32_t flags) {
    struct sctp_endpoint_config config = SCTP_ENDPOINT_CONFIG(OWN_PORT, PEER_PORT);
    config.packet_limit = LIMIT, config.fragment = 1400, config.outbound = config.inbound = (uint16_t)streams, config.buffer = 16000000;
    config.interleave = false, config.flags = flags;
    if (sctp_endpoint_opened(&end, &config, &own, &peer)) exit(1);
}

/* ---- states of a sender: many messages are outstanding, or wait */

static void queue_until(uint64_t until, size_t size, bool sends) {
    static const uint8_t text[64];
    uint64_t ticket;
    for (size_t i = 0; i < many; i++) {
        if (sctp_endpoint_send(&end, (uint16_t)(i % STREAMS), true, 0, text, size, until, &ticket)) exit(1);
        if (sends && i % 50 == 49) send_all();
    }
    if (sends) send_all();
}

static void outstanding(void) { open_with(STREAMS, 0), queue_until(SCTP_EP_NEVER, 1, true); }
static void outstanding_until(void) { open_with(STREAMS, 0), queue_until(LATE, 1, true); }
static void waiting(void) { open_with(STREAMS, 0), queue_until(SCTP_EP_NEVER, 64, false); }
static void one_late(void) {
    static const uint8_t text[1];
    uint64_t ticket;
    size_t step = many / CALLS;
    open_with(STREAMS, 0);
    for (size_t i = 0; i < many; i++) {
        bool late = i % step == step / 2 && i / step < CALLS;
        if (sctp_endpoint_send(&end, (uint16_t)(i % STREAMS), true, 0, text, 1, late ? LATE + i / step : LATER, &ticket)) exit(1);
        if (i % 50 == 49) send_all();
    }
    send_all();
}
static void marked(void) { outstanding(), now = 2000, sctp_endpoint_on_moment(&end, now); }
static void sack_of(uint32_t blocks, uint32_t apart, uint32_t wide, uint32_t shift) { begin(), put_sack(0, blocks, apart, wide, shift), keep_packet(); }
static void sacks_same(void) { outstanding(), begin(), put_sack(0, 1, 0, 10, 1), hear(); for (int i = 0; i < CALLS; i++) sack_of(1, 0, 10, 1); }
static void sacks_blocks(void) {
    uint32_t apart = (uint32_t)many / 65;
    outstanding(), begin(), put_sack(0, 64, apart, apart / 2, 0), hear();
    for (uint32_t i = 0; i < CALLS; i++) sack_of(64, apart, apart / 2, 1 - i % 2);
}
static void sacks_missing(void) {
    open_with(STREAMS, FAST), queue_until(SCTP_EP_NEVER, 1, true);
    begin(), put_sack(0, 1, 0, (uint32_t)many - 2 * CALLS - 1, 0), hear();
    for (uint32_t i = 0; i < CALLS; i++) sack_of(1, 0, (uint32_t)many - 2 * CALLS + i, 0);
}

/* ---- states of a receiver: many chunks are kept, or wait */

static void receive(bool (*one)(uint32_t)) {
    begin();
    for (uint32_t i = 0; i < many; i++) {
        if (one(i)) continue;
        hear(), begin(), one(i);
    }
    hear(), send_all();
}

static bool between(uint32_t i) { return put_data(2 * i + 2, i % STREAMS, 0, 0, WHOLE | UNORDERED, 1); }
static bool fragment(uint32_t i) { return put_data(2 * i + 2, 0, 0, 0, 0, 1); }
static bool in_order(uint32_t i) { return put_data(i + 1, i % STREAMS, i / STREAMS, 0, WHOLE, 1); }
static bool begun(uint32_t i) { return put_data(2 * i + 1, i, 0, 0, BEGIN, 1); }
static uint32_t place(uint32_t i) { return 2 * (i + 1) * ((uint32_t)many / (CALLS + 1)) + 1; }

static void gaps(void) { open_with(STREAMS, 0), receive(between); for (uint32_t i = 0; i < CALLS; i++) begin(), put_data(place(i), 0, 0, 0, WHOLE | UNORDERED, 1), keep_packet(); }
static void chains(void) { open_with(1, 0), receive(fragment); for (uint32_t i = 0; i < CALLS; i++) begin(), put_data(place(i), 0, 0, 0, 0, 1), keep_packet(); }
static void ready(void) { open_with(STREAMS, 0), receive(in_order); }
static void arriving(void) { ready(); for (uint32_t i = 0; i < CALLS; i++) begin(), in_order((uint32_t)many + i), keep_packet(); }
static void entries(void) {
    uint8_t value[LIMIT] = { 0 };
    open_with((uint32_t)many, 0), receive(begun), begin(), put32(value, 2 * (uint32_t)many);
    for (uint32_t i = 0; i < many; i++) put16(value + 4 + 4 * i, i);
    put(FORWARD, 0, value, 4 + 4 * many), keep_packet();
}

/* ---- calls */

static void hand_in_all(void) { for (int i = 0; i < made; i++) sctp_endpoint_handle_packet(&end, now, packets[i], lengths[i], &own, answer, sizeof answer, &verdict); }
static void pass_before(void) { for (int i = 0; i < CALLS; i++) sctp_endpoint_on_moment(&end, 1); }
static void pass_late(void) { sctp_endpoint_on_moment(&end, LATE); }
static void pass_each(void) { for (uint64_t i = 0; i < CALLS; i++) sctp_endpoint_on_moment(&end, LATE + i); }
static uint64_t some_ticket(uint64_t i) { return 1 + i * 7919 % many; }
static void abandon(void) { uint32_t fate; for (uint64_t i = 0; i < CALLS; i++) sctp_endpoint_abandon(&end, some_ticket(i), &fate); }
static void ask(void) { bool is = false; for (uint64_t i = 0; i < CALLS; i++) sctp_endpoint_acknowledged(&end, some_ticket(i), &is); }
static void poll_one(void) {
    struct sctp_endpoint_sent sent = { 0 };
    sctp_endpoint_poll_transmit(&end, now, room, sizeof room, tickets, SCTP_EP_MOST_TICKETS, &sent);
}
static void poll_eight(void) { for (int i = 0; i < 8; i++) poll_one(); }
static void take(void) {
    struct sctp_endpoint_message message = { 0 };
    for (uint16_t i = 0; i < CALLS; i++) sctp_endpoint_take(&end, i, &message, room, sizeof room);
}

/* ---- the cases: what is called, what n counts, the least n, how often; 0: once for each of n */

static const struct { const char *name, *what, *of; int n, calls; void (*make)(void), (*call)(void); } cases[] = {
    { "early", "`on_moment`, nothing late", "messages with a lifetime outstanding", 1024, CALLS, outstanding_until, pass_before },
    { "one-late", "`on_moment`, one message late", "outstanding", 1024, CALLS, one_late, pass_each },
    { "all-late", "`on_moment`, all late: a message", "outstanding", 1024, 0, outstanding_until, pass_late },
    { "abandon", "`abandon`, of one", "outstanding", 1024, CALLS, outstanding, abandon },
    { "withdraw", "`abandon`, of one", "messages that wait", 250, CALLS, waiting, abandon },
    { "acknowledged", "`acknowledged`, of one", "outstanding", 1024, CALLS, outstanding, ask },
    { "poll", "`poll_transmit`, a packet of messages of 64 bytes", "messages that wait", 250, 8, waiting, poll_eight },
    { "again", "`poll_transmit`, a packet of retransmissions of a byte", "outstanding, all marked", 8000, 8, marked, poll_eight },
    { "same", "a SACK that changes nothing", "outstanding", 8000, CALLS, sacks_same, hand_in_all },
    { "blocks", "a SACK of 64 blocks, 128 messages change", "outstanding", 8000, CALLS, sacks_blocks, hand_in_all },
    { "missing", "a SACK that misses one, with fast retransmission", "outstanding", 1024, CALLS, sacks_missing, hand_in_all },
    { "arriving", "a DATA in order", "messages that wait for `take`", 4000, CALLS, arriving, hand_in_all },
    { "take", "`take`", "messages that wait for `take`", 4000, CALLS, ready, take },
    { "gaps", "a DATA that closes a gap", "gaps", 2000, CALLS, gaps, hand_in_all },
    { "chains", "a fragment between two others", "fragments of its message between gaps", 2000, CALLS, chains, hand_in_all },
    { "entries", "a FORWARD-TSN: an entry", "streams with a message in part", 90, 0, entries, hand_in_all },
};
enum { CASES = sizeof cases / sizeof cases[0] };

static void (*call)(void);
__attribute__((noinline)) void counted(void) { call(); }

int main(int argc, char **argv) {
    if (argc == 2 && !strcmp(argv[1], "list")) for (int i = 0; i < CASES; i++) printf("%s\t%s\t%s\t%d\t%d\n", cases[i].name, cases[i].what, cases[i].of, cases[i].n, cases[i].calls);
    for (int i = 0; argc == 3 && i < CASES; i++) {
        if (strcmp(argv[1], cases[i].name)) continue;
        many = (size_t)atol(argv[2]), cases[i].make(), call = cases[i].call;
        counted();
        printf("verdict %u, reason %u, %zu outstanding\n", verdict.verdict, verdict.reason, outstanding_now());
        return 0;
    }
    return argc != 2;
}
