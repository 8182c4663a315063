/* What one packet of at most 1,500 bytes costs an endpoint whose peer sends it: `packets list` prints the cases, each with what is in the packet and in which
 * state; `packets CASE heard` makes the state and the packet and processes it, in `counted`; `packets CASE none` doesn't process it. It prints what came of it.
 * Of channels bench/channels.c does the same. */
#include "bytes.h"

enum { FAST = SCTP_EP_FAST_RETRANSMIT, CONTROL = SCTP_EP_CONGESTION_CONTROL, RESET = SCTP_EP_STREAM_RESET };

static uint32_t streams;

static struct sctp_endpoint_config config_of(uint32_t flags) {
    struct sctp_endpoint_config config = SCTP_ENDPOINT_CONFIG(OWN_PORT, PEER_PORT);
    config.packet_limit = LIMIT, config.fragment = 1400, config.outbound = config.inbound = (uint16_t)streams, config.buffer = 16000000;
    config.interleave = interleaved, config.flags = flags;
    return config;
}

static void open_with(uint32_t flags) {
    struct sctp_endpoint_config config = config_of(flags);
    if (sctp_endpoint_opened(&end, &config, &own, &peer)) exit(1);
}

/* ---- what was received before */

/* User data from this TSN to below another one, by `one`. */
static void receive(uint32_t from, uint32_t to, bool (*one)(uint32_t)) {
    begin();
    for (uint32_t tsn = from; tsn < to; tsn++) {
        if (one(tsn)) continue;
        hear(), begin(), one(tsn);
    }
    hear(), send_all();
}

static bool in_order(uint32_t tsn) { return put_data(tsn, (tsn - 1) % streams, (tsn - 1) / streams, 0, WHOLE, 1); }
static bool behind_one(uint32_t tsn) { return put_data(tsn, 0, tsn - 1, 0, WHOLE, 1); }
static bool behind_each(uint32_t tsn) { return put_data(tsn, (tsn - 100) % streams, (tsn - 100) / streams + 1, 0, WHOLE, 1); }
static bool fragment_between(uint32_t at) { return put_data(2 * at, 0, 0, 2 * at - 2, at == 1 ? BEGIN : 0, 1); }
static bool begun(uint32_t tsn) { return put_data(tsn, (tsn - 2) % streams, (tsn - 2) / streams, 0, BEGIN, 1); }
static bool begun_between(uint32_t at) { return put_data(2 * at, at % streams, at / streams, 0, BEGIN, 1); }

/* ---- what was sent before: the last TSN before 32,767 messages of a byte */

static uint32_t fill_window(uint32_t flags, int limit) { return open_with(flags), fill_outstanding(WINDOW, streams, flags & CONTROL, limit); }

static void abandon_each(uint64_t step) {
    uint32_t fate;
    for (uint64_t ticket = 1; ticket <= WINDOW; ticket++) if (ticket % step == 0) sctp_endpoint_abandon(&end, ticket, &fate);
    send_all();
}

/* ---- packets */

static void data_in_order(void) { open_with(0), begin(); for (uint32_t tsn = 1; in_order(tsn); tsn++); }
static void data_gaps(void) {
    open_with(0), receive(1, 16384, fragment_between), begin();
    for (uint32_t at = 4000; put_data(2 * at + 1, 0, 0, 2 * at - 1, 0, 1); at++);
}
static void data_first(void) { streams = 1, open_with(0), receive(2, WINDOW, behind_one), begin(), put_data(1, 0, 0, 0, WHOLE, 1); }

static void forward(void) {
    uint8_t value[LIMIT] = { 0 };
    streams = 369, open_with(0), receive(1, 16384, begun_between), begin(), put32(value, WINDOW);
    for (uint32_t i = 0; i < 369; i++) put16(value + 4 + 4 * i, i), put16(value + 6 + 4 * i, 30000);
    put(FORWARD, 0, value, 4 + 4 * 369);
}
static void i_forward(void) {
    uint8_t value[LIMIT] = { 0 };
    interleaved = true, open_with(0), receive(2, WINDOW + 1, begun), begin(), put32(value, WINDOW);
    for (uint32_t i = 0; i < streams; i++) put16(value + 4 + 8 * i, i), put32(value + 8 + 8 * i, WINDOW);
    put(I_FORWARD, 0, value, 4 + 8 * streams);
}
static void i_forwards(void) {
    uint8_t value[12] = { 0 };
    interleaved = true, streams = 64, open_with(0), receive(100, WINDOW + 1, behind_each), begin();
    for (uint32_t at = 0; put32(value, at + 1), put16(value + 4, at % streams), put(I_FORWARD, 0, value, sizeof value); at++);
}
static void forwards(void) {
    uint8_t value[4];
    open_with(0), receive(1, 16384, begun_between), begin();
    for (uint32_t at = 1; put32(value, at), put(FORWARD, 0, value, sizeof value); at++);
}

static void put_turns(uint32_t before, uint32_t flags) {
    begin();
    while (put_sack(before, 1, 0, flags & CONTROL ? WINDOW - 3 : WINDOW - 2, 0) && put_sack(before, 0, 0, 0, 0));
}
static void turns(void) { put_turns(fill_window(0, -1), 0); }
static void turns_some(void) { fill_window(0, -1), abandon_each(64), put_turns(0, 0); }
static void turns_none(void) { fill_window(0, -1), abandon_each(1), put_turns(0, 0); }
static void turns_fast(void) { put_turns(fill_window(FAST, -1), FAST); }
static void turns_control(void) { put_turns(fill_window(CONTROL, -1), CONTROL); }
static void turns_limited(void) { put_turns(fill_window(CONTROL, 0), CONTROL); }
static void turns_all(void) { interleaved = true, put_turns(fill_window(CONTROL | RESET, 3), CONTROL); }
static void missed(void) {
    fill_window(FAST, -1), begin();
    for (uint32_t wide = 0; put_sack(0, 1, 0, wide, WINDOW - 100); wide++);
}
static void blocks(void) { fill_window(0, -1), begin(), put_sack(0, 368, 88, 44, 1); }
static void cover(void) { fill_window(0, -1), begin(), put_sack(0, 1, 0, WINDOW - 2, 0); }
static void all(void) { fill_window(0, -1), begin(), put_sack(WINDOW, 0, 0, 0, 0); }
static void all_controlled(void) { uint32_t before = fill_window(CONTROL, -1); begin(), put_sack(before + WINDOW, 0, 0, 0, 0); }
static void shut(void) {
    uint8_t value[4];
    fill_window(0, -1), begin(), put_sack(0, 365, 88, 44, 1), put32(value, WINDOW - 1), put(SHUTDOWN, 0, value, sizeof value);
}

static void resets(void) {
    uint8_t value[LIMIT] = { 0 };
    streams = 1024, open_with(RESET), begin();
    for (uint32_t at = 0; at < 92; at++) put16(value + 16 * at, 13), put16(value + 16 * at + 2, 16), put32(value + 16 * at + 4, at + 1);
    put(RE_CONFIG, 0, value, 92 * 16);
}
static void unknown(void) { open_with(0), begin(); while (put(191 | 64, 0, packet, 0)); }
static void wrong(void) { open_with(0), begin(); for (uint32_t tsn = 1; in_order(tsn); tsn++); finish(), packet[8] ^= 1; }
static void init(void) {
    struct sctp_endpoint_config config = config_of(0);
    struct sctp_endpoint_key key = { { 1 }, { 0 } };
    uint8_t value[LIMIT] = { 0 };
    if (sctp_endpoint_listener(&end, &config, &key)) exit(1);
    begin(), put32(packet + 4, 0), put32(value, PEER), put32(value + 4, 100000), put16(value + 8, 1), put16(value + 10, 1), put32(value + 12, 1);
    for (uint32_t i = 0; i < 367; i++) put16(value + 16 + 4 * i, 0xc100 + i), put16(value + 18 + 4 * i, 4);
    put(INIT, 0, value, 16 + 4 * 367);
}

/* ---- the cases */

static const struct { const char *name, *what, *state; void (*make)(void); } cases[] = {
    { "data-order", "74 DATA in order on 32 streams", "nothing received", data_in_order },
    { "data-gaps", "74 DATA that fill gaps", "16,383 fragments of one message", data_gaps },
    { "data-first", "one DATA of a byte, for which all others wait", "32,765 whole messages after it", data_first },
    { "forward", "a FORWARD-TSN of 369 entries over all", "16,383 messages in part", forward },
    { "i-forward", "an I-FORWARD-TSN over all, an entry for each of 32 streams", "32,766 messages in part", i_forward },
    { "i-forwards", "92 I-FORWARD-TSNs of an entry each, each one TSN further on", "32,668 whole messages that wait for the first of their stream, of 64", i_forwards },
    { "forwards", "186 FORWARD-TSNs without entries", "16,383 messages in part", forwards },
    { "blocks", "a SACK of 368 blocks", "32,767 outstanding", blocks },
    { "cover", "a SACK that acknowledges nearly all by a block, if nothing was", "32,767 outstanding", cover },
    { "turns", "82 SACKs that acknowledge all but the first, and nothing, by turns", "32,767 outstanding", turns },
    { "turns-some", "the same", "each 64th message abandoned", turns_some },
    { "turns-none", "the same", "each message abandoned", turns_none },
    { "turns-fast", "the same", "fast retransmission", turns_fast },
    { "turns-control", "the same", "congestion control", turns_control },
    { "turns-limited", "the same", "congestion control, messages that are sent once", turns_limited },
    { "turns-all", "the same", "I-DATA, congestion control, stream reset, messages that are sent four times at most", turns_all },
    { "missed", "74 SACKs, each of a block one TSN longer", "32,767 outstanding, fast retransmission", missed },
    { "all", "a SACK that acknowledges all", "32,767 outstanding", all },
    { "all-control", "the same", "congestion control", all_controlled },
    { "shut", "a SACK of 365 blocks and a SHUTDOWN that passes nearly all", "32,767 outstanding", shut },
    { "resets", "92 requests to reset all streams, one after the other (RE-CONFIG)", "1,024 streams, nothing received", resets },
    { "init", "an INIT of 367 unknown parameters", "a listener", init },
    { "unknown", "372 chunks of an unknown type, reported", "open", unknown },
    { "wrong", "a checksum that isn't right", "open", wrong },
};
enum { CASES = sizeof cases / sizeof cases[0] };

__attribute__((noinline)) void counted(void) { hand_in(), settle(); }

int main(int argc, char **argv) {
    if (argc == 2 && !strcmp(argv[1], "list")) for (int i = 0; i < CASES; i++) printf("%s\t%s\t%s\n", cases[i].name, cases[i].what, cases[i].state);
    for (int i = 0; argc == 3 && i < CASES; i++) {
        if (strcmp(argv[1], cases[i].name)) continue;
        streams = 32, cases[i].make();
        if (strcmp(argv[1], "wrong")) finish();
        if (!strcmp(argv[2], "heard")) counted();
        struct sctp_endpoint_status status = { 0 };
        sctp_endpoint_status(&end, &status);
        printf("%zu bytes, verdict %u, reason %u, %lu outstanding, ended %u\n", length, verdict.verdict, verdict.reason, (unsigned long)status.outstanding, status.ended);
        return 0;
    }
    return argc != 2;
}
