/* An endpoint of the library for C. */
#include "links.h"
#include "sctp_endpoint.h"
#include <stdlib.h>
#include <string.h>

static void must(uint32_t result, const char *what) { need(result == SCTP_EP_OK, what); }
static struct sctp_endpoint *handle(struct side *side) { return side->state; }

/* Numbers that are the same in each run of a seed: no source of real random values. */
static struct sctp_endpoint_draw draw(void) {
    struct sctp_endpoint_draw made = { (uint32_t)chance() | 1, (uint32_t)chance(), 0 };
    return made;
}

static struct sctp_endpoint_status status(struct side *side) {
    struct sctp_endpoint_status now = { 0 };
    must(sctp_endpoint_status(handle(side), &now), "status");
    return now;
}

static struct sctp_endpoint_config configuration(const struct side *side) {
    struct sctp_endpoint_config config = SCTP_ENDPOINT_CONFIG(own_port(side), peer_port(side));
    int fragment = ((int)settings.packet - 32) / 4 * 4;
    config.packet_limit = (uint16_t)settings.packet, config.fragment = (uint16_t)(fragment < 1400 ? fragment : 1400);
    config.buffer = (uint32_t)settings.buffer, config.outbound = config.inbound = 1;
    config.interleave = settings.interleave != 0, config.partial = settings.partial != 0, config.delay = settings.delayed != 0;
    config.flags = (uint32_t)settings.flags, config.rto_min = (uint32_t)settings.rto_min;
    return config;
}

static void begin(struct side *side) {
    struct sctp_endpoint_config config = configuration(side);
    side->state = calloc(1, sizeof(struct sctp_endpoint));
    need(side->state != NULL, "memory");
    if (side->sends) {
        struct sctp_endpoint_draw drawn = draw();
        must(sctp_endpoint_caller(handle(side), &config), "caller");
        must(sctp_endpoint_connect(handle(side), now_ms(), &drawn), "connect");
    } else {
        struct sctp_endpoint_key key = { { 0 }, { 0 } };
        for (size_t at = 0; at < sizeof key.bytes; at++) key.bytes[at] = (uint8_t)chance();
        must(sctp_endpoint_listener(handle(side), &config, &key), "listener");
    }
}

static void hear(struct side *side, const uint8_t *packet, size_t length) {
    static uint8_t answer[LONGEST_PACKET];
    struct sctp_endpoint_verdict verdict = { 0 };
    struct sctp_endpoint_draw drawn = draw();
    must(sctp_endpoint_handle_packet(handle(side), now_ms(), packet, length, &drawn, answer, sizeof answer, &verdict), "handle_packet");
    if (verdict.verdict == SCTP_EP_ANSWER) transmit(side, answer, verdict.length);
}

static void take(struct side *side) {
    static uint8_t message[SCTP_EP_LONGEST_MESSAGE];
    struct sctp_endpoint_message info = { 0 };
    while (sctp_endpoint_take(handle(side), 0, &info, message, sizeof message) == SCTP_EP_OK) arrived(side, message, info.length);
}

static void flush(struct side *side) {
    static uint8_t packet[LONGEST_PACKET];
    static uint64_t tickets[SCTP_EP_MOST_TICKETS];
    struct sctp_endpoint_sent sent = { 0 };
    do {
        must(sctp_endpoint_poll_transmit(handle(side), now_ms(), packet, sizeof packet, tickets, SCTP_EP_MOST_TICKETS, &sent), "poll_transmit");
        if (sent.length > 0) transmit(side, packet, sent.length);
    } while (sent.length > 0);
    struct sctp_endpoint_status now = status(side);
    side->is_open = side->is_open || now.state == SCTP_EP_ESTABLISHED;
    side->has_ended = now.ended != SCTP_EP_NOT_ENDED;
}

static bool say(struct side *side, const uint8_t *message, size_t length) {
    uint64_t ticket;
    return sctp_endpoint_send(handle(side), 0, true, PAYLOAD_ID, message, length, SCTP_EP_NEVER, &ticket) == SCTP_EP_OK;
}

static void tick(struct side *side, uint64_t ms) {
    if (status(side).next_moment > ms) return;
    must(sctp_endpoint_on_moment(handle(side), ms), "on_moment");
    if (settings.read == 0) take(side);
    flush(side);
}

static void report(struct side *side) {
    struct sctp_endpoint_counts counts = { 0 };
    struct sctp_endpoint_path path = { 0 };
    must(sctp_endpoint_counts(handle(side), &counts), "counts");
    must(sctp_endpoint_path(handle(side), &path), "path");
    printf(", \"by_timer\": %lu, \"fast\": %lu, \"cwnd\": %u, \"rto\": %lu", (unsigned long)counts.timer_retransmitted,
           (unsigned long)counts.fast_retransmitted, path.cwnd, (unsigned long)path.rto);
}

const struct kind ours = { "ours", begin, hear, take, flush, say, tick, report };
