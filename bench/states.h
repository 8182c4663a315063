/* The state of a seed: DATA or I-DATA; 1, 32 or 1,024 streams; every option; nothing, 5,000 or 32,767 messages outstanding, with limits of retransmissions or without,
 * none, each, or each second or 64th of them abandoned, some acknowledged by a SACK with gaps; nothing, 5,000 or 32,767 chunks received: whole messages behind a gap
 * or between gaps, fragments of one message, first fragments of many; resets that were asked for. Or data channels of the peer's over the endpoint: one or many,
 * with thresholds and messages queued, some closing. */

static uint64_t random_state;

static uint32_t below(uint32_t n) {
    random_state ^= random_state << 13, random_state ^= random_state >> 7, random_state ^= random_state << 17;
    return (uint32_t)((random_state >> 11) % n);
}
static uint32_t one_of(const uint32_t *list, size_t many) { return list[below((uint32_t)many)]; }
#define ONE_OF(...) one_of((const uint32_t[]){ __VA_ARGS__ }, sizeof(uint32_t[]){ __VA_ARGS__ } / sizeof(uint32_t))

static bool over_channels;
static struct sctp_channels channels;
static uint32_t streams, outstanding, received, kept, acknowledged, payload_id;

/* the chunk with this TSN of what was received before: its kind is `kept` */
static bool put_kept(uint32_t tsn) {
    switch (kept) {
    case 1: return put_data(tsn, tsn % streams, tsn / streams, 0, 3, 1);          /* whole, behind the gap at TSN 1 */
    case 2: return put_data(tsn, 0, tsn - 1, 0, 3, 1);                            /* whole, on one stream, for which the first is missing */
    case 3: return put_data(2 * tsn, 2 * tsn % streams, 2 * tsn, 0, 7, 1);        /* unordered, between gaps */
    case 4: return put_data(tsn, 0, 0, tsn - 2, tsn == 2 ? 2 : 0, 1);             /* fragments of one message */
    case 5: return put_data(2 * tsn, 0, 0, 2 * tsn - 2, tsn == 1 ? 2 : 0, 1);     /* the same between gaps */
    case 6: return put_data(tsn, tsn % streams, tsn / streams, 0, 2, 1);          /* first fragments of many messages */
    case 7: return put_data(tsn, tsn % streams, tsn, 0, 6, 1);                    /* the same, unordered */
    case 8: return put_data(2 * tsn, tsn % streams, tsn / streams, 0, 2, 1);      /* first fragments between gaps */
    default: return put_data(WINDOW - tsn, 0, 0, WINDOW - tsn, 0, 1);             /* fragments, backwards */
    }
}

static void receive(void) {
    uint32_t most = kept == 3 || kept == 5 || kept == 8 ? received / 2 : received;
    begin();
    for (uint32_t tsn = 2; tsn < most; tsn++) {
        if (put_kept(tsn)) continue;
        hear(), begin(), put_kept(tsn);
    }
    hear();
}

static void send_window(bool controlled) {
    uint32_t step = ONE_OF(0, 0, 1, 64, 2), fate;
    int limit = (int)ONE_OF(0, 1, 3, 100) - 1;
    if (below(4)) acknowledged = fill_outstanding(outstanding, streams, controlled, limit);
    else send_messages(outstanding, streams, 3000, limit);
    if (step) for (uint64_t i = 1; i <= outstanding; i++) if (i % step == 0) sctp_endpoint_abandon(&end, i, &fate);
    send_all();
    if (below(3) == 0) begin(), put_sack(acknowledged + below(2) * outstanding / 2, below(368), 1 + below(88), below(88), below(9)), hear(), send_all();
}

/* ---- data channels */

static void hand_to_channels(void) { sctp_channels_handle_packet(&channels, now, packet, length, &own, answer, sizeof answer, &verdict); }

static void take_events(void) {
    struct sctp_channel_event event = { 0 };
    static uint8_t bytes[SCTP_EP_LONGEST_MESSAGE];
    while (sctp_channels_next_event(&channels, &event, bytes, sizeof bytes) == SCTP_EP_OK);
}

static bool put_open(uint32_t at) {
    uint8_t value[24] = { 0 };
    put32(value, at + 1), put16(value + 4, 2 * at + 1), put32(value + 8, 50), value[12] = 3;
    return put(DATA, WHOLE, value, sizeof value);
}

static void send_polled(void) {
    struct sctp_endpoint_sent sent = { 0 };
    while (sctp_channels_poll_transmit(&channels, now, room, sizeof room, tickets, SCTP_EP_MOST_TICKETS, &sent) == SCTP_EP_OK && sent.length > 0);
}

/* Channels of the peer's, on odd streams from 1 on: what is done with each is the seed's choice. */
static void make_channels(void) {
    uint32_t many = ONE_OF(1, 32, 510, 510), threshold = ONE_OF(0, 1, 1), queued = ONE_OF(0, 510, 1024), closed = ONE_OF(0, 0, 1, 2);
    uint64_t ticket;
    if (sctp_channels_over(&channels, &end, true)) exit(1);
    begin();
    for (uint32_t i = 0; i < many; i++) {
        if (put_open(i)) continue;
        finish(), hand_to_channels(), take_events(), begin(), put_open(i);
    }
    finish(), hand_to_channels(), take_events(), send_polled(), received = many;
    for (uint32_t i = 0; threshold && i < many; i++) sctp_channels_set_buffered_amount_low_threshold(&channels, (uint16_t)(2 * i + 1), 0);
    for (uint32_t i = 0; i < queued; i++) sctp_channels_send(&channels, now, (uint16_t)(2 * (i % many) + 1), false, room, 1, &ticket);
    for (uint32_t i = 0; closed && i < many; i += closed) sctp_channels_close(&channels, (uint16_t)(2 * i + 1));
    if (below(2)) send_polled();
    payload_id = ONE_OF(53, 53, 50, 57);
}

/* ---- the state of a seed */

static void make_state(uint64_t seed) {
    struct sctp_endpoint_config config = SCTP_ENDPOINT_CONFIG(OWN_PORT, PEER_PORT);
    random_state = seed * 0x9e3779b97f4a7c15u + 1, acknowledged = payload_id = 0;
    for (int i = 0; i < 8; i++) below(2);
    over_channels = below(4) == 0, interleaved = !over_channels && below(2), streams = over_channels ? 1024 : ONE_OF(1, 32, 32, 1024);
    outstanding = over_channels ? 0 : ONE_OF(0, 0, 5000, WINDOW), received = over_channels ? 0 : ONE_OF(0, 0, 5000, WINDOW), kept = 1 + below(9);
    config.packet_limit = LIMIT, config.fragment = 1400, config.outbound = config.inbound = (uint16_t)streams, config.buffer = 16000000;
    config.interleave = interleaved, config.delay = below(4) == 0, config.flags = SCTP_EP_STREAM_RESET | ONE_OF(0, 1, 2);
    if (sctp_endpoint_opened(&end, &config, &own, &peer)) exit(1);
    if (over_channels) make_channels();
    if (received && !over_channels) receive();
    if (outstanding) send_window(config.flags & SCTP_EP_CONGESTION_CONTROL);
    if (!over_channels && below(3) == 0) for (uint32_t i = 0; i < streams; i++) sctp_endpoint_reset(&end, (uint16_t)i);
    if (!over_channels) send_all();
}

static void free_state(void) {
    if (over_channels) sctp_channels_free(&channels);
    else sctp_endpoint_free(&end);
}
