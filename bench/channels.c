/* What one packet costs a program with data channels, with all events that follow from it: `channels list`, `channels CASE heard` and `channels CASE none` as
 * bench/packets.c has them. The endpoint is the DTLS client, so the peer opens channels on odd streams. */
#include "bytes.h"

enum { CHANNELS = 510, LAST = 1023, QUEUE = 1024, BINARY = 53, DCEP = 50 };

static struct sctp_channels channels;
static uint32_t tsn = 1, ssn[1024];
static unsigned long events;

/* A message of the peer's more, if it fits. */
static bool put_message(uint32_t stream, uint32_t payload, const uint8_t *bytes, size_t size) {
    uint8_t value[LIMIT] = { 0 };
    put32(value, tsn), put16(value + 4, stream), put16(value + 6, ssn[stream]), put32(value + 8, payload), memcpy(value + 12, bytes, size);
    if (!put(DATA, WHOLE, value, 12 + size)) return false;
    tsn++, ssn[stream]++;
    return true;
}

static bool put_open(uint32_t stream) { return put_message(stream, DCEP, (const uint8_t[12]){ 3 }, 12); }
static void put_contents(void) { while (put_message(LAST, BINARY, (const uint8_t *)"x", 1)); }

static void take_events(void) {
    struct sctp_channel_event event = { 0 };
    while (sctp_channels_next_event(&channels, &event, room, sizeof room) == SCTP_EP_OK) events++;
}

static void hand_to_channels(void) { sctp_channels_handle_packet(&channels, now, packet, length, &own, answer, sizeof answer, &verdict); }

static void poll_all(void) {
    struct sctp_endpoint_sent sent = { 0 };
    while (sctp_channels_poll_transmit(&channels, now, room, sizeof room, tickets, SCTP_EP_MOST_TICKETS, &sent) == SCTP_EP_OK && sent.length > 0);
}

static void hear_and_take(void) { finish(), hand_to_channels(), take_events(), poll_all(); }

/* A channel of the peer's on the last stream, and so many more. */
static void open_channels(uint32_t many) {
    struct sctp_endpoint_config config = SCTP_CHANNELS_CONFIG(OWN_PORT, PEER_PORT);
    config.packet_limit = LIMIT, config.fragment = 1400, config.buffer = 16000000, config.flags = SCTP_EP_STREAM_RESET;
    if (sctp_endpoint_opened(&end, &config, &own, &peer) || sctp_channels_over(&channels, &end, true)) exit(1);
    begin(), put_open(LAST);
    for (uint32_t i = 0; i < many; i++) {
        if (put_open(2 * i + 1)) continue;
        hear_and_take(), begin(), put_open(2 * i + 1);
    }
    hear_and_take();
    begin(), put_sack(many + 1, 0, 0, 0, 0), hear_and_take(); /* each OPEN was answered by an ACK */
}

static void queue(uint16_t stream) {
    uint64_t ticket;
    if (sctp_channels_send(&channels, now, stream, false, (const uint8_t *)"x", 1, &ticket)) exit(1);
}

static void above_thresholds(void) {
    open_channels(CHANNELS);
    for (uint16_t i = 0; i < CHANNELS; i++) {
        if (sctp_channels_set_buffered_amount_low_threshold(&channels, (uint16_t)(2 * i + 1), 0)) exit(1);
        queue((uint16_t)(2 * i + 1));
    }
    for (int i = CHANNELS; i < QUEUE; i++) queue(LAST);
    begin(), put_contents();
}

static void close_all(void) {
    open_channels(CHANNELS);
    for (uint16_t i = 0; i < CHANNELS; i++) if (sctp_channels_close(&channels, (uint16_t)(2 * i + 1))) exit(1);
    poll_all();
}

static void plain(void) { open_channels(0), begin(), put_contents(); }
static void closing(void) { close_all(), begin(), put_contents(); }
static void far_apart(void) { open_channels(0), begin(), put_open(1), put_open(1021), put_contents(); }
static void far_apart_closing(void) { close_all(), begin(), put_open(1), put_open(1021), put_contents(); }
static void open_many(void) { open_channels(0), begin(); for (uint32_t i = 0; put_open(2 * i + 1); i++); }

/* The peer resets the streams of so many channels. */
static void put_resets(uint32_t many) {
    uint8_t value[LIMIT] = { 0 };
    put16(value, 13), put16(value + 2, 16 + 2 * many), put32(value + 4, 1), put32(value + 8, 0), put32(value + 12, tsn - 1);
    for (uint32_t i = 0; i < many; i++) put16(value + 16 + 2 * i, 2 * i + 1);
    put(RE_CONFIG, 0, value, 16 + 2 * many);
}
static void reset(void) { open_channels(CHANNELS), begin(), put_resets(CHANNELS); }

/* The peer resets all, its reset isn't answered in kind, and it opens each again. */
static void opened_again(void) {
    open_channels(CHANNELS), begin(), put_resets(CHANNELS), hear_and_take(), begin();
    for (uint32_t i = 0; i < CHANNELS; i++) {
        ssn[2 * i + 1] = 0;
        if (put_open(2 * i + 1)) continue;
        hear_and_take(), begin(), put_open(2 * i + 1);
    }
    hear_and_take(), begin(), put_contents();
}

static const struct { const char *name, *what, *state; void (*make)(void); } cases[] = {
    { "plain", "74 DATA for a channel", "one channel", plain },
    { "above", "the same", "510 channels above a low threshold, 1,024 messages queued", above_thresholds },
    { "closing", "the same", "510 channels closing", closing },
    { "again", "the same", "510 channels reset by the peer, and opened again before they are closed", opened_again },
    { "far", "two OPENs far apart and 71 DATA", "one channel", far_apart },
    { "far-closing", "the same", "510 channels closing", far_apart_closing },
    { "opens", "52 OPENs", "one channel", open_many },
    { "reset", "a request to reset 510 streams", "510 channels", reset },
};
enum { CASES = sizeof cases / sizeof cases[0] };

__attribute__((noinline)) void counted(void) { hand_to_channels(), take_events(), settle(); }

int main(int argc, char **argv) {
    if (argc == 2 && !strcmp(argv[1], "list")) for (int i = 0; i < CASES; i++) printf("%s\t%s\t%s\n", cases[i].name, cases[i].what, cases[i].state);
    for (int i = 0; argc == 3 && i < CASES; i++) {
        if (strcmp(argv[1], cases[i].name)) continue;
        cases[i].make(), finish(), events = 0;
        if (!strcmp(argv[2], "heard")) counted();
        printf("%zu bytes, verdict %u, reason %u, %lu events\n", length, verdict.verdict, verdict.reason, events);
        return 0;
    }
    return argc != 2;
}
