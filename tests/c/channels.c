/* The calls of channels do what their header says: sizes, numbers of answers, misuse, buffers that are too small. */
#include "sctp_channels.h"
#include <stdio.h>
#include <string.h>

#define HOLDS(x) do { if (!(x)) { fprintf(stderr, "line %d: %s\n", __LINE__, #x); return 1; } } while (0)

/* A struct with bytes after it that no call may write. */
#define BEFORE 0xa5
#define IN_BYTES(type) union { struct type it; uint8_t bytes[sizeof(struct type) + 64]; }
static int is_kept(const uint8_t *bytes, size_t from, size_t to) {
    for (; from < to; from++) if (bytes[from] != BEFORE) return 0;
    return 1;
}

static uint8_t room[SCTP_EP_LONGEST_PACKET], answer[SCTP_EP_LONGEST_PACKET];
static struct sctp_endpoint_draw own = { 7, 100, 0 }, peer = { 9, 500, 0 }, none = { 0, 1, 0 };

/* Carries all packets; each end is polled at least once. */
static int carry(struct sctp_channels *from, struct sctp_channels *to) {
    uint64_t tickets[SCTP_EP_MOST_TICKETS];
    struct sctp_endpoint_sent sent = { 0 };
    struct sctp_endpoint_verdict verdict = { 0 };
    for (;;) {
        HOLDS(sctp_channels_poll_transmit(from, 0, room, sizeof room, tickets, SCTP_EP_MOST_TICKETS, &sent) == SCTP_EP_OK);
        if (sent.length == 0) return 0;
        HOLDS(sctp_channels_handle_packet(to, 0, room, sent.length, &own, answer, sizeof answer, &verdict) == SCTP_EP_OK);
        HOLDS(verdict.verdict == SCTP_EP_TAKEN);
    }
}

static int exchange(struct sctp_channels *a, struct sctp_channels *b) {
    for (int turn = 0; turn < 8; turn++) HOLDS(carry(turn % 2 ? a : b, turn % 2 ? b : a) == 0);
    return 0;
}

/* Nothing is in the handle. */
static int nothing_there(struct sctp_channels *a) {
    struct sctp_channel_parameters parameters = SCTP_CHANNEL_PARAMETERS_INIT;
    struct sctp_channel_event event = { 0 };
    struct sctp_endpoint_status status = { 0 };
    struct sctp_endpoint_path path = { 0 };
    struct sctp_endpoint_counts counts = { 0 };
    struct sctp_endpoint_sent sent = { 0 };
    struct sctp_endpoint_verdict verdict = { 0 };
    uint64_t ticket = 0, bytes = 0;
    uint32_t fate = 0, size = 0;
    uint16_t opened = 0;
    size_t length = 0;
    HOLDS(sctp_channels_open(a, &parameters, NULL, 0, NULL, 0, 0, &opened) == SCTP_EP_MISUSE);
    HOLDS(sctp_channels_open_negotiated(a, &parameters, 0) == SCTP_EP_MISUSE && sctp_channels_close(a, 0) == SCTP_EP_MISUSE);
    HOLDS(sctp_channels_send(a, 0, 0, true, NULL, 0, &ticket) == SCTP_EP_MISUSE && sctp_channels_abandon(a, 1, &fate) == SCTP_EP_MISUSE);
    HOLDS(sctp_channels_buffered_amount(a, 0, &bytes) == SCTP_EP_MISUSE && sctp_channels_max_message_size(a, &size) == SCTP_EP_MISUSE);
    HOLDS(sctp_channels_set_buffered_amount_low_threshold(a, 0, 0) == SCTP_EP_MISUSE);
    HOLDS(sctp_channels_next_event(a, &event, room, sizeof room) == SCTP_EP_MISUSE && sctp_channels_connect(a, 0, &own) == SCTP_EP_MISUSE);
    HOLDS(sctp_channels_handle_packet(a, 0, NULL, 0, &own, answer, sizeof answer, &verdict) == SCTP_EP_MISUSE);
    HOLDS(sctp_channels_poll_transmit(a, 0, room, sizeof room, NULL, 0, &sent) == SCTP_EP_MISUSE);
    HOLDS(sctp_channels_on_moment(a, 0) == SCTP_EP_MISUSE && sctp_channels_shutdown(a) == SCTP_EP_MISUSE);
    HOLDS(sctp_channels_trim(a) == SCTP_EP_MISUSE);
    HOLDS(sctp_channels_abort(a, NULL, 0, room, sizeof room, &length) == SCTP_EP_MISUSE);
    HOLDS(sctp_channels_status(a, &status) == SCTP_EP_MISUSE && sctp_channels_path(a, &path) == SCTP_EP_MISUSE);
    HOLDS(sctp_channels_counts(a, &counts) == SCTP_EP_MISUSE && !a->full);
    sctp_channels_free(a);
    return 0;
}

/* An event that doesn't fit its buffer is the next one again; one that does is taken. */
static int events_fit(struct sctp_channels *a, struct sctp_channels *b) {
    struct sctp_channel_parameters parameters = SCTP_CHANNEL_PARAMETERS_INIT;
    IN_BYTES(sctp_channel_event) event;
    uint8_t buffer[8];
    uint64_t ticket = 0;
    uint16_t opened = 0;
    parameters.reliability = SCTP_CH_MAX_PACKET_LIFETIME, parameters.limit = 65535, parameters.ordered = false, parameters.priority = 128;
    HOLDS(sctp_channels_open(a, &parameters, (const uint8_t *)"label", 5, (const uint8_t *)"two", 3, SCTP_CH_ANY_STREAM, &opened) == SCTP_EP_OK);
    HOLDS(opened == 0 && exchange(a, b) == 0);
    memset(&event, BEFORE, sizeof event), memset(buffer, BEFORE, sizeof buffer);
    for (int i = 0; i < 2; i++) {
        HOLDS(sctp_channels_next_event(b, &event.it, buffer, 7) == SCTP_EP_NEEDS_ROOM && event.it.length == 8 && event.it.label_length == 5);
        HOLDS(event.it.kind == SCTP_CH_INCOMING && is_kept(buffer, 0, sizeof buffer));
    }
    HOLDS(sctp_channels_next_event(b, &event.it, NULL, 0) == SCTP_EP_NEEDS_ROOM && exchange(a, b) == 0);
    HOLDS(sctp_channels_next_event(b, &event.it, buffer, 8) == SCTP_EP_OK && memcmp(buffer, "labeltwo", 8) == 0);
    HOLDS(event.it.kind == SCTP_CH_INCOMING && event.it.length == 8 && event.it.label_length == 5 && event.it.stream == 0);
    HOLDS(event.it.reliability == SCTP_CH_MAX_PACKET_LIFETIME && event.it.limit == 65535 && !event.it.ordered && event.it.priority == 128);
    HOLDS(event.it.reason == 0 && !event.it.text && event.it.reserved[0] == 0 && event.it.reserved[1] == 0);
    HOLDS(is_kept(event.bytes, sizeof event.it, sizeof event.bytes));
    HOLDS(sctp_channels_next_event(b, &event.it, NULL, 0) == SCTP_EP_NOTHING && event.it.kind == SCTP_CH_INCOMING);
    HOLDS(exchange(a, b) == 0 && sctp_channels_next_event(a, &event.it, NULL, 0) == SCTP_EP_OK && event.it.kind == SCTP_CH_OPENED);
    HOLDS(event.it.length == 0 && event.it.limit == 0 && !event.it.ordered);

    HOLDS(sctp_channels_send(a, 0, 0, true, (const uint8_t *)"12345678", 8, &ticket) == SCTP_EP_OK);
    HOLDS(sctp_channels_send(a, 0, 0, false, NULL, 0, &ticket) == SCTP_EP_OK && exchange(a, b) == 0);
    memset(buffer, BEFORE, sizeof buffer);
    HOLDS(sctp_channels_next_event(b, &event.it, buffer, 7) == SCTP_EP_NEEDS_ROOM && event.it.length == 8 && is_kept(buffer, 0, 8));
    HOLDS(sctp_channels_next_event(b, &event.it, buffer, 8) == SCTP_EP_OK && event.it.kind == SCTP_CH_MESSAGE && event.it.text);
    HOLDS(memcmp(buffer, "12345678", 8) == 0 && event.it.length == 8 && event.it.label_length == 0);
    HOLDS(sctp_channels_next_event(b, &event.it, NULL, 0) == SCTP_EP_OK && event.it.kind == SCTP_CH_MESSAGE && !event.it.text && event.it.length == 0);
    /* one that waits stays, and is freed with its channels */
    HOLDS(sctp_channels_send(a, 0, 0, true, (const uint8_t *)"12345678", 8, &ticket) == SCTP_EP_OK && exchange(a, b) == 0);
    HOLDS(sctp_channels_next_event(b, &event.it, NULL, 0) == SCTP_EP_NEEDS_ROOM && sctp_channels_trim(b) == SCTP_EP_OK);
    HOLDS(sctp_channels_next_event(b, &event.it, NULL, 0) == SCTP_EP_NEEDS_ROOM && event.it.length == 8);
    return 0;
}

/* Before the association nothing is opened or closed; an endpoint on which a message was sent stays as it is. */
static int comes_too_early(struct sctp_endpoint_config *config) {
    struct sctp_channels a = SCTP_CHANNELS_INIT;
    struct sctp_endpoint end = SCTP_ENDPOINT_INIT;
    struct sctp_channel_parameters parameters = SCTP_CHANNEL_PARAMETERS_INIT, wrong = parameters;
    struct sctp_endpoint_status status = { 0 };
    uint64_t ticket = 0;
    uint16_t opened = 77;
    wrong.reserved[1] = 1;
    HOLDS(sctp_endpoint_caller(&end, config) == SCTP_EP_OK && sctp_channels_over(&a, &end, true) == SCTP_EP_OK);
    for (int i = 0; i < 2; i++) {
        HOLDS(sctp_channels_open(&a, &parameters, NULL, 0, NULL, 0, 1024, &opened) == SCTP_EP_NOT_OPEN && opened == 77);
        HOLDS(sctp_channels_open(&a, &wrong, NULL, 0, NULL, 0, 0, &opened) == SCTP_EP_BAD_RESERVED);
        HOLDS(sctp_channels_open_negotiated(&a, &parameters, 0) == SCTP_EP_NOT_OPEN && sctp_channels_close(&a, 0) == SCTP_EP_NOT_OPEN);
        HOLDS(sctp_channels_connect(&a, 0, &own) == (i ? SCTP_EP_BAD_STATE : SCTP_EP_OK));
    }
    HOLDS(sctp_channels_status(&a, &status) == SCTP_EP_OK && status.state == SCTP_EP_COOKIE_WAIT && status.own_tag == 7);
    sctp_channels_free(&a), sctp_channels_free(NULL);
    HOLDS(sctp_endpoint_opened(&end, config, &own, &peer) == SCTP_EP_OK);
    HOLDS(sctp_endpoint_send(&end, 0, true, 51, room, 1, SCTP_EP_NEVER, &ticket) == SCTP_EP_OK);
    HOLDS(sctp_channels_over(&a, &end, true) == SCTP_EP_BAD_STATE && !a.full && end.full);
    HOLDS(sctp_endpoint_status(&end, &status) == SCTP_EP_OK && status.queued == 1 && status.tickets == 1);
    sctp_endpoint_free(&end);
    return 0;
}

/* Over an association whose listener doesn't answer yet: there are streams from COOKIE-ECHOED on, and none is closed or opened by a message. */
static int is_echoed(struct sctp_endpoint_config config) {
    struct sctp_channels a = SCTP_CHANNELS_INIT;
    struct sctp_endpoint end = SCTP_ENDPOINT_INIT, listener = SCTP_ENDPOINT_INIT;
    struct sctp_channel_parameters parameters = SCTP_CHANNEL_PARAMETERS_INIT;
    struct sctp_endpoint_key key = { { 7 }, { 0 } };
    struct sctp_endpoint_sent sent = { 0 };
    struct sctp_endpoint_verdict verdict = { 0 };
    struct sctp_endpoint_status status = { 0 };
    uint16_t opened = 77;
    HOLDS(sctp_endpoint_caller(&end, &config) == SCTP_EP_OK && sctp_channels_over(&a, &end, true) == SCTP_EP_OK);
    config.own_port = 5001, config.peer_port = 5000;
    HOLDS(sctp_endpoint_listener(&listener, &config, &key) == SCTP_EP_OK && sctp_channels_connect(&a, 0, &own) == SCTP_EP_OK);
    HOLDS(sctp_channels_poll_transmit(&a, 0, room, sizeof room, NULL, 0, &sent) == SCTP_EP_OK && sent.length > 0);
    HOLDS(sctp_endpoint_handle_packet(&listener, 0, room, sent.length, &peer, answer, sizeof answer, &verdict) == SCTP_EP_OK && verdict.verdict == SCTP_EP_ANSWER);
    HOLDS(sctp_channels_handle_packet(&a, 0, answer, verdict.length, &own, room, sizeof room, &verdict) == SCTP_EP_OK && verdict.verdict == SCTP_EP_TAKEN);
    HOLDS(sctp_channels_status(&a, &status) == SCTP_EP_OK && status.state == SCTP_EP_COOKIE_ECHOED && status.own_tag == 7);
    HOLDS(sctp_channels_open(&a, &parameters, NULL, 0, NULL, 0, 1024, &opened) == SCTP_EP_NOT_OPEN && opened == 77);
    HOLDS(sctp_channels_close(&a, 4) == SCTP_EP_NOT_OPEN && sctp_channels_open_negotiated(&a, &parameters, 4) == SCTP_EP_OK);
    HOLDS(sctp_channels_open_negotiated(&a, &parameters, 4) == SCTP_EP_USED && sctp_channels_close(&a, 4) == SCTP_EP_NOT_OPEN);
    sctp_channels_free(&a), sctp_endpoint_free(&listener);
    return 0;
}

/* A stream that the peer has reset: what it sent before is copied first, in its turn, and then its channel is closed. */
static int leaves_messages(struct sctp_endpoint_config config) {
    struct sctp_channels ends[2] = { SCTP_CHANNELS_INIT, SCTP_CHANNELS_INIT };
    struct sctp_channel_parameters parameters = SCTP_CHANNEL_PARAMETERS_INIT;
    struct sctp_channel_event event = { 0 };
    uint64_t ticket = 0;
    uint8_t text[8];
    static const struct { uint16_t stream; const char *text; } wanted[3] = { { 0, "one" }, { 1, "two" }, { 0, "three" } };
    for (int i = 0; i < 2; i++) {
        struct sctp_endpoint made = SCTP_ENDPOINT_INIT;
        config.own_port = 5000 + i, config.peer_port = 5001 - i;
        HOLDS(sctp_endpoint_opened(&made, &config, i ? &peer : &own, i ? &own : &peer) == SCTP_EP_OK && sctp_channels_over(&ends[i], &made, i == 0) == SCTP_EP_OK);
        for (int stream = 0; stream < 2; stream++) HOLDS(sctp_channels_open_negotiated(&ends[i], &parameters, stream) == SCTP_EP_OK);
    }
    for (int i = 0; i < 3; i++) HOLDS(sctp_channels_send(&ends[0], 0, wanted[i].stream, true, (const uint8_t *)wanted[i].text, strlen(wanted[i].text), &ticket) == SCTP_EP_OK);
    HOLDS(sctp_channels_close(&ends[0], 0) == SCTP_EP_OK && exchange(&ends[0], &ends[1]) == 0);
    for (int i = 0; i < 3; i++) {
        size_t length = strlen(wanted[i].text);
        if (i == 1) HOLDS(sctp_channels_next_event(&ends[1], &event, text, length - 1) == SCTP_EP_NEEDS_ROOM && event.length == length);
        HOLDS(sctp_channels_next_event(&ends[1], &event, text, sizeof text) == SCTP_EP_OK && event.kind == SCTP_CH_MESSAGE && event.text);
        HOLDS(event.stream == wanted[i].stream && event.length == length && memcmp(text, wanted[i].text, length) == 0);
    }
    HOLDS(sctp_channels_next_event(&ends[1], &event, text, sizeof text) == SCTP_EP_NOTHING && exchange(&ends[0], &ends[1]) == 0);
    for (int i = 0; i < 2; i++) {
        HOLDS(sctp_channels_next_event(&ends[i], &event, text, sizeof text) == SCTP_EP_OK && event.kind == SCTP_CH_CLOSED && event.stream == 0);
        HOLDS(sctp_channels_next_event(&ends[i], &event, text, sizeof text) == SCTP_EP_NOTHING);
        sctp_channels_free(&ends[i]);
    }
    return 0;
}

int main(void) {
    struct sctp_channels a = SCTP_CHANNELS_INIT, b = SCTP_CHANNELS_INIT;
    struct sctp_endpoint end = SCTP_ENDPOINT_INIT, other = SCTP_ENDPOINT_INIT;
    struct sctp_endpoint_config config = SCTP_CHANNELS_CONFIG(5000, 5001);
    struct sctp_channel_parameters parameters = SCTP_CHANNEL_PARAMETERS_INIT, wrong;
    struct sctp_endpoint_draw later = own;
    struct sctp_endpoint_verdict verdict = { 0 };
    struct sctp_endpoint_sent sent = { 0 };
    struct sctp_endpoint_status status = { 0 };
    struct sctp_endpoint_path path = { 0 };
    struct sctp_endpoint_counts counts = { 0 };
    uint64_t ticket = 0, bytes = 1;
    uint32_t fate = 0, size = 0;
    uint16_t opened = 77;
    size_t length = 0;

    HOLDS(sizeof(struct sctp_channels) == 16 && sizeof parameters == 16 && sizeof(struct sctp_channel_event) == 40);
    HOLDS(nothing_there(&a) == 0 && comes_too_early(&config) == 0 && is_echoed(config) == 0 && leaves_messages(config) == 0);

    /* Made over an endpoint, whose handle is empty then; over none, and twice. */
    HOLDS(sctp_channels_over(&a, &end, true) == SCTP_EP_MISUSE && !a.full);
    HOLDS(sctp_endpoint_opened(&end, &config, &own, &peer) == SCTP_EP_OK && sctp_endpoint_opened(&other, &config, &own, &peer) == SCTP_EP_OK);
    HOLDS(sctp_channels_over(&a, &end, true) == SCTP_EP_OK && a.full && !end.full && sctp_endpoint_shutdown(&end) == SCTP_EP_MISUSE);
    HOLDS(sctp_channels_over(&a, &other, true) == SCTP_EP_MISUSE && other.full);
    sctp_endpoint_free(&other);
    config.own_port = 5001, config.peer_port = 5000;
    HOLDS(sctp_endpoint_opened(&end, &config, &peer, &own) == SCTP_EP_OK && sctp_channels_over(&b, &end, false) == SCTP_EP_OK);

    /* What no channel is opened with. */
    wrong = parameters; wrong.reliability = 3; HOLDS(sctp_channels_open(&a, &wrong, NULL, 0, NULL, 0, 0, &opened) == SCTP_EP_BAD_RESERVED);
    for (int i = 0; i < 2; i++) { wrong = parameters; wrong.reserved[i] = 1; HOLDS(sctp_channels_open_negotiated(&a, &wrong, 0) == SCTP_EP_BAD_RESERVED); }
    wrong = parameters; wrong.reliability = SCTP_CH_MAX_RETRANSMITS, wrong.limit = 65536;
    HOLDS(sctp_channels_open(&a, &wrong, NULL, 0, NULL, 0, 0, &opened) == SCTP_EP_OUT_OF_RANGE && sctp_channels_open_negotiated(&a, &wrong, 0) == SCTP_EP_OUT_OF_RANGE);
    HOLDS(sctp_channels_open(&a, &parameters, NULL, 0, NULL, 0, 1, &opened) == SCTP_EP_WRONG_HALF);
    HOLDS(sctp_channels_open(&a, &parameters, NULL, 0, NULL, 0, 1024, &opened) == SCTP_EP_NO_STREAM && opened == 77);
    HOLDS(sctp_channels_open_negotiated(&a, &parameters, SCTP_CH_ANY_STREAM) == SCTP_EP_NO_STREAM);
    HOLDS(events_fit(&a, &b) == 0);
    HOLDS(sctp_channels_open(&a, &parameters, NULL, 0, NULL, 0, 0, &opened) == SCTP_EP_USED && sctp_channels_open_negotiated(&a, &parameters, 0) == SCTP_EP_USED);

    /* What is sent, buffered, taken back. */
    HOLDS(sctp_channels_send(&a, 0, 2, true, NULL, 0, &ticket) == SCTP_EP_NO_CHANNEL && sctp_channels_close(&a, 2) == SCTP_EP_NO_CHANNEL);
    HOLDS(sctp_channels_open_negotiated(&a, &parameters, 3) == SCTP_EP_OK && sctp_channels_send(&a, 0, 3, false, room, 100, &ticket) == SCTP_EP_OK);
    HOLDS(sctp_channels_buffered_amount(&a, 3, &bytes) == SCTP_EP_OK && bytes == 100);
    HOLDS(sctp_channels_set_buffered_amount_low_threshold(&a, 3, 99) == SCTP_EP_OK);
    HOLDS(sctp_channels_set_buffered_amount_low_threshold(&a, 5, 99) == SCTP_EP_NO_CHANNEL);
    HOLDS(sctp_channels_abandon(&a, ticket, &fate) == SCTP_EP_OK && fate == SCTP_EP_WITHDRAWN);
    HOLDS(sctp_channels_buffered_amount(&a, 3, &bytes) == SCTP_EP_OK && bytes == 0);
    {
        struct sctp_channel_event event = { 0 };
        HOLDS(sctp_channels_next_event(&a, &event, NULL, 0) == SCTP_EP_OK && event.kind == SCTP_CH_BUFFERED_AMOUNT_LOW && event.stream == 3);
        HOLDS(sctp_channels_next_event(&a, &event, NULL, 0) == SCTP_EP_NOTHING);
    }
    HOLDS(sctp_channels_max_message_size(&a, &size) == SCTP_EP_OK && size == 262144);

    /* Draws, and buffers that are too small. */
    later.reserved = 1;
    HOLDS(sctp_channels_connect(&a, 0, &none) == SCTP_EP_BAD_DRAW && sctp_channels_connect(&a, 0, &later) == SCTP_EP_BAD_RESERVED);
    HOLDS(sctp_channels_connect(&a, 0, &own) == SCTP_EP_BAD_STATE);
    HOLDS(sctp_channels_poll_transmit(&a, 0, room, 1187, NULL, 0, &sent) == SCTP_EP_NEEDS_ROOM && sent.length == 1188);
    HOLDS(sctp_channels_handle_packet(&a, 0, room, 12, &none, answer, sizeof answer, &verdict) == SCTP_EP_BAD_DRAW);
    HOLDS(sctp_channels_handle_packet(&a, 0, room, 12, &later, answer, sizeof answer, &verdict) == SCTP_EP_BAD_RESERVED);
    HOLDS(sctp_channels_handle_packet(&a, 0, room, 12, &own, answer, 1187, &verdict) == SCTP_EP_NEEDS_ROOM && verdict.length == 1188);
    HOLDS(sctp_channels_handle_packet(&a, 0, NULL, 0, &own, answer, sizeof answer, &verdict) == SCTP_EP_OK && verdict.reason == SCTP_EP_FAULT);
    HOLDS(sctp_channels_abort(&a, NULL, 0, room, 1187, &length) == SCTP_EP_NEEDS_ROOM && length == 1188);
    HOLDS(sctp_channels_on_moment(&a, 0) == SCTP_EP_OK && sctp_channels_status(&a, &status) == SCTP_EP_OK && status.state == SCTP_EP_ESTABLISHED);
    HOLDS(sctp_channels_path(&a, &path) == SCTP_EP_OK && (path.flags & SCTP_EP_PATH_WINDOW) && sctp_channels_counts(&a, &counts) == SCTP_EP_OK);
    HOLDS(counts.packets_in > 0 && counts.dropped_fault == 1);

    /* Closed by the end of the association. */
    HOLDS(sctp_channels_shutdown(&b) == SCTP_EP_OK && sctp_channels_shutdown(&b) == SCTP_EP_OK);
    HOLDS(sctp_channels_abort(&a, (const uint8_t *)"enough", 6, room, sizeof room, &length) == SCTP_EP_OK && length > 12);
    HOLDS(sctp_channels_handle_packet(&b, 0, room, length, &own, answer, sizeof answer, &verdict) == SCTP_EP_OK && verdict.verdict == SCTP_EP_TAKEN);
    HOLDS(sctp_channels_close(&a, 0) == SCTP_EP_BAD_STATE && sctp_channels_send(&a, 0, 0, true, NULL, 0, &ticket) == SCTP_EP_NOT_OPEN);
    HOLDS(sctp_channels_abort(&a, NULL, 0, room, sizeof room, &length) == SCTP_EP_BAD_STATE && sctp_channels_shutdown(&a) == SCTP_EP_NOT_OPEN);
    {
        struct sctp_channel_event event = { 0 };
        HOLDS(sctp_channels_next_event(&a, &event, NULL, 0) == SCTP_EP_OK && event.kind == SCTP_CH_CLOSED && event.stream == 0);
        HOLDS(sctp_channels_next_event(&a, &event, NULL, 0) == SCTP_EP_OK && event.kind == SCTP_CH_CLOSED && event.stream == 3);
        HOLDS(sctp_channels_next_event(&a, &event, NULL, 0) == SCTP_EP_NOTHING);
    }
    sctp_channels_free(&a), sctp_channels_free(&b), sctp_channels_free(&b);
    HOLDS(!a.full && !b.full);
    return 0;
}
