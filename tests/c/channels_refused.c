/* Each allocation of channels fails in its turn, as refused.c has it of an endpoint. One call isn't simply made again: sctp_channels_over has freed the
 * endpoint. */
#include "refusing.h"
#include "sctp_channels.h"
#include <string.h>

static struct sctp_channels ends[2];
static uint8_t text[4000], room[sizeof text];

/* An association that is established, and channels over it. */
static void make(int at) {
    static const struct sctp_endpoint_draw draws[2] = { { 7, 100, 0 }, { 9, 500, 0 } };
    struct sctp_endpoint_config config = SCTP_CHANNELS_CONFIG(5000 + at, 5001 - at);
    struct sctp_endpoint end = SCTP_ENDPOINT_INIT;
    TRY(sctp_endpoint_opened(&end, &config, &draws[at], &draws[1 - at]));
    uint32_t made = sctp_channels_over(&ends[at], &end, at == 0);
    if (end.full || ends[at].full != (made == SCTP_EP_OK)) fprintf(stderr, "over left a handle as it was\n"), exit(1);
    if (made == SCTP_EP_NO_MEMORY) {
        refusals++;
        TRY(sctp_endpoint_opened(&end, &config, &draws[at], &draws[1 - at]));
        TRY(sctp_channels_over(&ends[at], &end, at == 0));
    }
}

static void exchange(void) {
    struct sctp_endpoint_draw d = { 9, 500, 0 };
    for (int turn = 0; turn < 16; turn++) {
        struct sctp_channels *from = &ends[turn % 2], *to = &ends[(turn + 1) % 2];
        for (;;) {
            uint8_t packet[SCTP_EP_LONGEST_PACKET], answer[SCTP_EP_LONGEST_PACKET];
            uint64_t tickets[SCTP_EP_MOST_TICKETS];
            struct sctp_endpoint_sent sent = { 0 };
            struct sctp_endpoint_verdict verdict = { 0 };
            TRY(sctp_channels_poll_transmit(from, 0, packet, sizeof packet, tickets, SCTP_EP_MOST_TICKETS, &sent));
            if (sent.length == 0) break;
            TRY(sctp_channels_handle_packet(to, 0, packet, sent.length, &d, answer, sizeof answer, &verdict));
        }
    }
}

/* The next event is of this kind, with so many bytes. */
static void expect(int at, uint8_t kind, size_t length) {
    struct sctp_channel_event event = { 0 };
    TRY(sctp_channels_next_event(&ends[at], &event, room, sizeof room));
    if (event.kind == kind && event.length == length && event.stream == 0) return;
    fprintf(stderr, "allocation %ld refused: event %u of %zu bytes in place of %u of %zu\n", refused_at, event.kind, event.length, kind, length);
    exit(1);
}

static void talk(void) {
    struct sctp_channel_parameters parameters = SCTP_CHANNEL_PARAMETERS_INIT;
    uint16_t stream = 0;
    uint64_t ticket = 0;
    make(0), make(1);
    TRY(sctp_channels_open(&ends[0], &parameters, text, 10, text, 5, SCTP_CH_ANY_STREAM, &stream));
    exchange();
    expect(1, SCTP_CH_INCOMING, 15);
    TRY(sctp_channels_set_buffered_amount_low_threshold(&ends[1], 0, 100));
    TRY(sctp_channels_send(&ends[1], 0, 0, true, text, sizeof text, &ticket));
    exchange();
    expect(0, SCTP_CH_OPENED, 0);
    expect(0, SCTP_CH_MESSAGE, sizeof text);
    expect(1, SCTP_CH_BUFFERED_AMOUNT_LOW, 0);
    TRY(sctp_channels_close(&ends[0], 0));
    exchange();
    expect(0, SCTP_CH_CLOSED, 0);
    expect(1, SCTP_CH_CLOSED, 0);
    for (int i = 0; i < 2; i++) sctp_channels_free(&ends[i]);
    if (blocks != 0) fprintf(stderr, "allocation %ld refused: %ld blocks are left\n", refused_at, blocks), exit(1);
}

int main(void) {
    memset(text, 'x', sizeof text);
    for (refused_at = 0; refused_at == 0 || asked > refused_at; refused_at++) {
        asked = 0;
        talk();
    }
    printf("%ld allocations of channels, refused one after another; %ld times a call said so\n", refused_at - 1, refusals);
    return 0;
}
