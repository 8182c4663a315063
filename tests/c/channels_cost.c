/* What a message costs over two handles of channels: channels_cost MANY SIZE TURNS STREAMS. As cost.c, over one channel that both ends agreed on: the
 * difference of two runs, in instructions, less what cost.c has of the same numbers, is what a channel adds to an endpoint. */
#include "sctp_channels.h"
#include <stdio.h>
#include <stdlib.h>
#include <string.h>

static struct sctp_channels ends[2];
static const struct sctp_endpoint_draw draws[2] = { { 7, 100, 0 }, { 9, 500, 0 } };
static uint8_t text[SCTP_EP_LONGEST_MESSAGE], room[SCTP_EP_LONGEST_MESSAGE], packet[SCTP_EP_LONGEST_PACKET], answer[SCTP_EP_LONGEST_PACKET];
static uint64_t tickets[SCTP_EP_MOST_TICKETS], ticket;
static struct sctp_endpoint_sent sent;
static struct sctp_endpoint_verdict verdict;
static struct sctp_channel_event event;

static inline bool carry(struct sctp_channels *from, struct sctp_channels *to) {
    return sctp_channels_poll_transmit(from, 0, packet, sizeof packet, tickets, SCTP_EP_MOST_TICKETS, &sent) == SCTP_EP_OK && sent.length > 0
        && sctp_channels_handle_packet(to, 0, packet, sent.length, draws, answer, sizeof answer, &verdict) == SCTP_EP_OK;
}

static long turn(long many, size_t size, uint16_t stream) {
    long taken = 0;
    for (long i = 0; i < many; i++) {
        memset(text, 7, size);
        if (sctp_channels_send(&ends[0], 0, stream, false, text, size, &ticket)) return 0;
    }
    for (long packets = many * ((long)size / 1400 % 100 + 1); packets > 0 && carry(&ends[0], &ends[1]); packets--) {
        while (sctp_channels_next_event(&ends[1], &event, room, sizeof room) == SCTP_EP_OK) taken += event.kind == SCTP_CH_MESSAGE;
        carry(&ends[1], &ends[0]);
    }
    return taken;
}

int main(int argc, char **argv) {
    if (argc < 5) return 2;
    long many = atol(argv[1]), size = atol(argv[2]), turns = atol(argv[3]), taken = 0;
    uint16_t streams = (uint16_t)atoi(argv[4]);
    struct sctp_channel_parameters parameters = SCTP_CHANNEL_PARAMETERS_INIT;
    for (int i = 0; i < 2; i++) {
        struct sctp_endpoint made = SCTP_ENDPOINT_INIT;
        struct sctp_endpoint_config config = SCTP_ENDPOINT_CONFIG(5000 + i, 5001 - i);
        config.packet_limit = 1500, config.fragment = 1400, config.outbound = config.inbound = streams;
        config.buffer = 1000000, config.partial = config.standard_closing = config.interleave = false;
        if (sctp_endpoint_opened(&made, &config, &draws[i], &draws[1 - i])) return 1;
        if (sctp_channels_over(&ends[i], &made, i == 0)) return 1;
        if (sctp_channels_open_negotiated(&ends[i], &parameters, streams - 1)) return 1;
    }
    for (long i = 0; i < turns; i++) taken += turn(many, (size_t)size, streams - 1);
    sctp_channels_free(&ends[0]), sctp_channels_free(&ends[1]);
    return taken != many * turns;
}
