/* Long messages on several streams at once, under I-DATA: buffer STREAMS [BYTES]. One endpoint sends a message of 65,536 bytes on each of STREAMS
 * streams, all at once; the other one has the default receive buffer, or one of BYTES, and takes each message when it is complete. It prints how
 * many arrived, and ends with 0 if all did. */
#include "sctp_endpoint.h"
#include <stdio.h>
#include <stdlib.h>
#include <string.h>

static struct sctp_endpoint ends[2];
static uint8_t text[SCTP_EP_LONGEST_MESSAGE], buffer[SCTP_EP_LONGEST_MESSAGE];
static const struct sctp_endpoint_draw draws[2] = { { 7, 100, 0 }, { 9, 500, 0 } };

static bool carry(struct sctp_endpoint *from, struct sctp_endpoint *to, uint64_t now) {
    uint8_t packet[SCTP_EP_LONGEST_PACKET], answer[SCTP_EP_LONGEST_PACKET];
    uint64_t tickets[SCTP_EP_MOST_TICKETS];
    struct sctp_endpoint_sent sent;
    struct sctp_endpoint_verdict verdict;
    memset(&sent, 0, sizeof sent), memset(&verdict, 0, sizeof verdict);
    return sctp_endpoint_poll_transmit(from, now, packet, sizeof packet, tickets, SCTP_EP_MOST_TICKETS, &sent) == SCTP_EP_OK && sent.length > 0
        && sctp_endpoint_handle_packet(to, now, packet, sent.length, draws, answer, sizeof answer, &verdict) == SCTP_EP_OK;
}

static int taken(void) {
    struct sctp_endpoint_message message;
    uint16_t stream = 0;
    int count = 0;
    memset(&message, 0, sizeof message);
    while (sctp_endpoint_readable(&ends[1], 0, &stream) == SCTP_EP_OK) {
        if (sctp_endpoint_take(&ends[1], stream, &message, buffer, sizeof buffer) || message.length != sizeof buffer || buffer[0] != stream) exit(1);
        count++;
    }
    return count;
}

int main(int argc, char **argv) {
    if (argc < 2) return 2;
    int streams = atoi(argv[1]), arrived = 0;
    uint64_t ticket = 0;
    struct sctp_endpoint_config config = SCTP_ENDPOINT_CONFIG(5000, 5001);
    struct sctp_endpoint_status status;
    memset(&status, 0, sizeof status);
    if (argc > 2) config.buffer = (uint32_t)atol(argv[2]);
    if (sctp_endpoint_opened(&ends[0], &config, &draws[0], &draws[1])) return 1;
    config.own_port = 5001, config.peer_port = 5000;
    if (sctp_endpoint_opened(&ends[1], &config, &draws[1], &draws[0])) return 1;
    for (int stream = 0; stream < streams; stream++) {
        text[0] = (uint8_t)stream;
        if (sctp_endpoint_send(&ends[0], (uint16_t)stream, true, 0, text, sizeof text, SCTP_EP_NEVER, &ticket)) return 1;
    }
    /* A minute, so that what stalls shows: nothing is lost, and a second repeats what the peer has no space for. */
    for (uint64_t now = 0; now < 60000 && arrived < streams; now += 1000) {
        while (carry(&ends[0], &ends[1], now) || carry(&ends[1], &ends[0], now)) arrived += taken();
        for (int i = 0; i < 2; i++) sctp_endpoint_on_moment(&ends[i], now + 1000);
    }
    sctp_endpoint_status(&ends[1], &status);
    printf("%d of %d messages of 65,536 bytes arrived; %llu bytes of the receive buffer of %u are held\n", arrived, streams,
           (unsigned long long)status.held_bytes, config.buffer);
    sctp_endpoint_free(&ends[0]), sctp_endpoint_free(&ends[1]);
    return arrived != streams;
}
