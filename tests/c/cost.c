/* What a message costs over two handles: cost MANY SIZE TURNS [LETTERS]. In a turn MANY messages of SIZE bytes are made and sent one way, all packets go
 * to and fro, and the messages are taken. The letters: `i` they go as I-DATA; `c` with congestion control; `r` with stream reset; `l` on the last of 1,024
 * streams; `b` their bytes are made alone, and nothing goes. The difference of two runs, in instructions, is what turns cost. */
#include "sctp_endpoint.h"
#include <stdio.h>
#include <stdlib.h>
#include <string.h>

static struct sctp_endpoint ends[2];
static const struct sctp_endpoint_draw draws[2] = { { 7, 100, 0 }, { 9, 500, 0 } };
static uint8_t text[SCTP_EP_LONGEST_MESSAGE], room[SCTP_EP_LONGEST_MESSAGE], packet[SCTP_EP_LONGEST_PACKET], answer[SCTP_EP_LONGEST_PACKET];
static uint64_t tickets[SCTP_EP_MOST_TICKETS], ticket;
static struct sctp_endpoint_sent sent;
static struct sctp_endpoint_verdict verdict;
static struct sctp_endpoint_message told;
static uint16_t stream;

static inline bool carry(struct sctp_endpoint *from, struct sctp_endpoint *to) {
    return sctp_endpoint_poll_transmit(from, 0, packet, sizeof packet, tickets, SCTP_EP_MOST_TICKETS, &sent) == SCTP_EP_OK && sent.length > 0
        && sctp_endpoint_handle_packet(to, 0, packet, sent.length, draws, answer, sizeof answer, &verdict) == SCTP_EP_OK;
}

static long turn(long many, size_t size) {
    long taken = 0;
    for (long i = 0; i < many; i++) {
        memset(text, 7, size);
        if (sctp_endpoint_send(&ends[0], stream, true, 0, text, size, SCTP_EP_NEVER, &ticket)) return 0;
    }
    for (long packets = many * ((long)size / 1400 % 100 + 1); packets > 0 && carry(&ends[0], &ends[1]); packets--) {
        while (sctp_endpoint_take(&ends[1], stream, &told, room, sizeof room) == SCTP_EP_OK) taken++;
        carry(&ends[1], &ends[0]);
    }
    return taken;
}

int main(int argc, char **argv) {
    if (argc < 4) return 2;
    long many = atol(argv[1]), size = atol(argv[2]), turns = atol(argv[3]), taken = 0;
    const char *letters = argc > 4 ? argv[4] : "";
    bool makes_bytes_alone = strchr(letters, 'b');
    struct sctp_endpoint_config config = SCTP_ENDPOINT_CONFIG(5000, 5001);
    config.packet_limit = 1500, config.fragment = 1400, config.outbound = config.inbound = strchr(letters, 'l') ? 1024 : 1;
    config.buffer = 1000000, config.partial = config.standard_closing = false, config.interleave = strchr(letters, 'i');
    config.flags = (strchr(letters, 'c') ? SCTP_EP_CONGESTION_CONTROL : 0) | (strchr(letters, 'r') ? SCTP_EP_STREAM_RESET : 0);
    stream = config.outbound - 1;
    if (sctp_endpoint_opened(&ends[0], &config, &draws[0], &draws[1])) return 1;
    config.own_port = 5001, config.peer_port = 5000;
    if (sctp_endpoint_opened(&ends[1], &config, &draws[1], &draws[0])) return 1;
    for (long i = 0; i < turns; i++) {
        if (!makes_bytes_alone) {
            taken += turn(many, (size_t)size);
            continue;
        }
        for (long made = 0; made < many; made++) memset(text, 7, (size_t)size), taken += text[size - 1] == 7;
    }
    sctp_endpoint_free(&ends[0]), sctp_endpoint_free(&ends[1]);
    return taken != many * turns;
}
