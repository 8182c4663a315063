/* What stays of messages that are over: kept MANY [AT ONCE [ASSOCIATIONS [STREAMS]]]. In each association, one after the other (1), of so many streams (64),
 * MANY messages of a byte are sent, acknowledged and taken, 19 at a time or so many at once. Then it prints how many bytes both ends of an association hold
 * more than before its first message, as they are and after sctp_endpoint_trim at both, and how many they held before it. The allocator is the program's own,
 * which counts, so no libsctp_endpoint_malloc.a is linked. */
#include "sctp_endpoint.h"
#include <stdio.h>
#include <stdlib.h>
#include <string.h>

/* messages, and how many wait at most; bytes before a block, which hold its size; associations; streams */
enum { AT_A_TIME = 19, QUEUE = 1024, HEAD = 16, MOST = 10000, STREAMS = 64 };

struct sctp_endpoint_block rattle_alloc(size_t size, size_t alignment);
struct sctp_endpoint_block rattle_realloc(void *at, size_t old_size, size_t size, size_t alignment);
void rattle_dealloc(void *at);

static long held;
static struct sctp_endpoint associations[MOST][2];

static struct sctp_endpoint_block counted(char *at, size_t size) {
    struct sctp_endpoint_block block = { at != NULL, at ? at + HEAD : (char *)&held };
    if (at) memcpy(at, &size, sizeof size), held += (long)size;
    return block;
}

static char *uncounted(void *at) {
    char *begin = (char *)at - HEAD;
    size_t size;
    memcpy(&size, begin, sizeof size);
    held -= (long)size;
    return begin;
}

struct sctp_endpoint_block rattle_alloc(size_t size, size_t alignment) {
    (void)alignment;
    return counted(malloc(HEAD + size), size);
}

struct sctp_endpoint_block rattle_realloc(void *at, size_t old_size, size_t size, size_t alignment) {
    (void)old_size, (void)alignment;
    return counted(realloc(uncounted(at), HEAD + size), size);
}

void rattle_dealloc(void *at) { free(uncounted(at)); }

static bool carry(struct sctp_endpoint *from, struct sctp_endpoint *to) {
    static const struct sctp_endpoint_draw draw = { 9, 500, 0 };
    uint8_t packet[SCTP_EP_LONGEST_PACKET], answer[SCTP_EP_LONGEST_PACKET];
    uint64_t tickets[SCTP_EP_MOST_TICKETS];
    struct sctp_endpoint_sent sent = { 0 };
    struct sctp_endpoint_verdict verdict = { 0 };
    return sctp_endpoint_poll_transmit(from, 0, packet, sizeof packet, tickets, SCTP_EP_MOST_TICKETS, &sent) == SCTP_EP_OK && sent.length > 0
        && sctp_endpoint_handle_packet(to, 0, packet, sent.length, &draw, answer, sizeof answer, &verdict) == SCTP_EP_OK;
}

/* So many messages go, are taken and are acknowledged; how many were. No SACK is sent before all of them have gone. */
static long turn(struct sctp_endpoint *ends, long many) {
    struct sctp_endpoint_message told = { 0 };
    uint8_t byte = 7;
    uint64_t ticket = 0;
    long taken = 0;
    for (long i = 0; i < many; i++) {
        if (i % QUEUE == 0)
            while (carry(&ends[0], &ends[1])) {}
        if (sctp_endpoint_send(&ends[0], 0, true, 0, &byte, 1, SCTP_EP_NEVER, &ticket)) return 0;
    }
    while (carry(&ends[0], &ends[1]) || carry(&ends[1], &ends[0])) {}
    while (sctp_endpoint_take(&ends[1], 0, &told, &byte, 1) == SCTP_EP_OK) taken++;
    return taken;
}

static bool opened(struct sctp_endpoint *ends, long streams) {
    static const struct sctp_endpoint_draw draws[2] = { { 7, 100, 0 }, { 9, 500, 0 } };
    struct sctp_endpoint_config config = SCTP_ENDPOINT_CONFIG(5000, 5001);
    config.outbound = config.inbound = (uint16_t)streams;
    if (sctp_endpoint_opened(&ends[0], &config, &draws[0], &draws[1])) return false;
    config.own_port = 5001, config.peer_port = 5000;
    return sctp_endpoint_opened(&ends[1], &config, &draws[1], &draws[0]) == SCTP_EP_OK;
}

int main(int argc, char **argv) {
    long many = argc > 1 ? atol(argv[1]) : 0, at_once = argc > 2 ? atol(argv[2]) : AT_A_TIME, count = argc > 3 ? atol(argv[3]) : 1, stayed = 0;
    long streams = argc > 4 ? atol(argv[4]) : STREAMS;
    if (count < 1 || count > MOST || streams < 1 || streams > UINT16_MAX) return 1;
    for (long i = 0; i < count; i++)
        if (!opened(associations[i], streams)) return 1;
    long idle = held;
    for (long i = 0; i < count; i++) {
        long before = held, taken = 0;
        while (taken < many) {
            long more = turn(associations[i], many - taken < at_once ? many - taken : at_once);
            if (more == 0) return 1;
            taken += more;
        }
        stayed += held - before;
        if (sctp_endpoint_trim(&associations[i][0]) || sctp_endpoint_trim(&associations[i][1])) return 1;
    }
    printf("%ld %ld %ld\n", stayed / count, (held - idle) / count, idle / count);
    for (long i = 0; i < count; i++) sctp_endpoint_free(&associations[i][0]), sctp_endpoint_free(&associations[i][1]);
    return held != 0;
}
