/* Each allocation fails in its turn: the call that made it says so, changed nothing that the header doesn't name, and succeeds when
 * it is made again; nothing leaks. The allocator is the program's own, which is why no libsctp_endpoint_malloc.a is linked. */
#include "refusing.h"
#include <string.h>

static struct sctp_endpoint ends[2];
static uint8_t text[4000];

static void exchange(void) {
    struct sctp_endpoint_draw d = { 9, 500, 0 };
    for (int turn = 0; turn < 16; turn++) {
        struct sctp_endpoint *from = &ends[turn % 2], *to = &ends[(turn + 1) % 2];
        for (;;) {
            uint8_t packet[SCTP_EP_LONGEST_PACKET], answer[SCTP_EP_LONGEST_PACKET];
            uint64_t tickets[SCTP_EP_MOST_TICKETS];
            struct sctp_endpoint_sent sent = { 0 };
            struct sctp_endpoint_verdict verdict = { 0 };
            TRY(sctp_endpoint_poll_transmit(from, 0, packet, sizeof packet, tickets, SCTP_EP_MOST_TICKETS, &sent));
            if (sent.length == 0) break;
            TRY(sctp_endpoint_handle_packet(to, 0, packet, sent.length, &d, answer, sizeof answer, &verdict));
            size_t answered = verdict.length;
            if (verdict.verdict == SCTP_EP_ANSWER)
                TRY(sctp_endpoint_handle_packet(from, 0, answer, answered, &d, packet, sizeof packet, &verdict));
        }
    }
}

static void talk(void) {
    struct sctp_endpoint_config config = SCTP_ENDPOINT_CONFIG(5000, 5001);
    struct sctp_endpoint_draw d = { 7, 100, 0 };
    struct sctp_endpoint_key key = { { 7 }, { 0 } };
    struct sctp_endpoint_message told;
    struct sctp_endpoint_status status;
    uint8_t room[sizeof text];
    uint64_t ticket = 0;
    memset(&told, 0, sizeof told), memset(&status, 0, sizeof status);
    TRY(sctp_endpoint_caller(&ends[0], &config));
    config.own_port = 5001, config.peer_port = 5000;
    TRY(sctp_endpoint_listener(&ends[1], &config, &key));
    TRY(sctp_endpoint_connect(&ends[0], 0, &d));
    exchange();
    TRY(sctp_endpoint_send(&ends[0], 1, true, 0, text, sizeof text, SCTP_EP_NEVER, &ticket));
    TRY(sctp_endpoint_send(&ends[0], 2, false, 0, text, 1, SCTP_EP_NEVER, &ticket));
    exchange();
    for (int i = 0; i < 2; i++) TRY(sctp_endpoint_trim(&ends[i])); /* a block that can't get smaller stays as it is */
    TRY(sctp_endpoint_take(&ends[1], 1, &told, room, sizeof room));
    if (told.length != sizeof text || memcmp(room, text, sizeof text) != 0) fprintf(stderr, "another message\n"), exit(1);
    TRY(sctp_endpoint_take(&ends[1], 2, &told, room, sizeof room));
    TRY(sctp_endpoint_shutdown(&ends[0]));
    exchange();
    for (int i = 0; i < 2; i++) {
        TRY(sctp_endpoint_status(&ends[i], &status));
        if (status.ended != SCTP_EP_COMPLETED) fprintf(stderr, "allocation %ld refused: ended %u\n", refused_at, status.ended), exit(1);
        sctp_endpoint_free(&ends[i]);
    }
    if (blocks != 0) fprintf(stderr, "allocation %ld refused: %ld blocks are left\n", refused_at, blocks), exit(1);
}

int main(void) {
    memset(text, 'x', sizeof text);
    for (refused_at = 0; refused_at == 0 || asked > refused_at; refused_at++) {
        asked = 0;
        talk();
    }
    printf("%ld allocations, refused one after another; %ld times a call said so\n", refused_at - 1, refusals);
    return 0;
}
