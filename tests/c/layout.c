/* The header says what the library does: sizes, places of fields, numbers of answers. */
#include "sctp_endpoint.h"
#include <stdio.h>
#include <string.h>

#define HOLDS(x) do { if (!(x)) { fprintf(stderr, "line %d: %s\n", __LINE__, #x); return 1; } } while (0)

/* A struct with bytes after it that no call may write. */
#define BEFORE 0xa5
#define IN_BYTES(type) union { struct type it; uint8_t bytes[sizeof(struct type) + 64]; }
static int is_kept(const uint8_t *bytes, size_t from, size_t to) {
    for (; from < to; from++) if (bytes[from] != BEFORE) return 0;
    return 1;
}

/* A derived key is HMAC-SHA-256 (by Python's hmac: key 07 and 31 zeros, text "message"); a master key of zeros is refused. */
static int derives_keys(struct sctp_endpoint_key *master, const struct sctp_endpoint_key *zeros) {
    static const uint8_t wanted[32] = { 0x83, 0x37, 0xea, 0xb2, 0xf1, 0x50, 0x19, 0x43, 0x6c, 0x69, 0xe5, 0x42, 0xb5, 0x85, 0xfa, 0x71,
                                        0xe7, 0x69, 0x9b, 0x09, 0x8d, 0xa6, 0x08, 0x9d, 0x63, 0x9f, 0x03, 0x2f, 0x97, 0x96, 0xe5, 0x29 };
    IN_BYTES(sctp_endpoint_key) key;
    memset(&key, BEFORE, sizeof key);
    HOLDS(sctp_endpoint_key_derived(zeros, (const uint8_t *)"message", 7, &key.it) == SCTP_EP_ZERO_KEY && is_kept(key.bytes, 0, sizeof key.bytes));
    master->reserved[2] = 1;
    HOLDS(sctp_endpoint_key_derived(master, (const uint8_t *)"message", 7, &key.it) == SCTP_EP_BAD_RESERVED && is_kept(key.bytes, 0, sizeof key.bytes));
    master->reserved[2] = 0;
    HOLDS(sctp_endpoint_key_derived(master, (const uint8_t *)"message", 7, &key.it) == SCTP_EP_OK && memcmp(key.it.bytes, wanted, 32) == 0);
    for (int i = 0; i < 4; i++) HOLDS(key.it.reserved[i] == 0);
    HOLDS(is_kept(key.bytes, sizeof key.it, sizeof key.bytes));
    HOLDS(sctp_endpoint_key_derived(master, NULL, 0, &key.it) == SCTP_EP_OK && key.it.bytes[0] == 0x87 && key.it.bytes[3] == 0x19);
    return 0;
}

/* A caller has its tag from connect on; nobody has one before, or once the association is over. */
static int tells_its_tag(const struct sctp_endpoint_config *config) {
    struct sctp_endpoint a = SCTP_ENDPOINT_INIT;
    struct sctp_endpoint_draw own = SCTP_ENDPOINT_DRAW(6, 100), first = SCTP_ENDPOINT_DRAW(0, 0), last = SCTP_ENDPOINT_DRAW(UINT32_MAX, 1);
    struct sctp_endpoint_status status = { 0 };
    uint32_t tag = 1;
    HOLDS(own.tag == 7 && own.tsn == 100 && own.reserved == 0 && first.tag == 1 && last.tag == 1 && last.tsn == 1);
    HOLDS(sctp_endpoint_own_tag(&a, &tag) == SCTP_EP_MISUSE && sctp_endpoint_caller(&a, config) == SCTP_EP_OK);
    HOLDS(sctp_endpoint_own_tag(&a, &tag) == SCTP_EP_NOTHING && tag == 1);
    HOLDS(sctp_endpoint_status(&a, &status) == SCTP_EP_OK && status.own_tag == 0);
    HOLDS(sctp_endpoint_connect(&a, 0, &own) == SCTP_EP_OK && sctp_endpoint_own_tag(&a, &tag) == SCTP_EP_OK && tag == 7);
    HOLDS(sctp_endpoint_status(&a, &status) == SCTP_EP_OK && status.own_tag == 7 && status.state == SCTP_EP_COOKIE_WAIT);
    sctp_endpoint_free(&a), sctp_endpoint_free(NULL);
    return 0;
}

int main(void) {
    struct sctp_endpoint a = SCTP_ENDPOINT_INIT, b = SCTP_ENDPOINT_INIT, other = SCTP_ENDPOINT_INIT;
    struct sctp_endpoint_config config = SCTP_ENDPOINT_CONFIG(5000, 5001), wrong;
    struct sctp_endpoint_draw own = { 7, 100, 0 }, peer = { 9, 500, 0 }, none = { 0, 1, 0 }, later = own;
    struct sctp_endpoint_key key = { { 7 }, { 0 } }, zeros = { { 0 }, { 0 } };
    char name[SCTP_EP_LONGEST_NAME];
    uint8_t room[SCTP_EP_LONGEST_PACKET], text[8] = "message";
    uint64_t tickets[SCTP_EP_MOST_TICKETS], ticket = 0, earlier = 0;
    IN_BYTES(sctp_endpoint_status) status;
    IN_BYTES(sctp_endpoint_path) path;
    IN_BYTES(sctp_endpoint_counts) counts;
    IN_BYTES(sctp_endpoint_message) message;
    IN_BYTES(sctp_endpoint_sent) sent;
    IN_BYTES(sctp_endpoint_verdict) verdict;
    uint32_t fate = 0;
    uint16_t stream = 0, source = 0, destination = 0, cause = 0;
    uint32_t tag = 0;
    size_t length = 0;
    bool is = false;

    HOLDS(sctp_endpoint_abi() == SCTP_EP_ABI);
    HOLDS(sizeof(struct sctp_endpoint) == 16 && sizeof config == 36 && sizeof own == 16 && sizeof(struct sctp_endpoint_key) == 48);
    HOLDS(sizeof(struct sctp_endpoint_sent) == 24 && sizeof(struct sctp_endpoint_verdict) == 24);

    /* Texts: of each result, and of the version; with a 0 after them, and not at all if that doesn't fit. */
    for (uint32_t code = 0; code < 30; code++) HOLDS(sctp_endpoint_name(code, name, sizeof name) == strlen(name) && strlen(name) > 3);
    HOLDS(sctp_endpoint_version(name, sizeof name) == 5 && strcmp(name, SCTP_EP_VERSION) == 0);
    memset(name, 'x', sizeof name);
    HOLDS(sctp_endpoint_version(name, 5) == 5 && name[0] == 'x' && sctp_endpoint_version(name, 6) == 5 && name[5] == 0 && name[6] == 'x');
    HOLDS(sctp_endpoint_name(4, NULL, 0) > 0);

    /* Nothing is in the handle. */
    memset(&status, 0, sizeof status);
    HOLDS(sctp_endpoint_status(&a, &status.it) == SCTP_EP_MISUSE);
    HOLDS(sctp_endpoint_connect(&a, 0, &own) == SCTP_EP_MISUSE && sctp_endpoint_shutdown(&a) == SCTP_EP_MISUSE);
    HOLDS(sctp_endpoint_send(&a, 0, true, 0, text, 7, SCTP_EP_NEVER, &ticket) == SCTP_EP_MISUSE);
    HOLDS(sctp_endpoint_send_with_max_retransmits(&a, 0, true, 0, text, 7, SCTP_EP_NEVER, 0, &ticket) == SCTP_EP_MISUSE);
    HOLDS(sctp_endpoint_on_moment(&a, 0) == SCTP_EP_MISUSE && sctp_endpoint_abandon(&a, 1, &fate) == SCTP_EP_MISUSE);
    HOLDS(sctp_endpoint_trim(&a) == SCTP_EP_MISUSE);
    HOLDS(sctp_endpoint_acknowledged(&a, 1, &is) == SCTP_EP_MISUSE && sctp_endpoint_abandoned(&a, 1, &is) == SCTP_EP_MISUSE);
    HOLDS(sctp_endpoint_abort(&a, text, 7, room, sizeof room, &length) == SCTP_EP_MISUSE);
    sctp_endpoint_free(&a);

    /* The faults of a configuration, each by its field. */
    wrong = config; wrong.own_port = 0; HOLDS(sctp_endpoint_caller(&a, &wrong) == SCTP_EP_BAD_PORT);
    wrong = config; wrong.peer_port = 0; HOLDS(sctp_endpoint_caller(&a, &wrong) == SCTP_EP_BAD_PORT);
    wrong = config; wrong.packet_limit = 575; HOLDS(sctp_endpoint_caller(&a, &wrong) == SCTP_EP_BAD_PACKET_LIMIT);
    wrong = config; wrong.fragment = 1201; HOLDS(sctp_endpoint_caller(&a, &wrong) == SCTP_EP_BAD_FRAGMENT);
    wrong = config; wrong.buffer = 65535; HOLDS(sctp_endpoint_caller(&a, &wrong) == SCTP_EP_BAD_BUFFER);
    wrong = config; wrong.outbound = 0; HOLDS(sctp_endpoint_caller(&a, &wrong) == SCTP_EP_BAD_STREAMS);
    wrong = config; wrong.inbound = 1025; HOLDS(sctp_endpoint_caller(&a, &wrong) == SCTP_EP_BAD_STREAMS);
    wrong = config; wrong.flags = 8; HOLDS(sctp_endpoint_caller(&a, &wrong) == SCTP_EP_BAD_RESERVED);
    for (int i = 0; i < 2; i++) { wrong = config; wrong.reserved[i] = 1u << 31; HOLDS(sctp_endpoint_caller(&a, &wrong) == SCTP_EP_BAD_RESERVED); }
    for (int i = 0; i < 4; i++) { key.reserved[i] = 1; HOLDS(sctp_endpoint_listener(&a, &config, &key) == SCTP_EP_BAD_RESERVED); key.reserved[i] = 0; }
    HOLDS(sctp_endpoint_listener(&a, &config, &zeros) == SCTP_EP_ZERO_KEY && !a.full);
    zeros.reserved[3] = 1; HOLDS(sctp_endpoint_listener(&a, &config, &zeros) == SCTP_EP_BAD_RESERVED); zeros.reserved[3] = 0;
    zeros.bytes[31] = 1; HOLDS(sctp_endpoint_listener(&a, &config, &zeros) == SCTP_EP_OK); zeros.bytes[31] = 0;
    HOLDS(sctp_endpoint_listener(&a, &config, &zeros) == SCTP_EP_MISUSE && sctp_endpoint_own_tag(&a, &tag) == SCTP_EP_NOTHING && tag == 0);
    sctp_endpoint_free(&a);
    HOLDS(derives_keys(&key, &zeros) == 0);
    HOLDS(sctp_endpoint_opened(&a, &config, &none, &peer) == SCTP_EP_BAD_DRAW && sctp_endpoint_opened(&a, &config, &own, &none) == SCTP_EP_BAD_DRAW);
    later.reserved = 1;
    HOLDS(sctp_endpoint_opened(&a, &config, &later, &peer) == SCTP_EP_BAD_RESERVED && sctp_endpoint_opened(&a, &config, &own, &later) == SCTP_EP_BAD_RESERVED);
    HOLDS(!a.full);

    /* Two endpoints, opened at once; opened twice. */
    HOLDS(sctp_endpoint_opened(&a, &config, &own, &peer) == SCTP_EP_OK);
    HOLDS(sctp_endpoint_opened(&a, &config, &own, &peer) == SCTP_EP_MISUSE && sctp_endpoint_caller(&a, &config) == SCTP_EP_MISUSE);
    config.own_port = 5001, config.peer_port = 5000;
    HOLDS(sctp_endpoint_opened(&b, &config, &peer, &own) == SCTP_EP_OK);

    HOLDS(sctp_endpoint_connect(&a, 0, &own) == SCTP_EP_BAD_STATE && sctp_endpoint_connect(&a, 0, &none) == SCTP_EP_BAD_DRAW);
    HOLDS(sctp_endpoint_connect(&a, 0, &later) == SCTP_EP_BAD_RESERVED);
    HOLDS(sctp_endpoint_send(&a, 64, true, 0, text, 7, SCTP_EP_NEVER, &ticket) == SCTP_EP_NO_SUCH_STREAM);
    HOLDS(sctp_endpoint_send(&a, 0, true, 0, text, 0, SCTP_EP_NEVER, &ticket) == SCTP_EP_EMPTY && ticket == 0);
    HOLDS(sctp_endpoint_send_with_max_retransmits(&a, 0, true, 0, text, 0, SCTP_EP_NEVER, 1, &ticket) == SCTP_EP_EMPTY && ticket == 0);
    HOLDS(sctp_endpoint_send(&a, 0, true, 0, NULL, 0, SCTP_EP_NEVER, &ticket) == SCTP_EP_EMPTY && ticket == 0);
    HOLDS(sctp_endpoint_send(&a, 3, false, 51, text, 7, SCTP_EP_NEVER, &ticket) == SCTP_EP_OK && ticket == 1);
    HOLDS(sctp_endpoint_send_with_max_retransmits(&a, 4, true, 52, text, 6, SCTP_EP_NEVER, 65535, &ticket) == SCTP_EP_OK && ticket == 2);

    memset(&status, BEFORE, sizeof status);
    HOLDS(sctp_endpoint_status(&a, &status.it) == SCTP_EP_OK && status.it.queued == 2 && status.it.queued_bytes == 13 && status.it.peer_window == 4194304);

    /* Nothing is written to a buffer that is too small. */
    memset(&sent, BEFORE, sizeof sent);
    HOLDS(sctp_endpoint_poll_transmit(&a, 0, room, 1231, tickets, SCTP_EP_MOST_TICKETS, &sent.it) == SCTP_EP_NEEDS_ROOM && sent.it.length == 1232);
    HOLDS(is_kept(sent.bytes, sizeof sent.it, sizeof sent.bytes) && sent.it.reserved == 0);
    HOLDS(sctp_endpoint_poll_transmit(&a, 0, NULL, 0, NULL, 0, &sent.it) == SCTP_EP_NEEDS_ROOM && sent.it.length == 1232);
    memset(tickets, BEFORE, sizeof tickets);
    HOLDS(sctp_endpoint_poll_transmit(&a, 0, room, 1232, tickets, 1, &sent.it) == SCTP_EP_OK && sent.it.length > 12 && sent.it.tickets == 2);
    HOLDS(tickets[0] == 1 && is_kept((uint8_t *)tickets, 8, sizeof tickets));
    HOLDS(sctp_endpoint_peek_packet(room, sent.it.length, &source, &destination, &tag) == SCTP_EP_OK && source == 5000 && destination == 5001 && tag == 9);
    HOLDS(sctp_endpoint_peek_packet(room, 11, &source, &destination, &tag) == SCTP_EP_NOTHING);
    HOLDS(sctp_endpoint_peek_packet(NULL, 0, &source, &destination, &tag) == SCTP_EP_NOTHING && tag == 9);
    HOLDS(sctp_endpoint_abort_cause(room, sent.it.length, &cause, text, sizeof text, &length) == SCTP_EP_NOTHING && cause == 0 && length == 0);
    memset(&verdict, BEFORE, sizeof verdict);
    HOLDS(sctp_endpoint_handle_packet(&b, 0, room, sent.it.length, &own, room, 1231, &verdict.it) == SCTP_EP_NEEDS_ROOM && verdict.it.length == 1232);
    {
        uint8_t answer[1232];
        HOLDS(sctp_endpoint_handle_packet(&b, 0, room, sent.it.length, &none, answer, sizeof answer, &verdict.it) == SCTP_EP_BAD_DRAW);
        HOLDS(sctp_endpoint_handle_packet(&b, 0, room, sent.it.length, &later, answer, sizeof answer, &verdict.it) == SCTP_EP_BAD_RESERVED);
        HOLDS(sctp_endpoint_handle_packet(&b, 0, NULL, 0, &own, answer, sizeof answer, &verdict.it) == SCTP_EP_OK && verdict.it.reason == SCTP_EP_FAULT);
        HOLDS(verdict.it.reserved == 0);
        HOLDS(sctp_endpoint_handle_packet(&b, 0, room, 11, &own, answer, sizeof answer, &verdict.it) == SCTP_EP_OK);
        HOLDS(verdict.it.verdict == SCTP_EP_DROPPED && verdict.it.reason == SCTP_EP_FAULT && verdict.it.length == 0);
        HOLDS(sctp_endpoint_handle_packet(&b, 0, room, sent.it.length, &own, answer, sizeof answer, &verdict.it) == SCTP_EP_OK);
        HOLDS(verdict.it.verdict == SCTP_EP_TAKEN && verdict.it.reason == SCTP_EP_NO_REASON && verdict.it.length == 0);
        HOLDS(is_kept(verdict.bytes, sizeof verdict.it, sizeof verdict.bytes));
    }

    /* What was received. */
    memset(&status, BEFORE, sizeof status);
    HOLDS(sctp_endpoint_status(&b, &status.it) == SCTP_EP_OK && status.it.held_bytes == 13 && status.it.state == SCTP_EP_ESTABLISHED);
    HOLDS(status.it.ended == SCTP_EP_NOT_ENDED && status.it.outbound == 64 && status.it.inbound == 64 && status.it.interleaved && status.it.partial);
    HOLDS(status.it.reassembly_bytes == 0 && status.it.resetting == 0 && status.it.reserved == 0 && status.it.own_tag == 9);
    HOLDS(status.it.tickets == 0 && status.it.outstanding == 0 && status.it.next_moment == SCTP_EP_NEVER);
    HOLDS(sctp_endpoint_own_tag(&b, &tag) == SCTP_EP_OK && tag == 9 && sctp_endpoint_own_tag(&a, &tag) == SCTP_EP_OK && tag == 7);
    HOLDS(is_kept(status.bytes, sizeof status.it, sizeof status.bytes));
    HOLDS(sctp_endpoint_status(&a, &status.it) == SCTP_EP_OK && status.it.outstanding == 2 && status.it.tickets == 2 && status.it.next_moment == 1000);
    memset(&path, BEFORE, sizeof path);
    HOLDS(sctp_endpoint_path(&a, &path.it) == SCTP_EP_OK && path.it.in_flight == 13 && path.it.flags == 0 && path.it.rto == 0 && path.it.srtt == 0);
    HOLDS(path.it.rttvar == 0 && path.it.cwnd == 0 && path.it.ssthresh == 0 && path.it.reserved == 0 && is_kept(path.bytes, sizeof path.it, sizeof path.bytes));
    HOLDS(sctp_endpoint_path(&b, &path.it) == SCTP_EP_OK && path.it.in_flight == 0);
    memset(&counts, BEFORE, sizeof counts);
    HOLDS(sctp_endpoint_counts(&other, &counts.it) == SCTP_EP_MISUSE && is_kept(counts.bytes, 0, sizeof counts.bytes));
    HOLDS(sctp_endpoint_counts(&a, &counts.it) == SCTP_EP_OK && counts.it.packets_out == 1 && counts.it.bytes_out == sent.it.length);
    HOLDS(counts.it.packets_in == 0 && counts.it.bytes_in == 0 && counts.it.first_sent == 2 && counts.it.timer_retransmitted == 0);
    HOLDS(counts.it.fast_retransmitted == 0 && counts.it.sacks_out == 0 && counts.it.sacks_in == 0 && counts.it.abandoned == 0);
    HOLDS(counts.it.dropped_fault == 0 && counts.it.reserved == 0 && is_kept(counts.bytes, sizeof counts.it, sizeof counts.bytes));
    HOLDS(sctp_endpoint_counts(&b, &counts.it) == SCTP_EP_OK && counts.it.packets_in == 3 && counts.it.bytes_in == sent.it.length + 11);
    HOLDS(counts.it.packets_out == 0 && counts.it.dropped_fault == 2 && counts.it.dropped_ports == 0 && counts.it.dropped_tag == 0);
    HOLDS(counts.it.dropped_state == 0 && counts.it.dropped_cookie == 0);
    memset(&message, BEFORE, sizeof message);
    HOLDS(sctp_endpoint_readable(&b, 0, &stream) == SCTP_EP_OK && stream == 3 && sctp_endpoint_readable(&b, 4, &stream) == SCTP_EP_OK && stream == 4);
    HOLDS(sctp_endpoint_readable(&b, 5, &stream) == SCTP_EP_NOTHING && sctp_endpoint_readable(&other, 0, &stream) == SCTP_EP_MISUSE && stream == 4);
    HOLDS(sctp_endpoint_peek(&b, 0, &message.it) == SCTP_EP_NOTHING && sctp_endpoint_take(&b, 0, &message.it, room, 7) == SCTP_EP_NOTHING);
    HOLDS(sctp_endpoint_take(&b, 3, &message.it, room, 6) == SCTP_EP_NEEDS_ROOM && message.it.length == 7);
    HOLDS(sctp_endpoint_take(&b, 3, &message.it, NULL, 0) == SCTP_EP_NEEDS_ROOM && message.it.length == 7);
    HOLDS(sctp_endpoint_peek(&b, 4, &message.it) == SCTP_EP_OK && message.it.ordered && message.it.numbered && message.it.number == 0);
    HOLDS(sctp_endpoint_take(&b, 3, &message.it, room, 7) == SCTP_EP_OK && memcmp(room, text, 7) == 0);
    HOLDS(message.it.stream == 3 && !message.it.ordered && message.it.payload_id == 51 && message.it.length == 7);
    HOLDS(message.it.reserved[0] == 0 && message.it.reserved[3] == 0 && is_kept(message.bytes, sizeof message.it, sizeof message.bytes));
    HOLDS(sctp_endpoint_peek(&b, 3, &message.it) == SCTP_EP_NOTHING);
    HOLDS(sctp_endpoint_trim(&b) == SCTP_EP_OK && sctp_endpoint_peek(&b, 4, &message.it) == SCTP_EP_OK && message.it.length == 6);

    /* Resets, which weren't asked for. */
    HOLDS(sctp_endpoint_reset(&a, 3) == SCTP_EP_BAD_STATE && sctp_endpoint_reset(&other, 3) == SCTP_EP_MISUSE);
    HOLDS(sctp_endpoint_resetting(&a, 3, &is) == SCTP_EP_OK && !is && sctp_endpoint_resetting(&other, 3, &is) == SCTP_EP_MISUSE);
    HOLDS(sctp_endpoint_take_reset(&b, &stream, &earlier) == SCTP_EP_NOTHING && sctp_endpoint_take_reset(&other, &stream, &earlier) == SCTP_EP_MISUSE);
    HOLDS(stream == 4 && earlier == 0);
    config.flags = SCTP_EP_STREAM_RESET, config.own_port = 5000, config.peer_port = 5001;
    HOLDS(sctp_endpoint_opened(&other, &config, &own, &peer) == SCTP_EP_OK && sctp_endpoint_reset(&other, 64) == SCTP_EP_NO_SUCH_STREAM);
    HOLDS(sctp_endpoint_reset(&other, 3) == SCTP_EP_OK && sctp_endpoint_resetting(&other, 3, &is) == SCTP_EP_OK && is);
    HOLDS(sctp_endpoint_send(&other, 3, true, 0, text, 7, SCTP_EP_NEVER, &ticket) == SCTP_EP_RESETTING);
    HOLDS(sctp_endpoint_status(&other, &status.it) == SCTP_EP_OK && status.it.resetting == 1 && is_kept(status.bytes, sizeof status.it, sizeof status.bytes));

    HOLDS(sctp_endpoint_abandon(&a, 1, &fate) == SCTP_EP_OK && fate == SCTP_EP_ABANDONED);
    HOLDS(sctp_endpoint_abandon(&a, 9, &fate) == SCTP_EP_OK && fate == SCTP_EP_UNKNOWN);
    HOLDS(sctp_endpoint_abandoned(&a, 1, &is) == SCTP_EP_OK && is && sctp_endpoint_acknowledged(&a, 1, &is) == SCTP_EP_OK && !is);
    HOLDS(sctp_endpoint_abort(&b, text, 7, room, 1231, &length) == SCTP_EP_NEEDS_ROOM && length == 1232);
    HOLDS(sctp_endpoint_abort(&b, text, 7, room, 1232, &length) == SCTP_EP_OK && length > 12);
    {
        uint8_t why[8] = { 0 };
        size_t packet = length;
        HOLDS(sctp_endpoint_abort_cause(room, packet, &cause, why, 6, &length) == SCTP_EP_NEEDS_ROOM && cause == 12 && length == 7 && why[0] == 0);
        HOLDS(sctp_endpoint_abort_cause(room, packet, &cause, why, 7, &length) == SCTP_EP_OK && length == 7 && memcmp(why, text, 7) == 0);
        HOLDS(sctp_endpoint_abort_cause(room, packet, &cause, NULL, 0, &length) == SCTP_EP_NEEDS_ROOM);
    }
    HOLDS(sctp_endpoint_abort(&a, NULL, 0, room, 1232, &length) == SCTP_EP_OK && length == 20);
    HOLDS(sctp_endpoint_abort_cause(room, length, &cause, NULL, 0, &length) == SCTP_EP_OK && cause == 12 && length == 0);
    HOLDS(sctp_endpoint_abort(&b, text, 7, room, 1232, &length) == SCTP_EP_BAD_STATE);
    HOLDS(sctp_endpoint_own_tag(&b, &tag) == SCTP_EP_NOTHING && tag == 7 && tells_its_tag(&config) == 0);
    HOLDS(sctp_endpoint_shutdown(&b) == SCTP_EP_NOT_OPEN && sctp_endpoint_send(&b, 0, true, 0, text, 7, SCTP_EP_NEVER, &ticket) == SCTP_EP_NOT_OPEN);

    sctp_endpoint_free(&a), sctp_endpoint_free(&b), sctp_endpoint_free(&b), sctp_endpoint_free(&other);
    HOLDS(sctp_endpoint_on_moment(&a, 0) == SCTP_EP_MISUSE && !a.full && !b.full);
    return 0;
}
