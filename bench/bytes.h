/* The bytes of one packet of at most 1,500, and an endpoint that it is handed to: for the programs that count what a packet costs. */
#include "sctp_channels.h"
#include <stdio.h>
#include <stdlib.h>
#include <string.h>

enum { LIMIT = 1500, WINDOW = 32767, OWN = 9, PEER = 7, OWN_PORT = 2, PEER_PORT = 1 };
enum { DATA = 0, INIT = 1, SACK = 3, HEARTBEAT = 4, SHUTDOWN = 7, ERROR = 9, COOKIE_ECHO = 10, I_DATA = 64, RE_CONFIG = 130, FORWARD = 192, I_FORWARD = 194 };
enum { END = 1, BEGIN = 2, WHOLE = 3, UNORDERED = 4 };

static struct sctp_endpoint end;
static const struct sctp_endpoint_draw own = { OWN, 1, 0 }, peer = { PEER, 1, 0 };
static uint8_t packet[LIMIT + 8], answer[SCTP_EP_LONGEST_PACKET], room[SCTP_EP_LONGEST_PACKET];
static uint64_t tickets[SCTP_EP_MOST_TICKETS], now;
static struct sctp_endpoint_verdict verdict;
static size_t length;
static bool interleaved;

static inline void put16(uint8_t *at, uint32_t n) { at[0] = (uint8_t)(n >> 8), at[1] = (uint8_t)n; }
static inline void put32(uint8_t *at, uint32_t n) { put16(at, n >> 16), put16(at + 2, n); }

static inline void begin(void) {
    memset(packet, 0, 12);
    put16(packet, PEER_PORT), put16(packet + 2, OWN_PORT), put32(packet + 4, OWN), length = 12;
}

/* A chunk more, if it fits. */
static inline bool put(uint8_t kind, uint8_t flags, const uint8_t *value, size_t many) {
    size_t all = (many + 7) / 4 * 4;
    if (length + all > LIMIT) return false;
    memset(packet + length, 0, all);
    packet[length] = kind, packet[length + 1] = flags, put16(packet + length + 2, (uint32_t)many + 4);
    memcpy(packet + length + 4, value, many);
    length += all;
    return true;
}

/* The checksum. */
static inline void finish(void) {
    static uint32_t table[256];
    uint32_t sum = ~0u;
    for (uint32_t i = 0; table[255] == 0 && i < 256; i++) {
        uint32_t one = i;
        for (int bit = 0; bit < 8; bit++) one = one >> 1 ^ (one & 1 ? 0x82f63b78u : 0);
        table[i] = one;
    }
    memset(packet + 8, 0, 4);
    for (size_t i = 0; i < length; i++) sum = table[(sum ^ packet[i]) & 255] ^ sum >> 8;
    sum = ~sum;
    for (int i = 0; i < 4; i++) packet[8 + i] = (uint8_t)(sum >> 8 * i);
}

/* A chunk of user data of so many bytes, if it fits; its number is the SSN or the MID. */
static inline bool put_data(uint32_t tsn, uint32_t stream, uint32_t number, uint32_t fragment, uint8_t flags, size_t bytes) {
    uint8_t value[LIMIT] = { 0 };
    put32(value, tsn), put16(value + 4, stream);
    if (interleaved) put32(value + 8, number), put32(value + 12, fragment);
    else put16(value + 6, number);
    return put(interleaved ? I_DATA : DATA, flags, value, (interleaved ? 16 : 12) + bytes);
}

/* A SACK of so many blocks, so far apart and so wide, all of them moved on, if it fits. */
static inline bool put_sack(uint32_t cumulative, uint32_t blocks, uint32_t apart, uint32_t wide, uint32_t shift) {
    uint8_t value[LIMIT] = { 0 };
    put32(value, cumulative), put32(value + 4, 10000000), put16(value + 8, blocks);
    for (uint32_t i = 0; i < blocks; i++) {
        uint32_t start = i * apart + shift + 2;
        put16(value + 12 + 4 * i, start), put16(value + 14 + 4 * i, start + wide > 65535 ? 65535 : start + wide);
    }
    return put(SACK, 0, value, 12 + 4 * blocks);
}

static inline void hand_in(void) { sctp_endpoint_handle_packet(&end, now, packet, length, &own, answer, sizeof answer, &verdict); }
static inline void hear(void) { finish(), hand_in(); }

static inline void send_all(void) {
    struct sctp_endpoint_sent sent = { 0 };
    while (sctp_endpoint_poll_transmit(&end, now, room, sizeof room, tickets, SCTP_EP_MOST_TICKETS, &sent) == SCTP_EP_OK && sent.length > 0);
}

/* Much memory is asked for and given back, so that the allocator joins the small blocks that were given back before: what a call frees is counted with it. */
static inline void settle(void) { free(malloc(4096)); }

/* ---- what goes out before */

/* So many messages on these streams in turn, with this limit of retransmissions if it isn't below 0. */
static inline void send_messages(uint32_t many, uint32_t streams, size_t size, int limit) {
    static const uint8_t text[3000];
    uint64_t ticket;
    for (uint32_t i = 0; i < many; i++) {
        uint16_t stream = (uint16_t)(i % streams);
        if (limit < 0) sctp_endpoint_send(&end, stream, true, 0, text, size, SCTP_EP_NEVER, &ticket);
        else sctp_endpoint_send_with_max_retransmits(&end, stream, true, 0, text, size, SCTP_EP_NEVER, (uint16_t)limit, &ticket);
        if (i % 50 == 49) send_all();
    }
    send_all();
}

static inline size_t outstanding_now(void) {
    struct sctp_endpoint_status status = { 0 };
    sctp_endpoint_status(&end, &status);
    return status.outstanding;
}

static inline void acknowledge(uint32_t tsn) { begin(), put_sack(tsn, 0, 0, 0, 0), hear(), send_all(); }

/* Messages of 1,400 bytes go and are acknowledged until the congestion window has space for a window of messages of a byte; the last TSN of theirs. */
static inline uint32_t grow_window(void) {
    struct sctp_endpoint_path path = { 0 };
    uint32_t sent = 0;
    for (int round = 0; round < 400 && path.cwnd < 100000; round++) {
        send_messages(80, 1, 1400, -1);
        while (outstanding_now() > 0) acknowledge(++sent);
        sctp_endpoint_path(&end, &path);
    }
    return sent;
}

/* So many messages of a byte are outstanding; the last TSN before them. With congestion control one is acknowledged for each 50, since the limit of bursts counts
 * from there. */
static inline uint32_t fill_outstanding(uint32_t many, uint32_t streams, bool controlled, int limit) {
    if (!controlled) return send_messages(many, streams, 1, limit), 0;
    uint32_t before = grow_window();
    while (outstanding_now() < many) send_messages(50, streams, 1, limit), acknowledge(++before);
    return before;
}
