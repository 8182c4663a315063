/* An endpoint of a flow: what is counted of its packets, its user's messages. */
#include "links.h"
#include <stdlib.h>
#include <string.h>

static uint32_t number_at(const uint8_t *at) { return (uint32_t)at[0] << 24 | (uint32_t)at[1] << 16 | (uint32_t)at[2] << 8 | at[3]; }
static size_t pair_at(const uint8_t *at) { return (size_t)at[0] << 8 | at[1]; }
static void put_pair(uint8_t *at, size_t value) { at[0] = (uint8_t)(value >> 8), at[1] = (uint8_t)value; }

void need(bool holds, const char *what) {
    if (holds) return;
    fprintf(stderr, "links: %s\n", what);
    exit(3);
}

uint16_t own_port(const struct side *side) { return (uint16_t)(PORT + 2 * side->flow->number + !side->sends); }
uint16_t peer_port(const struct side *side) { return (uint16_t)(PORT + 2 * side->flow->number + side->sends); }

static uint32_t checksum(const uint8_t *bytes, size_t length) { /* CRC32c with the field as 0 */
    uint32_t sum = ~0u;
    for (size_t at = 0; at < length; at++) {
        sum ^= at >= 8 && at < HEADER ? 0 : bytes[at];
        for (int bit = 0; bit < 8; bit++) sum = sum & 1 ? sum >> 1 ^ 0x82f63b78u : sum >> 1;
    }
    return ~sum;
}

/* The packet as a peer that reports so many gap blocks would send it: a first chunk that is a SACK loses the others, and what follows it. */
static size_t cut_blocks(const uint8_t *packet, size_t length, uint8_t *cut) {
    size_t blocks = (size_t)settings.blocks, value = 16 + 4 * blocks;
    if (blocks == 0 || length < HEADER + 16 || packet[HEADER] != IS_SACK || pair_at(packet + HEADER + 12) <= blocks) return 0;
    memcpy(cut, packet, HEADER + value);
    put_pair(cut + HEADER + 2, value), put_pair(cut + HEADER + 12, blocks), put_pair(cut + HEADER + 14, 0);
    uint32_t sum = checksum(cut, HEADER + value);
    for (int at = 0; at < 4; at++) cut[8 + at] = (uint8_t)(sum >> 8 * at);
    return HEADER + value;
}

/* Whether the chunk has data that was sent before. */
static bool is_repeat(struct side *side, uint32_t tsn) {
    if (side->has_highest && (int32_t)(tsn - side->highest) <= 0) return true;
    side->highest = tsn, side->has_highest = true;
    return false;
}

static void count_chunks(struct side *side, const uint8_t *packet, size_t length) {
    for (size_t at = HEADER; at + 4 <= length;) {
        size_t value = pair_at(packet + at + 2);
        if (value < 4) return;
        if (packet[at] == IS_DATA || packet[at] == IS_I_DATA) side->repeats += is_repeat(side, number_at(packet + at + 4));
        side->sacks += packet[at] == IS_SACK;
        at += (value + 3) & ~(size_t)3;
    }
}

static void write_trace(const struct side *side, const uint8_t *packet, size_t length, uint64_t at, uint64_t repeats) {
    fprintf(trace, "%.3f flow %d %s %s", (double)now_us / 1000, side->flow->number, side->sends ? "sender" : "receiver", at ? "sends" : "loses");
    if (length >= HEADER + 8 && packet[HEADER] == IS_SACK)
        fprintf(trace, " SACK %u blocks %zu", number_at(packet + HEADER + 4), pair_at(packet + HEADER + 12));
    else if (length >= HEADER + 8)
        fprintf(trace, " chunk %u %u%s", packet[HEADER], number_at(packet + HEADER + 4), side->repeats > repeats ? " again" : "");
    fputc('\n', trace);
}

void transmit(struct side *side, const uint8_t *packet, size_t length) {
    uint8_t cut[HEADER + LONGEST_PACKET];
    size_t shorter = side->sends ? 0 : cut_blocks(packet, length, cut);
    if (shorter > 0) packet = cut, length = shorter;
    uint64_t repeats = side->repeats;
    side->packets++;
    count_chunks(side, packet, length);
    uint64_t at = carry(side->out, length);
    if (trace) write_trace(side, packet, length, at, repeats);
    if (at == 0) return;
    struct packet sent = { at, 0, &side->flow->side[side->sends], length, malloc(length) };
    need(sent.bytes != NULL, "memory");
    memcpy(sent.bytes, packet, length);
    launch(sent);
}

void arrived(struct side *side, const uint8_t *message, size_t length) {
    uint32_t number = length >= 4 ? number_at(message) : 0;
    side->unordered += number != side->next_number;
    side->next_number = number + 1;
    side->got++, side->octets += length, side->last_us = now_us;
}

void offer(struct side *side) {
    static uint8_t message[65536];
    struct flow *flow = side->flow;
    if (!side->is_open || !flow->has_begun) return;
    while (flow->offered < flow->messages || settings.seconds > 0) {
        put_pair(message, flow->offered >> 16), put_pair(message + 2, flow->offered & 0xffff);
        if (!side->kind->send(side, message, (size_t)settings.size)) break;
        flow->offered++;
    }
    side->kind->poll(side);
}

void settle(struct side *side) {
    if (settings.read == 0) side->kind->read(side);
    side->kind->poll(side);
    if (!side->sends) return;
    if (side->is_open && side->flow->opened_us == 0) side->flow->opened_us = now_us;
    offer(side);
}
