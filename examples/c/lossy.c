/* Two endpoints in one program, and between them a link that loses, repeats and reorders packets.
 *
 *     lossy SEED MESSAGES LOST MODE     LOST in percent; MODE: 1 for partial reliability, 2 for I-DATA, 3 for both, 0 for neither
 *
 * They open by packets, each sends MESSAGES messages to the other, on some streams, and one closes. It ends with 0 if every message
 * arrived once, in its order and with its bytes, and both endpoints completed. */
#include "sctp_endpoint.h"
#include <stdio.h>
#include <stdlib.h>
#include <string.h>

enum { STREAMS = 8, IN_FLIGHT = 4096, LONGEST = 5000 };

struct packet {
    size_t length;
    uint8_t bytes[SCTP_EP_LONGEST_PACKET];
};

struct peer {
    struct sctp_endpoint end;
    struct packet sent[IN_FLIGHT]; /* on the way to the other endpoint */
    size_t in_flight;
    uint32_t next[STREAMS]; /* the number of the next message to send */
    uint32_t due[STREAMS];  /* the number of the next message to be received */
    uint32_t queued, taken;
};

static struct peer peers[2];
static uint64_t now, seed;
static unsigned lost;

/* Pseudorandom numbers, so that a run can be repeated: no source for real draws and keys. */
static uint32_t random_below(uint32_t below) {
    seed = seed * 6364136223846793005u + 1442695040888963407u;
    return (uint32_t)(((seed >> 32) * below) >> 32);
}

static struct sctp_endpoint_draw draw(void) {
    struct sctp_endpoint_draw d = { 1 + random_below(UINT32_MAX), random_below(UINT32_MAX), 0 };
    return d;
}

static void must(uint32_t result, const char *what) {
    if (result == SCTP_EP_OK) return;
    fprintf(stderr, "%s: %u\n", what, result);
    exit(1);
}

/* Puts a packet onto the link: it may be lost, repeated, or overtake the one before it. */
static void carry(struct peer *from, const uint8_t *bytes, size_t length) {
    unsigned copies = random_below(100) < lost ? 0 : random_below(100) < lost ? 2 : 1;
    for (; copies > 0 && from->in_flight < IN_FLIGHT; copies--) {
        struct packet *place = &from->sent[from->in_flight++];
        if (lost && from->in_flight > 1 && random_below(8) == 0) *place = place[-1], place--;
        place->length = length;
        memcpy(place->bytes, bytes, length);
    }
}

static void transmit(struct peer *peer) {
    static uint8_t buffer[SCTP_EP_LONGEST_PACKET];
    static uint64_t tickets[SCTP_EP_MOST_TICKETS];
    struct sctp_endpoint_sent sent = { 0 };
    for (;;) {
        must(sctp_endpoint_poll_transmit(&peer->end, now, buffer, sizeof buffer, tickets, SCTP_EP_MOST_TICKETS, &sent), "poll_transmit");
        if (sent.length == 0) return;
        carry(peer, buffer, sent.length);
    }
}

static void deliver(struct peer *from, struct peer *to) {
    static struct packet coming[IN_FLIGHT];
    size_t count = from->in_flight;
    memcpy(coming, from->sent, count * sizeof *coming);
    from->in_flight = 0;
    for (size_t i = 0; i < count; i++) {
        static uint8_t buffer[SCTP_EP_LONGEST_PACKET];
        struct sctp_endpoint_verdict verdict = { 0 };
        struct sctp_endpoint_draw d = draw();
        must(sctp_endpoint_handle_packet(&to->end, now, coming[i].bytes, coming[i].length, &d, buffer, sizeof buffer, &verdict), "handle_packet");
        if (verdict.verdict == SCTP_EP_ANSWER) carry(to, buffer, verdict.length);
    }
}

/* Message `number` of a stream: its bytes depend on its number. */
static size_t message(uint16_t stream, uint32_t number, uint8_t *bytes) {
    size_t length = 1 + (number * 2654435761u + stream) % LONGEST;
    for (size_t i = 0; i < length; i++) bytes[i] = (uint8_t)(number + i * 7 + stream);
    return length;
}

static void queue(struct peer *peer, uint32_t messages) {
    static uint8_t bytes[LONGEST];
    while (peer->queued < messages) {
        uint16_t stream = (uint16_t)random_below(STREAMS);
        uint64_t ticket = 0;
        size_t length = message(stream, peer->next[stream], bytes);
        uint32_t result = sctp_endpoint_send(&peer->end, stream, true, peer->next[stream], bytes, length, SCTP_EP_NEVER, &ticket);
        if (result == SCTP_EP_QUEUE_FULL || result == SCTP_EP_NOT_OPEN) return;
        must(result, "send");
        peer->next[stream]++, peer->queued++;
    }
}

static void take(struct peer *peer) {
    static uint8_t buffer[LONGEST], wanted[LONGEST];
    struct sctp_endpoint_message received;
    memset(&received, 0, sizeof received);
    uint16_t stream = 0;
    while (sctp_endpoint_readable(&peer->end, 0, &stream) == SCTP_EP_OK) {
        must(sctp_endpoint_take(&peer->end, stream, &received, buffer, sizeof buffer), "take");
        size_t length = message(stream, peer->due[stream], wanted);
        if (received.length != length || received.payload_id != peer->due[stream] || memcmp(buffer, wanted, length) != 0)
            fprintf(stderr, "message %u of stream %u is another one\n", peer->due[stream], stream), exit(1);
        peer->due[stream]++, peer->taken++;
    }
}

static struct sctp_endpoint_status status(struct peer *peer) {
    struct sctp_endpoint_status s;
    memset(&s, 0, sizeof s);
    must(sctp_endpoint_status(&peer->end, &s), "status");
    return s;
}

static void open_both(unsigned mode) {
    struct sctp_endpoint_config config = SCTP_ENDPOINT_CONFIG(5000, 5001);
    struct sctp_endpoint_draw d = draw();
    struct sctp_endpoint_key key = { { 0 }, { 0 } };
    for (size_t i = 0; i < sizeof key.bytes; i++) key.bytes[i] = (uint8_t)random_below(256);
    config.outbound = config.inbound = STREAMS;
    config.partial = (mode & 1) != 0, config.interleave = (mode & 2) != 0;
    must(sctp_endpoint_caller(&peers[0].end, &config), "caller");
    config.own_port = 5001, config.peer_port = 5000;
    must(sctp_endpoint_listener(&peers[1].end, &config, &key), "listener");
    must(sctp_endpoint_connect(&peers[0].end, now, &d), "connect");
}

/* Nothing is on the way: time goes on to the next timer of either endpoint. */
static void wait(void) {
    uint64_t a = status(&peers[0]).next_moment, b = status(&peers[1]).next_moment, next = a < b ? a : b;
    if (next == SCTP_EP_NEVER) return;
    now = next > now ? next : now;
    for (int i = 0; i < 2; i++) must(sctp_endpoint_on_moment(&peers[i].end, now), "on_moment");
}

int main(int argc, char **argv) {
    if (argc != 5) return fprintf(stderr, "lossy SEED MESSAGES LOST MODE\n"), 2;
    uint32_t messages = (uint32_t)atoi(argv[2]);
    bool shut = false;
    seed = (uint64_t)atoi(argv[1]), lost = (unsigned)atoi(argv[3]);
    open_both((unsigned)atoi(argv[4]));
    for (long round = 0; round < 100000 && !(status(&peers[0]).ended && status(&peers[1]).ended); round++) {
        for (int i = 0; i < 2; i++) {
            queue(&peers[i], messages);
            transmit(&peers[i]);
            deliver(&peers[i], &peers[!i]);
            take(&peers[!i]);
        }
        if (!shut && peers[0].taken == messages && peers[1].taken == messages) {
            must(sctp_endpoint_shutdown(&peers[0].end), "shutdown");
            shut = true;
        } else if (peers[0].in_flight == 0 && peers[1].in_flight == 0)
            wait();
    }
    uint32_t a = status(&peers[0]).ended, b = status(&peers[1]).ended;
    printf("%u and %u messages in %llu ms; ended %u and %u\n", peers[0].taken, peers[1].taken, (unsigned long long)now, a, b);
    for (int i = 0; i < 2; i++) sctp_endpoint_free(&peers[i].end);
    return !(a == SCTP_EP_COMPLETED && b == SCTP_EP_COMPLETED && peers[0].taken == messages && peers[1].taken == messages);
}
