/* A chat of many clients at one UDP socket (RFC 6951: a packet is the payload of a datagram). docs/C.md, "Several peers at one socket", has the
 * reasons.
 *
 *     server 9899
 *
 * A client calls SCTP port 5001 from any port, and its first message says who it is: a name, a space, and a secret that it keeps over its restarts.
 * The answer is "welcome". What it sends from then on goes to all other clients, after its name. A message with the payload protocol identifier ASK
 * says nothing: its acknowledgement says that a quiet client is still there. A client that has heard nothing for 30 seconds sends one, too. */
#define _POSIX_C_SOURCE 200809L
#include "sctp_endpoint.h"
#include <arpa/inet.h>
#include <fcntl.h>
#include <poll.h>
#include <stdio.h>
#include <stdlib.h>
#include <string.h>
#include <sys/socket.h>
#include <time.h>
#include <unistd.h>

enum {
    PORT = 5001,         /* of SCTP */
    LONGEST = 4096,      /* bytes of a message */
    LONGEST_WHO = 256,   /* bytes of a name and a secret */
    MOST = 10000,        /* clients */
    MOST_UNKNOWN = 2000, /* clients at one IP address that haven't said who they are; and those that are gone and whose cookies live */
    PACKETS_A_TURN = 64,
    BUFFER = 65536,      /* bytes of a receive buffer: there is one stream, and its messages are shorter */
    FIRST = 30000,       /* ms for a client to say who it is: what is lost is sent again after 1, 3, 7 and 15 seconds */
    QUIET = 20000,       /* ms after which a quiet client is asked */
    COOKIE_LIFE = 60000, /* ms for which a state cookie opens an association */
    ABORT = 6, COOKIE_ECHO = 10, SHUTDOWN_COMPLETE = 14, /* types of a packet's first chunk */
    TALK = 0, ASK = 1    /* payload protocol identifiers */
};

struct client {
    struct client *next;
    struct sctp_endpoint end;
    struct sockaddr_in at; /* the port is the one that the last packet with its tag was received from */
    uint32_t tag;          /* of packets to the server: the client is found by it */
    uint32_t peer_tag;     /* of packets to the client, and of those with the T bit from it */
    bool missed;           /* a message to it couldn't be queued */
    uint64_t opened, heard;
    char who[LONGEST_WHO]; /* name, space, secret: of `length` bytes, 0 if it hasn't said who it is */
    size_t length, name;
};

static struct client *clients, *gone; /* those that are gone are kept, without an endpoint, as long as their cookies live */
static struct sctp_endpoint_key master;
static int udp, urandom;
static uint64_t now;

static void fail(const char *what) {
    perror(what);
    exit(1);
}

static void fill(void *at, size_t length) {
    if (read(urandom, at, length) != (ssize_t)length) fail("/dev/urandom");
}

static void read_clock(void) {
    struct timespec t;
    clock_gettime(CLOCK_MONOTONIC, &t);
    now = (uint64_t)t.tv_sec * 1000 + (uint64_t)t.tv_nsec / 1000000;
}

static void put(const struct sockaddr_in *to, const uint8_t *packet, size_t length) {
    (void)!sendto(udp, packet, length, 0, (const struct sockaddr *)to, sizeof *to); /* what is lost is sent again */
}

static struct sctp_endpoint_status status(struct client *c) {
    struct sctp_endpoint_status s = { 0 };
    sctp_endpoint_status(&c->end, &s);
    return s;
}

/* A server of thousands has a hash table. */
static struct client *with_tag(struct client *list, uint32_t tag) {
    while (list && list->tag != tag) list = list->next;
    return list;
}

static void forget_old(void) {
    for (struct client **link = &gone; *link;) {
        struct client *c = *link;
        if (now <= c->opened + COOKIE_LIFE) link = &c->next;
        else *link = c->next, free(c);
    }
}

/* New random values; the tag names one client alone. */
static struct sctp_endpoint_draw draw(void) {
    for (;;) {
        uint32_t random[2] = { 0 };
        fill(random, sizeof random);
        struct sctp_endpoint_draw d = SCTP_ENDPOINT_DRAW(random[0], random[1]);
        if (!with_tag(clients, d.tag) && !with_tag(gone, d.tag)) return d;
    }
}

static void drop(struct client *c) {
    struct client **link = &clients;
    while (*link != c) link = &(*link)->next;
    *link = c->next;
    sctp_endpoint_free(&c->end);
    c->next = gone, gone = c;
}

static void turn_out(struct client *c, const char *why) {
    static uint8_t packet[SCTP_EP_LONGEST_PACKET];
    size_t length = 0;
    if (sctp_endpoint_abort(&c->end, (const uint8_t *)why, strlen(why), packet, sizeof packet, &length) == SCTP_EP_OK) put(&c->at, packet, length);
    drop(c);
}

static void say(struct client *to, uint32_t what, const char *bytes, size_t length) {
    uint64_t ticket = 0;
    uint32_t result = sctp_endpoint_send(&to->end, 0, true, what, (const uint8_t *)bytes, length, SCTP_EP_NEVER, &ticket);
    if (result != SCTP_EP_OK && result != SCTP_EP_NOT_OPEN) to->missed = true; /* its next turn aborts it. One that isn't open is leaving */
}

/* A client says who it is. If another one has the name, the secret decides: with it the peer was restarted, and the old endpoint is aborted; without,
 * this client is turned out. Addresses decide nothing. */
static bool join(struct client *c, const uint8_t *bytes, size_t length) {
    const uint8_t *space = memchr(bytes, ' ', length);
    size_t name = space ? (size_t)(space - bytes) : 0;
    struct client *old = clients;
    if (name == 0 || length > LONGEST_WHO) return turn_out(c, "a name, a space, a secret"), false;
    while (old && !(old->length > 0 && old->name == name && memcmp(old->who, bytes, name) == 0)) old = old->next;
    if (old && (old->length != length || memcmp(old->who, bytes, length) != 0)) return turn_out(c, "the name is taken"), false;
    if (old) turn_out(old, "there is another one with this name and secret"); /* a restarted client has another tag, and ignores it */
    memcpy(c->who, bytes, length), c->length = length, c->name = name;
    say(c, TALK, "welcome", 7);
    return true;
}

/* Takes the messages of a client; false if it is gone. */
static bool take(struct client *c) {
    static uint8_t buffer[BUFFER];
    static char line[2 * LONGEST + 2];
    struct sctp_endpoint_message message = { 0 };
    while (sctp_endpoint_take(&c->end, 0, &message, buffer, sizeof buffer) == SCTP_EP_OK) {
        if (message.length > LONGEST) return turn_out(c, "too long"), false;
        if (c->length == 0) {
            if (!join(c, buffer, message.length)) return false;
            continue;
        }
        if (message.payload_id != TALK) continue;
        memcpy(line, c->who, c->name), memcpy(line + c->name, ": ", 2), memcpy(line + c->name + 2, buffer, message.length);
        for (struct client *other = clients; other; other = other->next)
            if (other != c && other->length > 0) say(other, TALK, line, c->name + 2 + message.length);
    }
    return true;
}

/* Sends what there is for a client, and frees it if it is over. Returns when it is to be looked at again. */
static uint64_t turn(struct client *c) {
    static uint8_t packet[SCTP_EP_LONGEST_PACKET];
    static uint64_t tickets[SCTP_EP_MOST_TICKETS];
    struct sctp_endpoint_sent sent = { 0 };
    struct sctp_endpoint_status s = { 0 };
    uint64_t deadline = c->length > 0 ? c->heard + QUIET : c->opened + FIRST;
    uint16_t source = 0, destination = 0;
    if (c->missed) return turn_out(c, "it reads too slowly"), SCTP_EP_NEVER;
    sctp_endpoint_on_moment(&c->end, now);
    s = status(c);
    if (now >= deadline && c->length == 0) return turn_out(c, "no first message"), SCTP_EP_NEVER;
    if (now >= deadline && s.state == SCTP_EP_ESTABLISHED && s.outstanding == 0 && s.queued == 0) say(c, ASK, "?", 1);
    while (sctp_endpoint_poll_transmit(&c->end, now, packet, sizeof packet, tickets, SCTP_EP_MOST_TICKETS, &sent) == SCTP_EP_OK
           && sctp_endpoint_peek_packet(packet, sent.length, &source, &destination, &c->peer_tag) == SCTP_EP_OK) /* not of 0 bytes: there is none */
        put(&c->at, packet, sent.length);
    s = status(c);
    if (s.ended != SCTP_EP_NOT_ENDED) return drop(c), SCTP_EP_NEVER; /* meet() answers the peer if the last packet was lost */
    return now < deadline && deadline < s.next_moment ? deadline : s.next_moment;
}

/* A client more at this address is too many. */
static bool is_full(const struct sockaddr_in *from) {
    int all = 0, unknown = 0;
    for (struct client *c = clients; c; c = c->next) all++, unknown += c->length == 0 && c->at.sin_addr.s_addr == from->sin_addr.s_addr;
    return all > MOST || unknown > MOST_UNKNOWN;
}

/* A packet for no client: a new listener answers it. Only a COOKIE ECHO whose cookie was made for this very address begins a client. */
static void meet(const uint8_t *packet, size_t length, const struct sockaddr_in *from, uint16_t source) {
    static uint8_t answer[SCTP_EP_LONGEST_PACKET];
    struct sctp_endpoint_config config = SCTP_ENDPOINT_CONFIG(PORT, source);
    struct sctp_endpoint_verdict verdict = { 0 };
    struct sctp_endpoint_draw d = draw();
    struct sctp_endpoint_key key = { { 0 }, { 0 } };
    struct client *c = calloc(1, sizeof *c);
    uint8_t address[6] = { 0 };
    if (c == NULL) return; /* as if the packet were lost */
    memcpy(address, &from->sin_addr, 4), memcpy(address + 4, &from->sin_port, 2);
    config.buffer = BUFFER, config.outbound = config.inbound = 1;
    if (sctp_endpoint_key_derived(&master, address, sizeof address, &key) == SCTP_EP_OK && sctp_endpoint_listener(&c->end, &config, &key) == SCTP_EP_OK)
        (void)sctp_endpoint_handle_packet(&c->end, now, packet, length, &d, answer, sizeof answer, &verdict);
    if (verdict.verdict == SCTP_EP_ANSWER) put(from, answer, verdict.length);
    if (sctp_endpoint_own_tag(&c->end, &c->tag) == SCTP_EP_OK) {
        c->at = *from, c->opened = c->heard = now, c->next = clients, clients = c;
        if (is_full(from)) turn_out(c, "too many clients"); /* its tag is kept */
        else if (take(c)) turn(c);
    } else sctp_endpoint_free(&c->end), free(c);
}

static void pass(struct client *c, const uint8_t *packet, size_t length, const struct sockaddr_in *from) {
    static uint8_t answer[SCTP_EP_LONGEST_PACKET];
    struct sctp_endpoint_verdict verdict = { 0 };
    struct sctp_endpoint_draw d = draw();
    if (sctp_endpoint_handle_packet(&c->end, now, packet, length, &d, answer, sizeof answer, &verdict) != SCTP_EP_OK) return;
    if (verdict.verdict == SCTP_EP_ANSWER) put(from, answer, verdict.length);
    if (verdict.verdict == SCTP_EP_TAKEN && packet[12] != COOKIE_ECHO) c->at = *from, c->heard = now; /* the client may have a new port */
    if (take(c)) turn(c); /* its acknowledgement goes out at once */
}

/* From the client's IP address: its port may change, as a NAT's does. */
static bool is_at(const struct client *c, const struct sockaddr_in *from) {
    return c->at.sin_addr.s_addr == from->sin_addr.s_addr;
}

/* A COOKIE ECHO that begins nothing: it is late, and what followed it was delivered; or too many of this IP address have come and gone. */
static bool is_over(uint32_t tag, const struct sockaddr_in *from) {
    int left = 0;
    for (const struct client *c = gone; c; c = c->next) left += is_at(c, from);
    return left > MOST_UNKNOWN || with_tag(gone, tag);
}

static void receive(const uint8_t *packet, size_t length, const struct sockaddr_in *from) {
    uint16_t source = 0, destination = 0;
    uint32_t tag = 0;
    if (length < 16 || sctp_endpoint_peek_packet(packet, length, &source, &destination, &tag) != SCTP_EP_OK) return;
    if ((packet[12] == ABORT || packet[12] == SHUTDOWN_COMPLETE) && (packet[13] & 1) != 0) { /* the T bit: the client's endpoint ended */
        for (struct client *c = clients, *after; c; c = after)
            if (after = c->next, c->peer_tag == tag && is_at(c, from)) pass(c, packet, length, from);
        return;
    }
    struct client *c = with_tag(clients, tag);
    if (c && !is_at(c, from)) return; /* else who has an association has others' addresses sent to */
    if (c) pass(c, packet, length, from);
    else if (packet[12] != COOKIE_ECHO || !is_over(tag, from)) meet(packet, length, from, source);
}

int main(int argc, char **argv) {
    static uint8_t packet[65536];
    struct sockaddr_in own = { .sin_family = AF_INET, .sin_port = htons(argc > 1 ? (uint16_t)atoi(argv[1]) : 9899) };
    int size = 1 << 22; /* bytes: many clients may send at once. The system may allow less */
    if ((urandom = open("/dev/urandom", O_RDONLY)) < 0) fail("/dev/urandom");
    fill(master.bytes, sizeof master.bytes);
    if ((udp = socket(AF_INET, SOCK_DGRAM, 0)) < 0 || bind(udp, (struct sockaddr *)&own, sizeof own)) fail("bind");
    (void)!setsockopt(udp, SOL_SOCKET, SO_RCVBUF, &size, sizeof size);
    for (;;) {
        struct pollfd readable = { udp, POLLIN, 0 };
        struct sockaddr_in from = { 0 };
        socklen_t length = sizeof from;
        uint64_t next = SCTP_EP_NEVER;
        read_clock(), forget_old();
        for (struct client *c = clients, *after; c; c = after) {
            after = c->next;
            uint64_t due = turn(c);
            if (due < next) next = due;
        }
        if (poll(&readable, 1, next <= now ? 0 : next - now < 1000 ? (int)(next - now) : 1000) < 0) fail("poll");
        read_clock();
        for (int i = 0; i < PACKETS_A_TURN; i++, length = sizeof from) {
            ssize_t got = recvfrom(udp, packet, sizeof packet, MSG_DONTWAIT, (struct sockaddr *)&from, &length);
            if (got < 0) break;
            receive(packet, (size_t)got, &from);
        }
    }
}
