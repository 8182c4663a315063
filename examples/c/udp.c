/* Lines over an association over UDP (RFC 6951: a packet is the payload of a datagram).
 *
 *     udp listen 9899                            prints the lines that it receives
 *     udp call 9900 127.0.0.1 9899 < lines       sends them, and closes
 *
 * One loop around poll: the endpoint says what to send and how long to wait. The socket's receive buffer holds all that the endpoint's own
 * buffer lets the peer send at once, since nothing slows a sender down but that; and after closing, the socket stays open for some seconds,
 * so that the peer learns of it even if the last packet is lost. */
#define _POSIX_C_SOURCE 200809L /* for clock_gettime, with a compiler that is asked for plain C11 */
#include "sctp_endpoint.h"
#include <arpa/inet.h>
#include <fcntl.h>
#include <poll.h>
#include <stdio.h>
#include <stdlib.h>
#include <string.h>
#include <sys/socket.h>
#include <time.h>
#include <unistd.h>

enum {
    PACKETS_A_TURN = 16,
    LONGEST_LINE = 4096,
    BUFFER = 65536,                /* bytes of the endpoint's receive buffer: one stream, and a line is shorter */
    SOCKET_BUFFER = BUFFER * 5 / 2, /* bytes: the system counts more of a datagram than its payload */
    LINGER = 8000                  /* ms for which a lost SHUTDOWN COMPLETE is repeated: the peer asks for it again after 1, 3 and 7 seconds */
};

static struct sctp_endpoint end = SCTP_ENDPOINT_INIT;
static struct sockaddr_in peer; /* the caller is given it; the listener learns it from the first packet that is taken */
static int udp, urandom;
static char line[LONGEST_LINE];
static size_t line_length; /* of a line that isn't queued yet; 0 if there is none */
static bool input_ended;
static uint64_t linger_until; /* 0 unless the last answer was SHUTDOWN COMPLETE */

static void fail(const char *what) {
    perror(what);
    exit(1);
}

static uint64_t now(void) {
    struct timespec t;
    clock_gettime(CLOCK_MONOTONIC, &t);
    return (uint64_t)t.tv_sec * 1000 + (uint64_t)t.tv_nsec / 1000000;
}

static void fill(void *at, size_t length) {
    if (read(urandom, at, length) != (ssize_t)length) fail("/dev/urandom");
}

static struct sctp_endpoint_draw draw(void) {
    uint32_t random[2] = { 0 };
    fill(random, sizeof random);
    struct sctp_endpoint_draw d = SCTP_ENDPOINT_DRAW(random[0], random[1]);
    return d;
}

static struct sctp_endpoint_status status(void) {
    struct sctp_endpoint_status s = { 0 };
    sctp_endpoint_status(&end, &s);
    return s;
}

/* A datagram that is lost, or that the system has no space for, is retransmitted by the endpoint. */
static void put(const struct sockaddr_in *to, const uint8_t *packet, size_t length) {
    (void)!sendto(udp, packet, length, 0, (const struct sockaddr *)to, sizeof *to);
}

/* Sends some of the packets that may be sent. True if there may be more. */
static bool transmit(void) {
    static uint8_t packet[SCTP_EP_LONGEST_PACKET];
    static uint64_t tickets[SCTP_EP_MOST_TICKETS];
    struct sctp_endpoint_sent sent = { 0 };
    for (int i = 0; i < PACKETS_A_TURN; i++) {
        uint32_t result = sctp_endpoint_poll_transmit(&end, now(), packet, sizeof packet, tickets, SCTP_EP_MOST_TICKETS, &sent);
        if (result != SCTP_EP_OK || sent.length == 0) return result == SCTP_EP_NO_MEMORY;
        put(&peer, packet, sent.length);
    }
    return true;
}

/* A datagram was received. If memory allocation fails, it counts as lost. An answer after the association has ended is a SHUTDOWN COMPLETE
 * that the peer may still have to ask for again. */
static void receive(void) {
    static uint8_t packet[65536], buffer[SCTP_EP_LONGEST_PACKET];
    struct sctp_endpoint_verdict verdict = { 0 };
    struct sockaddr_in from;
    socklen_t size = sizeof from;
    struct sctp_endpoint_draw d = draw();
    ssize_t length = recvfrom(udp, packet, sizeof packet, 0, (struct sockaddr *)&from, &size);
    if (length < 0) return;
    if (sctp_endpoint_handle_packet(&end, now(), packet, (size_t)length, &d, buffer, sizeof buffer, &verdict) != SCTP_EP_OK) return;
    if (verdict.verdict == SCTP_EP_ANSWER) put(&from, buffer, verdict.length);
    if (verdict.verdict == SCTP_EP_ANSWER && status().ended == SCTP_EP_COMPLETED) linger_until = now() + LINGER;
    if (verdict.verdict == SCTP_EP_TAKEN) peer = from; /* its tag was right: this is the peer's address */
}

/* Prints the messages that were received. */
static void take(void) {
    struct sctp_endpoint_message message = { 0 };
    uint16_t stream = 0;
    while (sctp_endpoint_readable(&end, 0, &stream) == SCTP_EP_OK && sctp_endpoint_peek(&end, stream, &message) == SCTP_EP_OK) {
        uint8_t *buffer = calloc(1, message.length);
        if (!buffer) return; /* it stays */
        if (sctp_endpoint_take(&end, stream, &message, buffer, message.length) == SCTP_EP_OK) fwrite(buffer, 1, message.length, stdout), putchar('\n');
        free(buffer);
    }
    fflush(stdout);
}

/* Queues a line. If the queue is full, or memory allocation fails, it is tried again in the next turn. */
static void send_line(void) {
    uint64_t ticket = 0;
    if (line_length == 0 && !input_ended) {
        if (fgets(line, sizeof line, stdin)) line_length = strcspn(line, "\n");
        else input_ended = true, sctp_endpoint_shutdown(&end);
    }
    if (line_length > 0 && sctp_endpoint_send(&end, 0, true, 0, (const uint8_t *)line, line_length, SCTP_EP_NEVER, &ticket) == SCTP_EP_OK)
        line_length = 0;
}

static void open_socket(const char *port) {
    struct sockaddr_in own = { .sin_family = AF_INET, .sin_port = htons((uint16_t)atoi(port)) };
    int size = SOCKET_BUFFER;
    if ((udp = socket(AF_INET, SOCK_DGRAM, 0)) < 0 || bind(udp, (struct sockaddr *)&own, sizeof own)) fail("bind");
    if (setsockopt(udp, SOL_SOCKET, SO_RCVBUF, &size, sizeof size)) fail("SO_RCVBUF");
}

static void start(int argc, char **argv) {
    struct sctp_endpoint_config config = SCTP_ENDPOINT_CONFIG(5001, 5000);
    struct sctp_endpoint_draw d = draw();
    struct sctp_endpoint_key key = { { 0 }, { 0 } };
    config.buffer = BUFFER, config.outbound = config.inbound = 1;
    fill(key.bytes, sizeof key.bytes);
    if ((input_ended = argc == 3)) {
        if (sctp_endpoint_listener(&end, &config, &key) != SCTP_EP_OK) exit(1);
        return;
    }
    peer.sin_family = AF_INET, peer.sin_port = htons((uint16_t)atoi(argv[4]));
    if (inet_pton(AF_INET, argv[3], &peer.sin_addr) != 1) fail(argv[3]);
    config.own_port = 5000, config.peer_port = 5001;
    if (sctp_endpoint_caller(&end, &config) != SCTP_EP_OK || sctp_endpoint_connect(&end, now(), &d) != SCTP_EP_OK) exit(1);
}

/* Waits for a datagram, a line, or the next timer. */
static void turn(bool more) {
    struct sctp_endpoint_status s = status();
    bool reads = s.state == SCTP_EP_ESTABLISHED && !input_ended && line_length == 0;
    uint64_t t = now(), next = s.ended ? linger_until : s.next_moment, wait = next > t ? next - t : 0;
    struct pollfd polled[2] = { { .fd = udp, .events = POLLIN }, { .fd = reads ? 0 : -1, .events = POLLIN } };
    if (poll(polled, 2, more ? 0 : wait > 60000 ? 60000 : (int)wait) < 0) fail("poll");
    if (polled[0].revents) receive();
    if (polled[1].revents || line_length > 0) send_line();
    sctp_endpoint_on_moment(&end, now());
    take();
}

int main(int argc, char **argv) {
    bool calls = argc == 5 && strcmp(argv[1], "call") == 0;
    if (!calls && !(argc == 3 && strcmp(argv[1], "listen") == 0))
        return fprintf(stderr, "udp listen PORT | udp call PORT ADDRESS PORT\n"), 2;
    if ((urandom = open("/dev/urandom", O_RDONLY)) < 0) fail("/dev/urandom");
    open_socket(argv[2]);
    setvbuf(stdin, NULL, _IONBF, 0); /* poll reports what stdio hasn't read yet */
    start(argc, argv);
    for (;;) {
        bool more = transmit();
        struct sctp_endpoint_status s = status();
        if (s.ended && now() >= linger_until) return fprintf(stderr, "ended %u\n", s.ended), sctp_endpoint_free(&end), s.ended != SCTP_EP_COMPLETED;
        turn(more);
    }
}
