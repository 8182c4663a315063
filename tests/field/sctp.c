/* One association of the library over UDP, as much as goes: sctp receive PORT SECONDS [WORD ..], sctp send PORT ADDRESS PORT SECONDS [WORD ..]
 * Words: `none` (no congestion control), `fast-retransmit`, `delay`, `rto-min MS`, `buffer BYTES`, `port AT` (the sender has another UDP port from that
 * second on). A message has 1,428 bytes, which make a packet of 1,472: with UDP and IP as long as TCP's. Each second the receiver writes a line: the
 * second, and the bytes that its user took in it. At the end the sender writes the chunks that it sent first, by its timer, and fast. */
#include "sctp_endpoint.h"

#include <arpa/inet.h>
#include <fcntl.h>
#include <poll.h>
#include <stdio.h>
#include <stdlib.h>
#include <string.h>
#include <sys/random.h>
#include <sys/socket.h>
#include <time.h>
#include <unistd.h>

enum { MESSAGE = 1428, PACKET = 1472, FRAGMENT = 1400, WAITING = 64, AT_ONCE = 64, SOCKET_BUFFER = 4 << 20, PORT = 5000, LONGEST_WAIT = 100 };

static struct sctp_endpoint end = SCTP_ENDPOINT_INIT;
static struct sctp_endpoint_status status;
static struct sockaddr_in peer;
static int udp;
static double new_port_at = 1e18;

static double seconds_now(void) {
    struct timespec time;
    clock_gettime(CLOCK_MONOTONIC, &time);
    return (double)time.tv_sec + (double)time.tv_nsec * 1e-9;
}

static uint64_t now(void) { return (uint64_t)(seconds_now() * 1000); }

static void fill(void *at, size_t length) {
    if (getrandom(at, length, 0) != (ssize_t)length) exit(1);
}

static struct sctp_endpoint_draw draw(void) {
    struct sctp_endpoint_draw values = { 0 };
    do fill(&values.tag, sizeof values.tag);
    while (values.tag == 0);
    fill(&values.tsn, sizeof values.tsn);
    return values;
}

static void open_socket(int port) {
    struct sockaddr_in own = { .sin_family = AF_INET, .sin_port = htons((uint16_t)port) };
    int size = SOCKET_BUFFER;
    udp = socket(AF_INET, SOCK_DGRAM | SOCK_NONBLOCK | SOCK_CLOEXEC, 0);
    if (udp < 0 || bind(udp, (struct sockaddr *)&own, sizeof own)) {
        perror("socket");
        exit(1);
    }
    setsockopt(udp, SOL_SOCKET, SO_RCVBUF, &size, sizeof size);
    setsockopt(udp, SOL_SOCKET, SO_SNDBUF, &size, sizeof size);
}

static void configure(struct sctp_endpoint_config *config, char **words) {
    config->interleave = false, config->outbound = config->inbound = 1, config->buffer = 1 << 20;
    config->packet_limit = PACKET, config->fragment = FRAGMENT, config->flags = SCTP_EP_CONGESTION_CONTROL;
    for (; *words; words++) {
        if (!strcmp(*words, "none")) config->flags = 0;
        else if (!strcmp(*words, "fast-retransmit")) config->flags |= SCTP_EP_FAST_RETRANSMIT;
        else if (!strcmp(*words, "delay")) config->delay = true;
        else if (!strcmp(*words, "rto-min") && words[1]) config->rto_min = (uint32_t)atoi(*++words);
        else if (!strcmp(*words, "buffer") && words[1]) config->buffer = (uint32_t)atoi(*++words);
        else if (!strcmp(*words, "port") && words[1]) new_port_at = atof(*++words);
        else exit(2);
    }
}

/* Sends what the endpoint lets go, a number of packets at most; whether there may be more. */
static bool transmit(int most) {
    static uint8_t packet[SCTP_EP_LONGEST_PACKET];
    static uint64_t tickets[SCTP_EP_MOST_TICKETS];
    struct sctp_endpoint_sent sent = { 0 };
    for (int n = 0; n < most; n++) {
        if (sctp_endpoint_poll_transmit(&end, now(), packet, sizeof packet, tickets, SCTP_EP_MOST_TICKETS, &sent) || sent.length == 0) return false;
        sendto(udp, packet, sent.length, 0, (struct sockaddr *)&peer, sizeof peer);
    }
    return true;
}

static void receive(void) {
    static uint8_t packet[65536], answer[SCTP_EP_LONGEST_PACKET];
    for (int n = 0; n < AT_ONCE; n++) {
        struct sockaddr_in from;
        socklen_t size = sizeof from;
        struct sctp_endpoint_verdict verdict = { 0 };
        struct sctp_endpoint_draw fresh = draw();
        ssize_t length = recvfrom(udp, packet, sizeof packet, 0, (struct sockaddr *)&from, &size);
        if (length < 0) return;
        sctp_endpoint_handle_packet(&end, now(), packet, (size_t)length, &fresh, answer, sizeof answer, &verdict);
        if (verdict.verdict == SCTP_EP_ANSWER) sendto(udp, answer, verdict.length, 0, (struct sockaddr *)&from, size);
        if (verdict.verdict == SCTP_EP_TAKEN) peer = from;
        transmit(4);
    }
}

static uint64_t take(void) {
    static uint8_t buffer[SCTP_EP_LONGEST_MESSAGE];
    struct sctp_endpoint_message message = { 0 };
    uint64_t taken = 0;
    while (!sctp_endpoint_take(&end, 0, &message, buffer, sizeof buffer)) taken += message.length;
    return taken;
}

static void send_messages(void) {
    static const uint8_t message[MESSAGE];
    uint64_t ticket = 0;
    for (uint64_t queued = status.queued; queued < WAITING; queued++)
        if (sctp_endpoint_send(&end, 0, true, 0, message, sizeof message, SCTP_EP_NEVER, &ticket)) return;
}

/* One turn of the loop, until the endpoint's next time or a packet, and at most a while. */
static uint64_t turn(bool sends) {
    sctp_endpoint_status(&end, &status);
    if (sends && status.state == SCTP_EP_ESTABLISHED) send_messages();
    bool more = transmit(AT_ONCE);
    sctp_endpoint_status(&end, &status);
    uint64_t at = now(), wait = status.next_moment > at ? status.next_moment - at : 0;
    struct pollfd ready = { udp, POLLIN, 0 };
    poll(&ready, 1, more ? 0 : (int)(wait < LONGEST_WAIT ? wait : LONGEST_WAIT));
    receive();
    sctp_endpoint_on_moment(&end, now());
    return take();
}

static bool begin(bool sends, char **words, int port) {
    struct sctp_endpoint_config config = SCTP_ENDPOINT_CONFIG(PORT, PORT);
    struct sctp_endpoint_draw fresh = draw();
    struct sctp_endpoint_key key = { { 0 }, { 0 } };
    configure(&config, words);
    open_socket(port);
    fill(key.bytes, sizeof key.bytes);
    if (!sends) return !sctp_endpoint_listener(&end, &config, &key);
    return !sctp_endpoint_caller(&end, &config) && !sctp_endpoint_connect(&end, now(), &fresh);
}

int main(int count, char **words) {
    bool sends = count > 5 && !strcmp(words[1], "send");
    if (count < 4 || (!sends && strcmp(words[1], "receive"))) return 2;
    if (sends) peer.sin_family = AF_INET, peer.sin_port = htons((uint16_t)atoi(words[4])), inet_pton(AF_INET, words[3], &peer.sin_addr);
    if (!begin(sends, words + (sends ? 6 : 4), atoi(words[2]))) return 1;
    double opened = 0, called = seconds_now(), seconds = atof(words[sends ? 5 : 3]);
    uint64_t taken = 0;
    for (int second = 1; !status.ended && seconds_now() - (opened > 0 ? opened : called) < seconds;) {
        taken += turn(sends);
        if (opened == 0 && status.state == SCTP_EP_ESTABLISHED) opened = seconds_now();
        if (opened > 0 && seconds_now() - opened >= new_port_at) close(udp), open_socket(atoi(words[2]) + 1000), new_port_at = 1e18;
        if (sends || opened == 0 || seconds_now() - opened < second) continue;
        printf("%d %llu\n", second++, (unsigned long long)taken);
        fflush(stdout);
        taken = 0;
    }
    struct sctp_endpoint_counts counts = { 0 };
    sctp_endpoint_counts(&end, &counts);
    if (sends)
        printf("first %llu timer %llu fast %llu ended %u\n", (unsigned long long)counts.first_sent, (unsigned long long)counts.timer_retransmitted,
            (unsigned long long)counts.fast_retransmitted, status.ended);
    return 0;
}
