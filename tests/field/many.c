/* Many associations of the library through one UDP socket each: many serve PORT SECONDS, many call PORT ADDRESS PORT SECONDS COUNT
 * The caller opens COUNT associations, one after the other, and each sends a message of 100 bytes a second, which the server returns. An endpoint is found
 * by its verification tag (docs/C.md, "Several peers at one socket"). At the end the caller writes how many were opened, after how many seconds the last
 * was, how many messages were returned, and after how many milliseconds, in the mean and at most; the server how many associations it has, how many
 * messages it returned, the microseconds of processor time of each, and the bytes of memory that an association takes. */
#include "sctp_endpoint.h"

#include <arpa/inet.h>
#include <poll.h>
#include <stdio.h>
#include <stdlib.h>
#include <string.h>
#include <sys/random.h>
#include <sys/resource.h>
#include <sys/socket.h>
#include <time.h>

enum { MOST = 4096, SLOTS = 1 << 14, MESSAGE = 100, AT_ONCE = 256, OPENED_AT_ONCE = 20, PORT = 5000, FIRST_PORT = 10000, SOCKET_BUFFER = 4 << 20 };
enum { INTERVAL = 1000, LOOKS = 10 }; /* milliseconds */

struct one {
    struct sctp_endpoint end;
    struct sockaddr_in peer;
    uint64_t due, sends_at; /* the next time of the endpoint, and of its user; 0 if it sends nothing */
    bool is_open;
};

static struct one *ones[MOST];
static int slots[SLOTS], count, wanted;
static uint32_t tags[MOST];
static int udp;
static bool serves;
static struct sctp_endpoint_key key;
static uint64_t opened, returned, waited, most_waited, last_opened, began;

static uint64_t now(void) {
    struct timespec time;
    clock_gettime(CLOCK_MONOTONIC, &time);
    return (uint64_t)time.tv_sec * 1000 + (uint64_t)time.tv_nsec / 1000000;
}

static void fill(void *at, size_t length) {
    if (getrandom(at, length, 0) != (ssize_t)length) exit(1);
}

static struct sctp_endpoint_draw draw(void) {
    struct sctp_endpoint_draw values = { 0 };
    do fill(&values.tag, sizeof values.tag);
    while (values.tag == 0);
    fill(&values.tsn, sizeof values.tsn);
    return values;
}

/* The slot of a tag, or the empty one for it. */
static int *slot_of(uint32_t tag) {
    uint32_t at = tag * 2654435761u >> 18;
    while (slots[at] && tags[slots[at] - 1] != tag) at = (at + 1) % SLOTS;
    return &slots[at];
}

static struct one *found(uint32_t tag) { return *slot_of(tag) ? ones[*slot_of(tag) - 1] : NULL; }

static void add(struct one *one, uint32_t tag) {
    int *slot = slot_of(tag);
    ones[count] = one, tags[count] = tag;
    *slot = ++count;
}

static struct sctp_endpoint_config configured(uint16_t own_port, uint16_t peer_port) {
    struct sctp_endpoint_config config = SCTP_ENDPOINT_CONFIG(own_port, peer_port);
    config.outbound = config.inbound = 4, config.buffer = 65536, config.interleave = false, config.flags = SCTP_EP_CONGESTION_CONTROL;
    return config;
}

/* Sends what it lets go, and notes its next time. */
static void transmit(struct one *one) {
    static uint8_t packet[SCTP_EP_LONGEST_PACKET];
    static uint64_t tickets[SCTP_EP_MOST_TICKETS];
    struct sctp_endpoint_sent sent = { 0 };
    struct sctp_endpoint_status status = { 0 };
    while (!sctp_endpoint_poll_transmit(&one->end, now(), packet, sizeof packet, tickets, SCTP_EP_MOST_TICKETS, &sent) && sent.length)
        sendto(udp, packet, sent.length, 0, (struct sockaddr *)&one->peer, sizeof one->peer);
    sctp_endpoint_status(&one->end, &status);
    one->due = status.next_moment;
    if (status.state != SCTP_EP_ESTABLISHED || one->is_open) return;
    one->is_open = true, opened++, last_opened = now() - began;
    if (!serves) one->sends_at = now() + (uint64_t)rand() % INTERVAL;
}

static void open_next(struct sockaddr_in peer) {
    struct one *one = calloc(1, sizeof *one);
    struct sctp_endpoint_config config = configured((uint16_t)(FIRST_PORT + count), PORT);
    struct sctp_endpoint_draw fresh = draw();
    if (!one || sctp_endpoint_caller(&one->end, &config) || sctp_endpoint_connect(&one->end, now(), &fresh)) exit(1);
    one->peer = peer;
    add(one, fresh.tag);
    transmit(one);
}

static void take(struct one *one) {
    static uint8_t buffer[SCTP_EP_LONGEST_MESSAGE];
    struct sctp_endpoint_message message = { 0 };
    uint64_t ticket = 0, sent_at = 0;
    while (!sctp_endpoint_take(&one->end, 0, &message, buffer, sizeof buffer)) {
        returned++;
        memcpy(&sent_at, buffer, sizeof sent_at);
        if (serves) sctp_endpoint_send(&one->end, 0, true, 0, buffer, message.length, SCTP_EP_NEVER, &ticket);
        else if (waited += now() - sent_at, now() - sent_at > most_waited) most_waited = now() - sent_at;
    }
}

/* A packet with the tag of none: a new listener answers it, and stays if an association begins by it. */
static void hear_stray(const uint8_t *packet, size_t length, struct sockaddr_in from, uint16_t source, uint16_t destination) {
    static uint8_t answer[SCTP_EP_LONGEST_PACKET];
    struct one *one = calloc(1, sizeof *one);
    struct sctp_endpoint_config config = configured(destination, source);
    struct sctp_endpoint_draw fresh = draw();
    struct sctp_endpoint_verdict verdict = { 0 };
    struct sctp_endpoint_status status = { 0 };
    if (!one || sctp_endpoint_listener(&one->end, &config, &key)) {
        free(one);
        return;
    }
    sctp_endpoint_handle_packet(&one->end, now(), packet, length, &fresh, answer, sizeof answer, &verdict);
    if (verdict.verdict == SCTP_EP_ANSWER) sendto(udp, answer, verdict.length, 0, (struct sockaddr *)&from, sizeof from);
    sctp_endpoint_status(&one->end, &status);
    one->peer = from;
    if (status.own_tag && count < MOST) {
        add(one, status.own_tag);
        take(one);
        transmit(one);
    } else {
        sctp_endpoint_free(&one->end);
        free(one);
    }
}

static void hear(struct one *one, const uint8_t *packet, size_t length, struct sockaddr_in from) {
    static uint8_t answer[SCTP_EP_LONGEST_PACKET];
    struct sctp_endpoint_draw fresh = draw();
    struct sctp_endpoint_verdict verdict = { 0 };
    sctp_endpoint_handle_packet(&one->end, now(), packet, length, &fresh, answer, sizeof answer, &verdict);
    if (verdict.verdict == SCTP_EP_ANSWER) sendto(udp, answer, verdict.length, 0, (struct sockaddr *)&from, sizeof from);
    if (verdict.verdict == SCTP_EP_TAKEN) one->peer = from;
    take(one);
    transmit(one);
}

static void receive(void) {
    static uint8_t packet[65536];
    for (int n = 0; n < AT_ONCE; n++) {
        struct sockaddr_in from;
        socklen_t size = sizeof from;
        uint16_t source = 0, destination = 0;
        uint32_t tag = 0;
        ssize_t length = recvfrom(udp, packet, sizeof packet, 0, (struct sockaddr *)&from, &size);
        if (length < 0) return;
        if (sctp_endpoint_peek_packet(packet, (size_t)length, &source, &destination, &tag)) continue;
        struct one *one = found(tag);
        if (one) hear(one, packet, (size_t)length, from);
        else if (serves) hear_stray(packet, (size_t)length, from, source, destination);
    }
}

/* What is due of each endpoint and of its user. */
static void look(void) {
    static uint8_t message[MESSAGE];
    uint64_t time = now(), ticket = 0;
    for (int n = 0; n < count; n++) {
        struct one *one = ones[n];
        bool sends = one->sends_at && one->sends_at <= time;
        if (!sends && one->due > time) continue;
        sctp_endpoint_on_moment(&one->end, time);
        memcpy(message, &time, sizeof time);
        if (sends && !sctp_endpoint_send(&one->end, 0, true, 0, message, sizeof message, SCTP_EP_NEVER, &ticket)) one->sends_at += INTERVAL;
        transmit(one);
    }
}

static void report(long idle_kilobytes) {
    struct rusage used;
    getrusage(RUSAGE_SELF, &used);
    double busy = (double)(used.ru_utime.tv_sec + used.ru_stime.tv_sec) * 1e6 + (double)(used.ru_utime.tv_usec + used.ru_stime.tv_usec);
    if (serves)
        printf("associations %d, messages %llu, %.1f us of processor time each; %.0f bytes an association\n", count, (unsigned long long)returned,
            returned ? busy / (double)returned : 0, count ? (double)(used.ru_maxrss - idle_kilobytes) * 1024 / count : 0);
    else
        printf("%llu of %d opened, the last after %.2f s; %llu messages returned after %.1f ms, at most %llu\n", (unsigned long long)opened, wanted,
            (double)last_opened / 1000, (unsigned long long)returned, returned ? (double)waited / (double)returned : 0, (unsigned long long)most_waited);
}

int main(int count_of_words, char **words) {
    serves = count_of_words == 4 && !strcmp(words[1], "serve");
    if (!serves && count_of_words != 7) return 2;
    struct sockaddr_in own = { .sin_family = AF_INET, .sin_port = htons((uint16_t)atoi(words[2])) }, peer = { .sin_family = AF_INET };
    int size = SOCKET_BUFFER, seconds = atoi(words[serves ? 3 : 5]);
    if (!serves) peer.sin_port = htons((uint16_t)atoi(words[4])), inet_pton(AF_INET, words[3], &peer.sin_addr), wanted = atoi(words[6]);
    fill(key.bytes, sizeof key.bytes);
    udp = socket(AF_INET, SOCK_DGRAM | SOCK_NONBLOCK | SOCK_CLOEXEC, 0);
    setsockopt(udp, SOL_SOCKET, SO_RCVBUF, &size, sizeof size);
    if (wanted > MOST || bind(udp, (struct sockaddr *)&own, sizeof own)) return 1;
    struct rusage used;
    getrusage(RUSAGE_SELF, &used);
    began = now();
    for (uint64_t looked = 0; now() - began < (uint64_t)seconds * 1000;) {
        for (int n = 0; n < OPENED_AT_ONCE && count < wanted; n++) open_next(peer);
        struct pollfd ready = { udp, POLLIN, 0 };
        poll(&ready, 1, LOOKS);
        receive();
        if (now() - looked >= LOOKS) looked = now(), look();
    }
    report(used.ru_maxrss);
    return 0;
}
