/* What a message costs over two ends of usrsctp: usrsctp MANY SIZE TURNS [i] [d] [t], the letters anywhere. A turn is one of endpoint.rattle's
 * `ends`: MANY messages of SIZE bytes are sent one way on one stream, all packets go to and fro, none is lost, and the messages are taken by a
 * callback. The difference of two runs, in instructions, is what turns cost. With `i` they go as I-DATA; with `t` it prints the processor time of
 * a message in nanoseconds. Status 0: all messages were taken; 1: not so, or usrsctp refused a call; 2: the words are wrong.
 *
 * As at `ends` a packet has at most 1,500 bytes, a fragment 1,400, each packet is acknowledged at once, and CRC32c is computed and checked. Nagle's
 * algorithm is on: it is what bundles, so of 19 messages of 64 bytes the first goes alone, and 18 when it was acknowledged. With `d` it is as
 * usrsctp is where its user sets SCTP_NODELAY: every second packet is acknowledged, and each message leaves as it is sent.
 *
 * Time stands still while a packet is on its way; gettimeofday and syscall stand here, so that usrsctp finds this program's time and chances in
 * place of the system's, and each run is the same. The messages' bytes are made once. */
#include <errno.h>
#include <stdarg.h>
#include <stdbool.h>
#include <stdint.h>
#include <stdio.h>
#include <stdlib.h>
#include <string.h>
#include <sys/time.h>
#include <time.h>
#include <usrsctp.h>

#ifndef SCTP_INTERLEAVING_SUPPORTED
#define SCTP_INTERLEAVING_SUPPORTED 0x00001206 /* a socket option that usrsctp's header leaves out */
#endif

enum { LISTENER = 5000, CALLER = 5001 };
enum { LONGEST_PACKET = 1500, COMMON_HEADER = 12, FRAGMENT = 1400, IP_HEADER = 20, LONGEST_MESSAGE = 65536, BUFFER = 1 << 20 }; /* bytes */
enum { MOST_PACKETS = 1024, STEP = 10, MOST_STEPS = 1000 }; /* packets; milliseconds, and how often */

static struct {
    long many, size, turns;
    bool interleaved, delayed, timed;
} wanted;
static uint64_t moment, chance;
static struct socket *from;
static long taken;
static char path; /* its address names the path to usrsctp: the ends have a port each */

/* The packets on their way: they can't be handed over while usrsctp sends. */
static struct {
    size_t length;
    uint8_t bytes[LONGEST_PACKET];
} packets[MOST_PACKETS];
static unsigned long left, arrived;

int gettimeofday(struct timeval *time, void *zone) {
    (void)zone;
    time->tv_sec = (time_t)(1000000 + moment / 1000);
    time->tv_usec = (suseconds_t)(moment % 1000 * 1000);
    return 0;
}

/* usrsctp's one system call by number: getrandom(bytes, length, flags). */
long syscall(long number, ...) {
    va_list words;
    va_start(words, number);
    unsigned char *bytes = va_arg(words, unsigned char *);
    size_t length = va_arg(words, size_t);
    va_end(words);
    for (size_t i = 0; i < length; i++) {
        chance = chance * 6364136223846793005u + 1442695040888963407u;
        bytes[i] = (unsigned char)(chance >> 56);
    }
    return (long)length;
}

/* Ends the program with these words where it doesn't hold. */
static void need(bool holds, const char *what) {
    if (holds) return;
    fprintf(stderr, "usrsctp: %s\n", what);
    exit(1);
}

/* ---- what usrsctp calls */

static int leaves(void *address, void *packet, size_t length, uint8_t tos, uint8_t set_df) {
    (void)address, (void)tos, (void)set_df;
    need(length <= LONGEST_PACKET && left - arrived < MOST_PACKETS, "a packet is too long, or too many are on their way");
    memcpy(packets[left % MOST_PACKETS].bytes, packet, length);
    packets[left % MOST_PACKETS].length = length;
    left++;
    return 0;
}

/* Something for its user, who takes it: a message counts where it came whole. */
static int comes(struct socket *socket, union sctp_sockstore store, void *data, size_t length, struct sctp_rcvinfo info, int flags, void *known) {
    (void)socket, (void)store, (void)info, (void)known;
    if (data != NULL && !(flags & MSG_NOTIFICATION) && flags & MSG_EOR && (long)length == wanted.size) taken++;
    free(data);
    return 1;
}

/* ---- the ends */

static struct sockaddr_conn at_port(uint16_t port) {
    struct sockaddr_conn name = { .sconn_family = AF_CONN, .sconn_port = htons(port), .sconn_addr = &path };
    return name;
}

static void option(struct socket *end, int name, const void *value, size_t length) {
    need(usrsctp_setsockopt(end, IPPROTO_SCTP, name, value, (socklen_t)length) == 0, "an option is refused");
}

/* A path's limit is told to usrsctp without the common header, a fragment's with an IPv4 header that AF_CONN doesn't have. */
static void set_options(struct socket *end) {
    struct sctp_initmsg streams = { .sinit_num_ostreams = 1, .sinit_max_instreams = 1 };
    struct sctp_paddrparams limit = { .spp_flags = SPP_PMTUD_DISABLE, .spp_pathmtu = LONGEST_PACKET - COMMON_HEADER };
    struct sctp_assoc_value fragment = { SCTP_FUTURE_ASSOC, FRAGMENT - IP_HEADER };
    struct sctp_assoc_value interleave = { SCTP_FUTURE_ASSOC, wanted.interleaved };
    struct sctp_sack_info sack = { .sack_freq = wanted.delayed ? 2 : 1 };
    uint32_t level = wanted.interleaved ? 2 : 0;
    int no_delay = wanted.delayed;
    option(end, SCTP_INITMSG, &streams, sizeof streams);
    option(end, SCTP_PEER_ADDR_PARAMS, &limit, sizeof limit);
    option(end, SCTP_MAXSEG, &fragment, sizeof fragment);
    option(end, SCTP_FRAGMENT_INTERLEAVE, &level, sizeof level);
    option(end, SCTP_INTERLEAVING_SUPPORTED, &interleave, sizeof interleave);
    option(end, SCTP_DELAYED_SACK, &sack, sizeof sack);
    option(end, SCTP_NODELAY, &no_delay, sizeof no_delay);
}

static struct socket *end_at(uint16_t port) {
    struct sockaddr_conn name = at_port(port);
    struct socket *end = usrsctp_socket(AF_CONN, SOCK_STREAM, IPPROTO_SCTP, comes, NULL, 0, NULL);
    need(end != NULL && usrsctp_set_non_blocking(end, 1) == 0, "no socket");
    set_options(end);
    need(usrsctp_bind(end, (struct sockaddr *)&name, sizeof name) == 0, "a port is refused");
    return end;
}

/* The packets come, and those that they bring forth, until none is on its way; the next ones have the same memory. */
static void carry(void) {
    for (; arrived < left; arrived++) usrsctp_conninput(&path, packets[arrived % MOST_PACKETS].bytes, packets[arrived % MOST_PACKETS].length, 0);
    arrived = left = 0;
}

/* Its buffers are so large that no window closes. */
static void open_ends(void) {
    struct sockaddr_conn name = at_port(LISTENER);
    usrsctp_init_nothreads(0, leaves, NULL);
    usrsctp_sysctl_set_sctp_sendspace(BUFFER);
    usrsctp_sysctl_set_sctp_recvspace(BUFFER);
    usrsctp_register_address(&path);
    struct socket *listening = end_at(LISTENER);
    need(usrsctp_listen(listening, 1) == 0, "it can't listen");
    from = end_at(CALLER);
    need(usrsctp_connect(from, (struct sockaddr *)&name, sizeof name) == 0 || errno == EINPROGRESS, "it can't call");
    carry();
    need(usrsctp_accept(listening, NULL, NULL) != NULL, "no association");
}

/* ---- what goes */

/* On stream 0, in order. */
static void send_messages(void) {
    static uint8_t message[LONGEST_MESSAGE];
    for (long i = 0; i < wanted.many; i++)
        need(usrsctp_sendv(from, message, (size_t)wanted.size, NULL, 0, NULL, 0, SCTP_SENDV_NOINFO, 0) == wanted.size, "a message is refused");
}

/* Time goes on only where nothing else does: a SACK or a message waits for it. */
static void turn(long enough) {
    send_messages();
    carry();
    for (int steps = 0; taken < enough && steps < MOST_STEPS; steps++) {
        moment += STEP;
        usrsctp_handle_timers(STEP);
        carry();
    }
}

static double processor_time(void) {
    struct timespec time = { 0 };
    clock_gettime(CLOCK_PROCESS_CPUTIME_ID, &time);
    return (double)time.tv_sec * 1e9 + (double)time.tv_nsec;
}

static bool read_words(int count, char **words) {
    long *numbers[] = { &wanted.many, &wanted.size, &wanted.turns };
    int read = 0;
    for (int i = 1; i < count; i++) {
        if (strcmp(words[i], "i") == 0) wanted.interleaved = true;
        else if (strcmp(words[i], "d") == 0) wanted.delayed = true;
        else if (strcmp(words[i], "t") == 0) wanted.timed = true;
        else if (read < 3) *numbers[read++] = atol(words[i]);
        else return false;
    }
    return read == 3 && wanted.many > 0 && wanted.turns > 0 && wanted.size > 0 && wanted.size <= LONGEST_MESSAGE;
}

int main(int count, char **words) {
    if (!read_words(count, words)) return 2;
    open_ends();
    double began = processor_time();
    for (long i = 1; i <= wanted.turns; i++) turn(i * wanted.many);
    if (wanted.timed) printf("%.0f\n", (processor_time() - began) / (double)(wanted.many * wanted.turns));
    return taken != wanted.many * wanted.turns;
}
