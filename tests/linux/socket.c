/* One SCTP socket of the Linux kernel, line by line on standard input and output: the only program of the user-mode kernel (init.c). Messages
 * have a number: one of at least 8 bytes begins with it and with its length, 4 bytes each, and byte N of the rest is (31 number + 7 N) mod 256.
 *
 * in:   set PATH VALUE, gso 0|1             writes /proc/sys/PATH; whether packets are cut late, several at once
 *       make PORT OUT IN, many PORT OUT IN  a socket with this port and so many streams, of one association or of many
 *       listen, connect ADDRESS PORT        it listens, or calls; `to ADDRESS PORT` names the peer of a socket of many associations
 *       number N                            the next message has this number
 *       say STREAM LENGTH COUNT FLAGS POLICY VALUE   so many messages; FLAGS 1: unordered; POLICY 0, or 16 with a lifetime in ms, or 32
 *                                           with the most retransmissions
 *       rto INITIAL MOST LEAST, beats MS    RTO, and the interval of HEARTBEATs, 0 for none
 *       sndbuf BYTES, rcvbuf BYTES, interleave, resets MASK (1: of streams, 2: of TSNs, 4: more streams), read 0|1, quiet 0|1
 *       reset out|in STREAM .., add OUT IN, reset-tsns   RFC 6525
 *       shut, close, abort, status, off
 * out:  up OUT IN                           the association is there
 *       message STREAM LENGTH PPID UNORDERED SSN NUMBER good|bad|short     one was received; without `quiet`
 *       event WORDS                         the kernel reports this
 *       err WORDS                           a call failed
 *       .                                   after the answer to each line */
#include "init.h"
#include "socket.h"

#include <arpa/inet.h>
#include <errno.h>
#include <fcntl.h>
#include <linux/sctp.h>
#include <poll.h>
#include <stdint.h>
#include <stdlib.h>
#include <string.h>
#include <unistd.h>

enum { RECEIVED_AT_ONCE = 32, MOST_STREAMS = 64 };

struct own own = { .association = -1, .listener = -1, .is_reading = 1 };

void failed(const char *what) { SAY("err %s: %s", what, strerror(errno)); }

void set(int at, int name, const void *value, socklen_t size, const char *what) {
    if (setsockopt(at, IPPROTO_SCTP, name, value, size)) failed(what);
}

static int socket_in_use(void) { return own.association >= 0 ? own.association : own.listener; }

static struct sockaddr_in address(const char *text, unsigned port) {
    struct sockaddr_in made_of = { .sin_family = AF_INET, .sin_port = htons((uint16_t)port) };
    inet_pton(AF_INET, text, &made_of.sin_addr);
    return made_of;
}

static void set_kernel(const char *name, const char *value) {
    char path[200];
    snprintf(path, sizeof path, "/proc/sys/%s", name);
    int file = open(path, O_WRONLY | O_CLOEXEC);
    if (file < 0 || write(file, value, strlen(value)) < 0) failed(path);
    if (file >= 0) close(file);
}

static void make(int kind, unsigned port, unsigned out, unsigned in) {
    struct sockaddr_in at = address("0.0.0.0", port);
    struct sctp_initmsg streams = { (uint16_t)out, (uint16_t)in, 0, 0 };
    int one = 1;
    own.association = socket(AF_INET, kind, IPPROTO_SCTP);
    setsockopt(own.association, SOL_SOCKET, SO_REUSEADDR, &one, sizeof one);
    if (own.association < 0 || bind(own.association, (struct sockaddr *)&at, sizeof at)) failed("make");
    set(own.association, SCTP_INITMSG, &streams, sizeof streams, "streams");
    begin_messages(own.association);
    own.has_peer = 0;
}

static void call(const char *text, unsigned port) {
    struct sockaddr_in to = address(text, port);
    fcntl(own.association, F_SETFL, O_NONBLOCK);
    if (connect(own.association, (struct sockaddr *)&to, sizeof to) && errno != EINPROGRESS) failed("connect");
    own.is_connecting = 1;
}

static void be_up(void) {
    struct sctp_status status = { 0 };
    socklen_t size = sizeof status;
    if (getsockopt(own.association, IPPROTO_SCTP, SCTP_STATUS, &status, &size)) failed("status");
    else SAY("up %u %u", status.sstat_outstrms, status.sstat_instrms);
}

static void reset_streams(char *line) {
    struct { struct sctp_reset_streams head; uint16_t streams[MOST_STREAMS]; } request = { 0 };
    char *word = strtok(line, " ");
    word = strtok(NULL, " ");
    request.head.srs_flags = word && !strcmp(word, "in") ? SCTP_STREAM_RESET_INCOMING : SCTP_STREAM_RESET_OUTGOING;
    while ((word = strtok(NULL, " ")) && request.head.srs_number_streams < MOST_STREAMS)
        request.streams[request.head.srs_number_streams++] = (uint16_t)atoi(word);
    set(own.association, SCTP_RESET_STREAMS, &request, (socklen_t)(sizeof request.head + 2 * request.head.srs_number_streams), "reset");
}

static void set_size(const char *name, int bytes) {
    if (setsockopt(own.association, SOL_SOCKET, *name == 's' ? SO_SNDBUFFORCE : SO_RCVBUFFORCE, &bytes, sizeof bytes)) failed(name);
}

static void interleave(void) {
    struct sctp_assoc_value one = { 0, 1 };
    int two = 2;
    set(own.association, SCTP_FRAGMENT_INTERLEAVE, &two, sizeof two, "fragment-interleave");
    set(own.association, SCTP_INTERLEAVING_SUPPORTED, &one, sizeof one, "interleave");
}

static void end(int aborts) {
    struct linger none = { 1, 0 };
    if (aborts) setsockopt(socket_in_use(), SOL_SOCKET, SO_LINGER, &none, sizeof none);
    if (own.association >= 0) close(own.association);
    if (own.listener >= 0) close(own.listener);
    own.association = own.listener = -1, own.is_connecting = 0;
    drop_jobs();
}

static void status(void) {
    struct sctp_status now = { 0 };
    socklen_t size = sizeof now;
    if (getsockopt(own.association, IPPROTO_SCTP, SCTP_STATUS, &now, &size)) failed("status");
    else SAY("status state=%d window=%u unacked=%u pending=%u", now.sstat_state, now.sstat_rwnd, now.sstat_unackdata, now.sstat_penddata);
    say_counts();
}

/* A line that sets something of the socket; whether it was one. */
static int act_on_options(const char *name, unsigned one, unsigned two, unsigned three) {
    struct sctp_assoc_value mask = { 0, one };
    struct sctp_rtoinfo times = { 0, one, two, three };
    struct sctp_paddrparams beats = { .spp_address = { .ss_family = AF_INET }, .spp_hbinterval = one, .spp_flags = one ? SPP_HB_ENABLE : SPP_HB_DISABLE };
    struct sctp_add_streams more = { 0, (uint16_t)two, (uint16_t)one };
    sctp_assoc_t this_one = 0;
    if (!strcmp(name, "rto")) set(socket_in_use(), SCTP_RTOINFO, &times, sizeof times, name);
    else if (!strcmp(name, "beats")) set(socket_in_use(), SCTP_PEER_ADDR_PARAMS, &beats, sizeof beats, name);
    else if (!strcmp(name, "resets")) set(socket_in_use(), SCTP_ENABLE_STREAM_RESET, &mask, sizeof mask, name);
    else if (!strcmp(name, "add")) set(own.association, SCTP_ADD_STREAMS, &more, sizeof more, name);
    else if (!strcmp(name, "reset-tsns")) set(own.association, SCTP_RESET_ASSOC, &this_one, sizeof this_one, name);
    else if (!strcmp(name, "sndbuf") || !strcmp(name, "rcvbuf")) set_size(name, (int)one);
    else if (!strcmp(name, "interleave")) interleave();
    else if (!strcmp(name, "number")) set_number(one);
    else if (!strcmp(name, "read")) own.is_reading = (int)one;
    else if (!strcmp(name, "quiet")) own.is_quiet = (int)one;
    else if (!strcmp(name, "gso")) set_gso((int)one);
    else return 0;
    return 1;
}

static void act(char *line) {
    char words[4][64] = { "", "", "", "" };
    unsigned numbers[4];
    sscanf(line, "%63s %63s %63s %63s", words[0], words[1], words[2], words[3]);
    for (int n = 0; n < 4; n++) numbers[n] = (unsigned)strtoul(words[n], NULL, 0);
    const char *name = words[0];
    if (act_on_options(name, numbers[1], numbers[2], numbers[3])) {
    } else if (!strcmp(name, "set")) set_kernel(words[1], words[2]);
    else if (!strcmp(name, "make")) make(SOCK_STREAM, numbers[1], numbers[2], numbers[3]);
    else if (!strcmp(name, "many")) make(SOCK_SEQPACKET, numbers[1], numbers[2], numbers[3]);
    else if (!strcmp(name, "to")) own.peer = address(words[1], numbers[2]), own.has_peer = 1;
    else if (!strcmp(name, "listen")) {
        own.listener = own.association, own.association = -1;
        if (listen(own.listener, 5)) failed(name);
    } else if (!strcmp(name, "connect")) call(words[1], numbers[2]);
    else if (!strcmp(name, "say")) add_job(line);
    else if (!strcmp(name, "reset")) reset_streams(line);
    else if (!strcmp(name, "shut")) {
        if (shutdown(own.association, SHUT_WR)) failed(name);
    } else if (!strcmp(name, "close") || !strcmp(name, "abort")) end(*name == 'a');
    else if (!strcmp(name, "status")) status();
    else if (!strcmp(name, "off")) power_off();
    else SAY("err %s", line);
    SAY(".");
}

/* Reads what there is of the lines, and acts on each whole one. */
static void read_lines(void) {
    static char lines[1 << 16];
    static size_t held;
    ssize_t size = read(0, lines + held, sizeof lines - 1 - held);
    if (size <= 0) power_off();
    held += size > 0 ? (size_t)size : 0;
    lines[held] = 0;
    char *begin = lines, *end_of;
    for (; (end_of = strpbrk(begin, "\r\n")); begin = end_of + 1) {
        *end_of = 0;
        if (*begin) act(begin);
    }
    held = strlen(begin);
    memmove(lines, begin, held + 1);
}

static void accept_one(void) {
    if ((own.association = accept(own.listener, NULL, NULL)) < 0) return;
    begin_messages(own.association);
    be_up();
}

static int error_of_socket(void) {
    int error = 0;
    socklen_t size = sizeof error;
    getsockopt(own.association, SOL_SOCKET, SO_ERROR, &error, &size);
    return error;
}

static void serve(short ready) {
    if (ready & (POLLERR | POLLHUP) && !(ready & POLLIN)) {
        int error = error_of_socket();
        SAY("event %s", error ? strerror(error) : "hung up");
        own.is_connecting = 0;
        receive();
        if (own.association >= 0) close(own.association);
        own.association = -1;
        return;
    }
    if (ready & POLLOUT && own.is_connecting) {
        int error = error_of_socket();
        own.is_connecting = 0;
        if (error) SAY("event error %s", strerror(error));
        else be_up();
    }
    for (int n = 0; n < RECEIVED_AT_ONCE && ready & POLLIN && own.is_reading && receive(); n++) {}
    if (own.association >= 0 && has_jobs() && ready & POLLOUT && !own.is_connecting) work();
}

int main(void) {
    set_up();
    SAY("READY");
    for (;;) {
        short wanted = (short)((own.is_reading ? POLLIN : 0) | (has_jobs() || own.is_connecting ? POLLOUT : 0));
        struct pollfd ready[3] = { { 0, POLLIN, 0 }, { own.listener, POLLIN, 0 }, { wanted ? own.association : -1, wanted, 0 } };
        if (poll(ready, 3, -1) < 0) continue;
        if (ready[0].revents) read_lines();
        else if (ready[1].revents && own.association < 0) accept_one();
        else if (own.association >= 0 && ready[2].revents) serve(ready[2].revents);
    }
}
