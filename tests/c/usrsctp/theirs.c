/* usrsctp's end: a socket of AF_CONN, whose packets come from this program and go to it. Its time and its chances are this program's:
 * gettimeofday and syscall stand here, so that it finds them in place of the system's. */
#include "exchange.h"
#include <errno.h>
#include <stdarg.h>
#include <stdlib.h>
#include <string.h>
#include <sys/time.h>
#include <usrsctp.h>

#ifndef SCTP_INTERLEAVING_SUPPORTED
#define SCTP_INTERLEAVING_SUPPORTED 0x00001206 /* a socket option that usrsctp's header leaves out */
#endif

static struct socket *listening, *theirs;
static unsigned state; /* the last one that an SCTP_ASSOC_CHANGE told */
static bool given_up[MESSAGES];
static uint64_t place; /* in its chances */
static char path;      /* its address names the link to usrsctp */

int gettimeofday(struct timeval *time, void *zone) {
    (void)zone;
    time->tv_sec = (time_t)(1000000 + now / 1000);
    time->tv_usec = (suseconds_t)(now % 1000 * 1000);
    return 0;
}

/* usrsctp's one system call by number: getrandom(bytes, length, flags). */
long syscall(long number, ...) {
    va_list words;
    va_start(words, number);
    unsigned char *bytes = va_arg(words, unsigned char *);
    size_t length = va_arg(words, size_t);
    va_end(words);
    for (size_t i = 0; i < length; i++) {
        place = place * 6364136223846793005u + 1442695040888963407u;
        bytes[i] = (unsigned char)(place >> 56);
    }
    return (long)length;
}

static int leaves(void *address, void *packet, size_t length, uint8_t tos, uint8_t set_df) {
    (void)address, (void)tos, (void)set_df;
    carry(OURS, packet, length);
    return 0;
}

/* ---- what it tells its user */

static bool has(const struct sctp_assoc_change *change, int feature) {
    return memchr(change->sac_info, feature, change->sac_length - sizeof *change) != NULL;
}

static void changed(const struct sctp_assoc_change *change) {
    state = change->sac_state;
    if (state != SCTP_COMM_UP) return;
    need(has(change, SCTP_ASSOC_SUPPORTS_PR) == !!(wanted.agreed & PARTIAL), "usrsctp agreed otherwise on partial reliability", wanted.agreed);
    need(has(change, SCTP_ASSOC_SUPPORTS_INTERLEAVING) == !!(wanted.agreed & INTERLEAVED), "usrsctp agreed otherwise on I-DATA", wanted.agreed);
    need(change->sac_outbound_streams == STREAMS && change->sac_inbound_streams == STREAMS, "usrsctp's streams", change->sac_inbound_streams);
}

static void failed(uint32_t number) {
    need_of(THEIRS, number < MESSAGES, "a message failed that was not sent", number);
    given_up[number] = true;
}

static void told(const union sctp_notification *note) {
    if (note->sn_header.sn_type == SCTP_ASSOC_CHANGE) changed(&note->sn_assoc_change);
    if (note->sn_header.sn_type == SCTP_PARTIAL_DELIVERY_EVENT) broken_off(OURS, note->sn_pdapi_event.pdapi_stream);
    if (note->sn_header.sn_type == SCTP_SEND_FAILED_EVENT) failed(ntohl(note->sn_send_failed_event.ssfe_info.snd_ppid));
}

static int comes(struct socket *socket, union sctp_sockstore store, void *data, size_t length, struct sctp_rcvinfo info, int flags, void *known) {
    (void)socket, (void)store, (void)known;
    if (data == NULL) return 1;
    if (flags & MSG_NOTIFICATION)
        told(data);
    else
        part(OURS, ntohl(info.rcv_ppid), info.rcv_sid, !(info.rcv_flags & SCTP_UNORDERED), data, length, flags & MSG_EOR);
    free(data);
    return 1;
}

/* ---- its calls */

static void option(int name, const void *value, size_t length) {
    need(usrsctp_setsockopt(theirs, IPPROTO_SCTP, name, value, (socklen_t)length) == 0, "usrsctp's option", (uint32_t)name);
}

static void set_options(unsigned mode) {
    static const uint16_t events[] = { SCTP_ASSOC_CHANGE, SCTP_PARTIAL_DELIVERY_EVENT, SCTP_SEND_FAILED_EVENT };
    struct sctp_initmsg streams = { .sinit_num_ostreams = STREAMS, .sinit_max_instreams = STREAMS };
    struct sctp_assoc_value partial = { SCTP_FUTURE_ASSOC, mode & PARTIAL }, interleave = { SCTP_FUTURE_ASSOC, mode & INTERLEAVED };
    uint32_t level = mode & INTERLEAVED ? 2 : 0;
    for (size_t i = 0; i < sizeof events / sizeof *events; i++) {
        struct sctp_event event = { SCTP_FUTURE_ASSOC, events[i], 1 };
        option(SCTP_EVENT, &event, sizeof event);
    }
    option(SCTP_INITMSG, &streams, sizeof streams);
    option(SCTP_PR_SUPPORTED, &partial, sizeof partial);
    option(SCTP_FRAGMENT_INTERLEAVE, &level, sizeof level);
    option(SCTP_INTERLEAVING_SUPPORTED, &interleave, sizeof interleave);
}

/* Unless they are to be narrow its buffers are so large that no window closes. Its guard of a shutdown and its cookies live for hours; it repeats
 * as often as it must, also what counts against it as its HEARTBEATs, and its path never counts as broken, as it would until one of these is
 * answered: docs/PEERS.md has what it does else. */
void they_open(uint64_t seed) {
    struct sockaddr_conn name = { .sconn_family = AF_CONN, .sconn_port = htons(PORT + 1), .sconn_addr = &path };
    place = seed;
    usrsctp_init_nothreads(0, leaves, NULL);
    usrsctp_sysctl_set_sctp_sendspace(wanted.narrow ? 65536 : 1 << 22);
    usrsctp_sysctl_set_sctp_recvspace(wanted.narrow ? 131072 : 1 << 22);
    usrsctp_sysctl_set_sctp_max_chunks_on_queue(8192);
    usrsctp_sysctl_set_sctp_shutdown_guard_time_default(36000);
    usrsctp_sysctl_set_sctp_assoc_rtx_max_default(100);
    usrsctp_sysctl_set_sctp_path_rtx_max_default(200);
    usrsctp_sysctl_set_sctp_valid_cookie_life_default(3600000);
    usrsctp_register_address(&path);
    theirs = usrsctp_socket(AF_CONN, SOCK_STREAM, IPPROTO_SCTP, comes, NULL, 0, NULL);
    need(theirs != NULL && usrsctp_set_non_blocking(theirs, 1) == 0, "usrsctp's socket", 0);
    set_options(wanted.asked[THEIRS]);
    need(usrsctp_bind(theirs, (struct sockaddr *)&name, sizeof name) == 0, "usrsctp's bind", 0);
    name.sconn_port = htons(PORT);
    if (wanted.caller != OURS)
        need(usrsctp_connect(theirs, (struct sockaddr *)&name, sizeof name) == 0 || errno == EINPROGRESS, "usrsctp's connect", 0);
    else
        need(usrsctp_listen(theirs, 1) == 0, "usrsctp's listen", 0), listening = theirs, theirs = NULL;
}

/* How a message is sent, and half of the mortal ones are given up after a time, half when they would be sent again. */
static struct sctp_sendv_spa how_to_send(uint32_t number, struct message m) {
    struct sctp_sendv_spa how = { .sendv_flags = SCTP_SEND_SNDINFO_VALID | (m.mortal ? SCTP_SEND_PRINFO_VALID : 0) };
    how.sendv_sndinfo.snd_sid = m.stream, how.sendv_sndinfo.snd_ppid = htonl(number);
    how.sendv_sndinfo.snd_flags = m.ordered ? 0 : SCTP_UNORDERED;
    how.sendv_prinfo.pr_policy = number % 2 ? SCTP_PR_SCTP_TTL : SCTP_PR_SCTP_RTX;
    how.sendv_prinfo.pr_value = number % 2 ? WORTH : 0;
    return how;
}

bool they_send(uint32_t number) {
    static uint8_t bytes[LONGEST];
    struct message m = message(THEIRS, number);
    struct sctp_sendv_spa how = how_to_send(number, m);
    if (theirs == NULL || state != SCTP_COMM_UP) return false;
    fill(THEIRS, number, bytes, m.length);
    if (usrsctp_sendv(theirs, bytes, m.length, NULL, 0, &how, sizeof how, SCTP_SENDV_SPA, 0) == (ssize_t)m.length) return true;
    need(errno == EWOULDBLOCK, "usrsctp's send", (uint32_t)errno);
    return false;
}

/* It accepts one association: a repeated COOKIE ECHO would begin another one, where that was aborted. */
void they_hear(const struct packet *packet) {
    usrsctp_conninput(&path, packet->bytes, packet->length, 0);
    if (theirs || (theirs = usrsctp_accept(listening, NULL, NULL)) == NULL) return;
    usrsctp_close(listening);
}

void they_pass(uint32_t milliseconds) { usrsctp_handle_timers(milliseconds); }

void they_end(void) {
    struct sctp_sndinfo abort = { .snd_flags = SCTP_ABORT };
    if (wanted.ending == SHUT_BY_THEIRS || wanted.ending == SHUT_BY_BOTH)
        need(usrsctp_shutdown(theirs, SHUT_WR) == 0, "usrsctp's shutdown", (uint32_t)errno);
    else if (wanted.ending == ABORTED_BY_THEIRS)
        need(usrsctp_sendv(theirs, "", 0, NULL, 0, &abort, sizeof abort, SCTP_SENDV_SNDINFO, 0) >= 0, "usrsctp's abort", (uint32_t)errno);
}

bool they_gave_up(uint32_t number) { return given_up[number]; }

bool they_ended(void) { return state == SCTP_SHUTDOWN_COMP || state == SCTP_COMM_LOST || state == SCTP_CANT_STR_ASSOC; }

void they_judge(void) {
    struct sctpstat counts;
    usrsctp_get_stat(&counts);
    need(counts.sctps_checksumerrors == 0, "usrsctp found checksums wrong", counts.sctps_checksumerrors);
    need(state == (wanted.ending < ABORTED_BY_OURS ? SCTP_SHUTDOWN_COMP : SCTP_COMM_LOST), "usrsctp ended otherwise", state);
}
