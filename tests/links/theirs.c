/* An endpoint of usrsctp, without threads, over addresses that are pointers. It computes and checks CRC32c, as the library does; AUTH, ASCONF, ECN,
 * RE-CONFIG, NR-SACK, PKTDROP, Nagle's algorithm, path MTU discovery and its HEARTBEATs are off, so that DATA and SACK alone are compared. */
#include "links.h"
#include <arpa/inet.h>
#include <errno.h>
#include <stdlib.h>
#include <string.h>
#include <usrsctp.h>

enum { TICK = 10, MOST_SPACE = 1 << 22, LONGEST = 1 << 17 };

struct end {
    struct socket *listening, *association;
};
static struct end *end_of(struct side *side) { return side->state; }

/* usrsctp sends a packet. */
static int leaves(void *address, void *packet, size_t length, uint8_t tos, uint8_t set_df) {
    (void)tos, (void)set_df;
    transmit(address, packet, length);
    return 0;
}

void begin_theirs(void) {
    usrsctp_init_nothreads(0, leaves, NULL);
    usrsctp_sysctl_set_sctp_no_csum_on_loopback(0);
    usrsctp_sysctl_set_sctp_sendspace(MOST_SPACE);
    usrsctp_sysctl_set_sctp_recvspace(MOST_SPACE);
    usrsctp_sysctl_set_sctp_max_chunks_on_queue((uint32_t)settings.chunks);
}

void tick_theirs(void) { usrsctp_handle_timers(TICK); }

static void note(struct side *side, const union sctp_notification *event) {
    if (event->sn_header.sn_type != SCTP_ASSOC_CHANGE) return;
    if (event->sn_assoc_change.sac_state == SCTP_COMM_UP) side->is_open = true;
    else side->has_ended = true;
}

/* What arrived: a whole message, since each is one chunk. */
static int receive(struct socket *at, union sctp_sockstore from, void *bytes, size_t length, struct sctp_rcvinfo info, int flags, void *side) {
    (void)at, (void)from, (void)info;
    if (bytes == NULL) ((struct side *)side)->has_ended = true;
    else if (flags & MSG_NOTIFICATION) note(side, bytes);
    else arrived(side, bytes, length);
    free(bytes);
    return 1;
}

static void set(struct socket *of, int level, int option, const void *value, size_t length) {
    need(usrsctp_setsockopt(of, level, option, value, (socklen_t)length) == 0, "an option of usrsctp's");
}

static void set_number(struct socket *of, int option, uint32_t value) {
    struct sctp_assoc_value asked = { .assoc_id = SCTP_FUTURE_ASSOC, .assoc_value = value };
    set(of, IPPROTO_SCTP, option, &asked, sizeof asked);
}

static void set_path(struct socket *of) {
    struct sctp_paddrparams path = { 0 };
    path.spp_address.ss_family = AF_CONN;
    path.spp_flags = SPP_PMTUD_DISABLE | SPP_HB_DISABLE, path.spp_pathmtu = (uint32_t)settings.packet;
    set(of, IPPROTO_SCTP, SCTP_PEER_ADDR_PARAMS, &path, sizeof path);
}

/* Its user reads at once, by `receive`, or at times, by `take`. */
static struct socket *make_socket(struct side *side) {
    static const int off[] = { SCTP_ASCONF_SUPPORTED, SCTP_AUTH_SUPPORTED, SCTP_ECN_SUPPORTED, SCTP_RECONFIG_SUPPORTED, SCTP_NRSACK_SUPPORTED,
                               SCTP_PKTDROP_SUPPORTED };
    bool at_once = settings.read == 0;
    struct socket *made = usrsctp_socket(AF_CONN, SOCK_STREAM, IPPROTO_SCTP, at_once ? receive : NULL, NULL, 0, at_once ? side : NULL);
    need(made != NULL && usrsctp_set_non_blocking(made, 1) == 0, "a socket of usrsctp's");
    int on = 1, space = (int)settings.buffer;
    struct sctp_initmsg streams = { .sinit_num_ostreams = 1, .sinit_max_instreams = 1 };
    struct sctp_event changes = { SCTP_FUTURE_ASSOC, SCTP_ASSOC_CHANGE, 1 };
    set(made, SOL_SOCKET, SO_RCVBUF, &space, sizeof space);
    set(made, SOL_SOCKET, SO_SNDBUF, &space, sizeof space);
    set(made, IPPROTO_SCTP, SCTP_NODELAY, &on, sizeof on);
    set(made, IPPROTO_SCTP, SCTP_INITMSG, &streams, sizeof streams);
    set(made, IPPROTO_SCTP, SCTP_EVENT, &changes, sizeof changes);
    set_number(made, SCTP_PR_SUPPORTED, settings.partial != 0);
    for (size_t at = 0; at < sizeof off / sizeof *off; at++) set_number(made, off[at], 0);
    set_path(made);
    return made;
}

static struct sockaddr_conn named(struct side *side, uint16_t port) {
    struct sockaddr_conn name = { 0 };
    name.sconn_family = AF_CONN, name.sconn_port = htons(port), name.sconn_addr = side;
    return name;
}

static void begin(struct side *side) {
    struct end *end = side->state = calloc(1, sizeof *end);
    need(end != NULL, "memory");
    usrsctp_register_address(side);
    struct socket *made = make_socket(side);
    struct sockaddr_conn own = named(side, own_port(side)), peer = named(side, peer_port(side));
    need(usrsctp_bind(made, (struct sockaddr *)&own, sizeof own) == 0, "usrsctp's bind");
    if (side->sends) {
        end->association = made;
        need(usrsctp_connect(made, (struct sockaddr *)&peer, sizeof peer) == 0 || errno == EINPROGRESS, "usrsctp's connect");
    } else {
        end->listening = made;
        need(usrsctp_listen(made, 1) == 0, "usrsctp's listen");
    }
}

static void hear(struct side *side, const uint8_t *packet, size_t length) {
    struct end *end = end_of(side);
    usrsctp_conninput(side, packet, length, 0);
    if (end->association != NULL || (end->association = usrsctp_accept(end->listening, NULL, NULL)) == NULL) return;
    need(usrsctp_set_non_blocking(end->association, 1) == 0, "a socket of usrsctp's");
    side->is_open = true;
}

static void take(struct side *side) {
    static uint8_t bytes[LONGEST];
    if (settings.read == 0 || end_of(side)->association == NULL) return;
    for (;;) {
        struct sctp_rcvinfo info;
        socklen_t from_length = 0, info_length = sizeof info;
        unsigned info_type = 0;
        int flags = 0;
        ssize_t length = usrsctp_recvv(end_of(side)->association, bytes, sizeof bytes, NULL, &from_length, &info, &info_length, &info_type, &flags);
        if (length <= 0) return;
        if (flags & MSG_NOTIFICATION) note(side, (const union sctp_notification *)bytes);
        else arrived(side, bytes, (size_t)length);
    }
}

/* Its packets go by themselves; its user hears of the opening. */
static void flush(struct side *side) {
    if (settings.read != 0 && side->sends) take(side);
}

static bool say(struct side *side, const uint8_t *message, size_t length) {
    struct sctp_sndinfo info = { .snd_ppid = htonl(PAYLOAD_ID) };
    return usrsctp_sendv(end_of(side)->association, message, length, NULL, 0, &info, sizeof info, SCTP_SENDV_SNDINFO, 0) >= 0;
}

static void tick(struct side *side, uint64_t ms) {
    if (side->sends && ms % TICK == 0) offer(side);
}

static void report(struct side *side) { (void)side; }

const struct kind theirs = { "usrsctp", begin, hear, take, flush, say, tick, report };
