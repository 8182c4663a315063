/* usrsctp as the peer of an end: peer PORT BUFFER SEED [PACKET [PEER]] < LINES. It listens, or with PEER calls that port, and its packets have
 * at most PACKET bytes, common header included. Its packets, its time and its chances come from outside alone.
 *
 * at T               moment T comes, in milliseconds; the moment is 0 before
 * packet HEX         these bytes come, from the common header on
 * connect            it calls
 * send COUNT LENGTH  its user sends so many messages of this length on stream 0, which must fit its buffer
 * offer COUNT LENGTH so many more, now and behind each line as its buffer takes them
 * streams COUNT      before it calls, or is called: so many streams each way, which may be reset (RFC 6525), and of which it tells
 * chunks COUNT       before it calls, or is called: so many chunks it holds at most, and drops others: 512 otherwise
 * say STREAM TEXT    its user sends this message on that stream
 * reset STREAM       its user resets its outgoing stream
 * shut               its user has no more to send
 *
 * Each line is answered by `out HEX` for each packet that is sent now, and then by `done N`: N messages came until now, in their order.
 * Behind `streams` there are more lines before that one: `message STREAM SSN TEXT` for each message that comes, `reset in STREAM ..` for
 * streams that the other end has reset, `reset out STREAM ..` for those that it has reset itself, `reset failed STREAM ..`; and `said` or
 * `not said` for `say`.
 * Status 1: the words or a line are wrong, or usrsctp refuses a call; standard error says which.
 *
 * Its timers go when they are told to, in steps of at most 10 ms, as its own thread would have them; its one thread, for ends that change
 * their addresses, has nothing to do. It computes and checks CRC32c. gettimeofday and syscall stand here, so that it finds this program's
 * moment and chances in place of the system's: SEED gives its tag, its TSN and its waits the same bytes each time.
 */
#include <errno.h>
#include <stdarg.h>
#include <stdint.h>
#include <stdio.h>
#include <stdlib.h>
#include <string.h>
#include <sys/time.h>

#include <usrsctp.h>

/* Milliseconds; the second of the time of day at which moment 0 is; bytes. */
enum { STEP = 10, FIRST_SECOND = 1000000, SEND_SPACE = 1 << 20, LONGEST_PACKET = 65536, LONGEST_MESSAGE = 65536 };

static uint64_t moment, chance;
static struct socket *listening, *association;
static unsigned long received, offered;
static size_t offered_length;
static int tells;
static char path; /* its address names the path to usrsctp */

int gettimeofday(struct timeval *time, void *zone) {
    (void)zone;
    time->tv_sec = (time_t)(FIRST_SECOND + moment / 1000);
    time->tv_usec = (suseconds_t)(moment % 1000 * 1000);
    return 0;
}

/* usrsctp's one system call by number: getrandom(bytes, length, flags). */
long syscall(long number, ...) {
    va_list words;
    va_start(words, number);
    unsigned char *bytes = va_arg(words, unsigned char *);
    size_t length = va_arg(words, size_t);
    va_end(words);
    for (size_t at = 0; at < length; at++) {
        chance = chance * 6364136223846793005u + 1442695040888963407u;
        bytes[at] = (unsigned char)(chance >> 56);
    }
    return (long)length;
}

/* Ends the program with these words where it doesn't hold. */
static void need(int holds, const char *what) {
    if (holds) return;
    fprintf(stderr, "peer: %s\n", what);
    exit(1);
}

/* usrsctp sends a packet. */
static int leaves(void *address, void *packet, size_t length, uint8_t tos, uint8_t set_df) {
    (void)address, (void)tos, (void)set_df;
    const unsigned char *bytes = packet;
    fputs("out ", stdout);
    for (size_t at = 0; at < length; at++) printf("%02x", bytes[at]);
    putchar('\n');
    return 0;
}

/* Tells which streams were reset, and by whom. */
static void tell_resets(const struct sctp_stream_reset_event *event) {
    if (event->strreset_type != SCTP_STREAM_RESET_EVENT) return;
    int failed = event->strreset_flags & (SCTP_STREAM_RESET_DENIED | SCTP_STREAM_RESET_FAILED);
    printf("reset %s", failed ? "failed" : event->strreset_flags & SCTP_STREAM_RESET_INCOMING_SSN ? "in" : "out");
    for (size_t at = 0; at < (event->strreset_length - sizeof *event) / sizeof(uint16_t); at++) printf(" %u", event->strreset_stream_list[at]);
    putchar('\n');
}

/* usrsctp has something for its user, who takes it: a message counts where its number is the next one. */
static int comes(struct socket *socket, union sctp_sockstore from, void *data, size_t length, struct sctp_rcvinfo about, int flags, void *known) {
    (void)socket, (void)from, (void)known;
    int is_message = data != NULL && !(flags & MSG_NOTIFICATION) && flags & MSG_EOR;
    if (is_message && about.rcv_ssn == (uint16_t)received) received++;
    if (is_message && tells) printf("message %u %u %.*s\n", about.rcv_sid, about.rcv_ssn, (int)length, (const char *)data);
    if (data != NULL && flags & MSG_NOTIFICATION && tells) tell_resets(data);
    free(data);
    return 1;
}

static struct sockaddr_conn at_port(const char *port) {
    struct sockaddr_conn name = {.sconn_family = AF_CONN, .sconn_port = htons((uint16_t)atoi(port)), .sconn_addr = &path};
    return name;
}

static void start_at(const char *port, const char *buffer) {
    usrsctp_init_nothreads(0, leaves, NULL);
    usrsctp_sysctl_set_sctp_sendspace(SEND_SPACE);
    usrsctp_sysctl_set_sctp_recvspace((uint32_t)atoi(buffer));
    usrsctp_register_address(&path);
    struct sockaddr_conn name = at_port(port);
    listening = usrsctp_socket(AF_CONN, SOCK_STREAM, IPPROTO_SCTP, comes, NULL, 0, NULL);
    need(listening != NULL && usrsctp_set_non_blocking(listening, 1) == 0, "no socket");
    need(usrsctp_bind(listening, (struct sockaddr *)&name, sizeof name) == 0, "it can't have the port");
}

/* Its packets are as long, and it neither looks for a longer one nor waits with a short one. */
static void send_packets_of(const char *length) {
    struct sctp_paddrparams path_is = {.spp_pathmtu = (uint32_t)atoi(length), .spp_flags = SPP_PMTUD_DISABLE};
    int yes = 1;
    need(usrsctp_setsockopt(listening, IPPROTO_SCTP, SCTP_PEER_ADDR_PARAMS, &path_is, sizeof path_is) == 0, "no such packets");
    need(usrsctp_setsockopt(listening, IPPROTO_SCTP, SCTP_NODELAY, &yes, sizeof yes) == 0, "it waits");
}

static void at(uint64_t until) {
    while (moment < until) {
        uint64_t step = until - moment < STEP ? until - moment : STEP;
        moment += step;
        usrsctp_handle_timers((uint32_t)step);
    }
}

/* The value of a hexadecimal digit: 16 where it is none. */
static unsigned value_of(char digit) {
    static const char digits[] = "0123456789abcdef";
    const char *found = digit == 0 ? NULL : strchr(digits, digit);
    return found == NULL ? 16 : (unsigned)(found - digits);
}

static void packet(const char *digits) {
    static unsigned char bytes[LONGEST_PACKET];
    size_t length = 0;
    for (; length < sizeof bytes && value_of(digits[0]) < 16 && value_of(digits[1]) < 16; length++, digits += 2) {
        bytes[length] = (unsigned char)(16 * value_of(digits[0]) + value_of(digits[1]));
    }
    need(digits[0] == '\n', "packet: no bytes in hexadecimal digits, or too many");
    usrsctp_conninput(&path, bytes, length, 0);
    if (association == NULL) association = usrsctp_accept(listening, NULL, NULL);
}

static void send_messages(unsigned count, size_t length) {
    static const char message[LONGEST_MESSAGE];
    need(association != NULL && length <= sizeof message, "send: no association, or too long");
    for (unsigned sent = 0; sent < count; sent++) {
        need(usrsctp_sendv(association, message, length, NULL, 0, NULL, 0, SCTP_SENDV_NOINFO, 0) == (ssize_t)length, "send: refused");
    }
}

/* Some of what is offered goes into its buffer. */
static void send_offered(void) {
    static const char message[LONGEST_MESSAGE];
    while (offered > 0 && usrsctp_sendv(association, message, offered_length, NULL, 0, NULL, 0, SCTP_SENDV_NOINFO, 0) >= 0) offered--;
}

static void call(const char *port) {
    struct sockaddr_conn name = at_port(port);
    need(port != NULL && association == NULL, "connect: no PEER, or it called before");
    association = listening;
    need(usrsctp_connect(association, (struct sockaddr *)&name, sizeof name) == 0 || errno == EINPROGRESS, "connect: refused");
}

/* So many streams each way, which may be reset. */
static void set_streams(unsigned count) {
    struct sctp_initmsg opening = {.sinit_num_ostreams = (uint16_t)count, .sinit_max_instreams = (uint16_t)count};
    struct sctp_assoc_value resets = {.assoc_id = SCTP_ALL_ASSOC, .assoc_value = SCTP_ENABLE_RESET_STREAM_REQ};
    struct sctp_event event = {.se_assoc_id = SCTP_ALL_ASSOC, .se_type = SCTP_STREAM_RESET_EVENT, .se_on = 1};
    need(usrsctp_setsockopt(listening, IPPROTO_SCTP, SCTP_INITMSG, &opening, sizeof opening) == 0, "streams: not so many");
    need(usrsctp_setsockopt(listening, IPPROTO_SCTP, SCTP_ENABLE_STREAM_RESET, &resets, sizeof resets) == 0, "streams: no resets");
    need(usrsctp_setsockopt(listening, IPPROTO_SCTP, SCTP_EVENT, &event, sizeof event) == 0, "streams: no reports");
    tells = 1;
}

static void say(unsigned stream, const char *text) {
    struct sctp_sndinfo about = {.snd_sid = (uint16_t)stream};
    int is_said = usrsctp_sendv(association, text, strlen(text), NULL, 0, &about, sizeof about, SCTP_SENDV_SNDINFO, 0) >= 0;
    puts(is_said ? "said" : "not said");
}

static void reset(unsigned stream) {
    struct { struct sctp_reset_streams asked; uint16_t list[1]; } words = {{.srs_flags = SCTP_STREAM_RESET_OUTGOING, .srs_number_streams = 1}, {(uint16_t)stream}};
    need(usrsctp_setsockopt(association, IPPROTO_SCTP, SCTP_RESET_STREAMS, &words, sizeof words.asked + sizeof words.list) == 0, "reset: refused");
}

static void perform(const char *line, const char *peer) {
    unsigned long long number;
    unsigned count;
    size_t length;
    char text[64];
    if (sscanf(line, "at %llu", &number) == 1) {
        at(number);
    } else if (strncmp(line, "packet ", 7) == 0) {
        packet(line + 7);
    } else if (sscanf(line, "send %u %zu", &count, &length) == 2) {
        send_messages(count, length);
    } else if (sscanf(line, "offer %u %zu", &count, &length) == 2) {
        need(association != NULL && length <= LONGEST_MESSAGE, "offer: no association, or too long");
        offered += count;
        offered_length = length;
    } else if (sscanf(line, "streams %u", &count) == 1) {
        set_streams(count);
    } else if (sscanf(line, "chunks %u", &count) == 1) {
        usrsctp_sysctl_set_sctp_max_chunks_on_queue(count);
    } else if (sscanf(line, "say %u %63s", &count, text) == 2) {
        say(count, text);
    } else if (sscanf(line, "reset %u", &count) == 1) {
        reset(count);
    } else if (strcmp(line, "connect\n") == 0) {
        call(peer);
    } else if (strcmp(line, "shut\n") == 0) {
        need(association != NULL && usrsctp_shutdown(association, SHUT_WR) == 0, "shut: refused");
    } else {
        need(0, "a line that is none");
    }
}

int main(int count, char **words) {
    need(count >= 4 && count <= 6, "its words are PORT BUFFER SEED [PACKET [PEER]]");
    chance = strtoull(words[3], NULL, 10);
    start_at(words[1], words[2]);
    if (count > 4) send_packets_of(words[4]);
    need(count == 6 || usrsctp_listen(listening, 1) == 0, "it can't listen");
    static char line[2 * LONGEST_PACKET + 16];
    while (fgets(line, sizeof line, stdin) != NULL) {
        perform(line, count == 6 ? words[5] : NULL);
        send_offered();
        printf("done %lu\n", received);
        fflush(stdout);
    }
    return 0;
}
