/* Messages and reports of the socket (socket.h). Messages have a number: one of at least 8 bytes begins with it and with its length, 4 bytes each, and
 * byte N of the rest is (31 number + 7 N) mod 256. */
#include "socket.h"

#include <arpa/inet.h>
#include <errno.h>
#include <linux/sctp.h>
#include <stdint.h>
#include <stdlib.h>
#include <string.h>
#include <unistd.h>

enum { PPID = 7, LONGEST = 1 << 20, AT_ONCE = 64 };

struct job {
    unsigned stream, length, count, flags, policy, value;
    uint32_t number; /* of its next message */
    struct job *next;
};

static struct job *jobs, **last_job = &jobs;
static uint32_t next_number;
static uint8_t received[LONGEST], made[LONGEST];
static size_t length;
static unsigned long counted, bad;

static void fill(uint8_t *message, uint32_t number, uint32_t size) {
    uint32_t head[2] = { htonl(number), htonl(size) };
    for (uint32_t at = 0; at < size; at++) message[at] = (uint8_t)(31 * number + 7 * at);
    if (size >= sizeof head) memcpy(message, head, sizeof head);
}

static void ask_for_reports(int at) {
    static const uint16_t kinds[] = { SCTP_ASSOC_CHANGE, SCTP_REMOTE_ERROR, SCTP_SHUTDOWN_EVENT, SCTP_STREAM_RESET_EVENT, SCTP_STREAM_CHANGE_EVENT,
        SCTP_ASSOC_RESET_EVENT };
    int one = 1;
    set(at, SCTP_NODELAY, &one, sizeof one, "nodelay");
    set(at, SCTP_RECVRCVINFO, &one, sizeof one, "rcvinfo");
    for (size_t n = 0; n < sizeof kinds / sizeof *kinds; n++) {
        struct sctp_event event = { 0, kinds[n], 1 };
        set(at, SCTP_EVENT, &event, sizeof event, "event");
    }
}

/* ---- what is received */

static void report_reset(const struct sctp_stream_reset_event *event) {
    size_t count = (event->strreset_length - sizeof *event) / sizeof *event->strreset_stream_list;
    printf("event stream-reset flags=0x%x", event->strreset_flags);
    for (size_t n = 0; n < count; n++) printf(" %u", event->strreset_stream_list[n]);
    SAY("%s", "");
}

static void report(const union sctp_notification *event) {
    static const char *changes[] = { "up", "lost", "restart", "shutdown-complete", "cant-start" };
    switch (event->sn_header.sn_type) {
    case SCTP_ASSOC_CHANGE: SAY("event association %s", changes[event->sn_assoc_change.sac_state % 5]); break;
    case SCTP_REMOTE_ERROR: SAY("event remote-error cause=%u", ntohs(event->sn_remote_error.sre_error)); break;
    case SCTP_SHUTDOWN_EVENT: SAY("event shutdown"); break;
    case SCTP_STREAM_RESET_EVENT: report_reset(&event->sn_strreset_event); break;
    case SCTP_STREAM_CHANGE_EVENT: SAY("event stream-change flags=0x%x", event->sn_strchange_event.strchange_flags); break;
    case SCTP_ASSOC_RESET_EVENT: SAY("event association-reset flags=0x%x", event->sn_assocreset_event.assocreset_flags); break;
    default: SAY("event type=0x%x", event->sn_header.sn_type);
    }
}

static const char *judged(uint32_t *number) {
    uint32_t head[2];
    if (length < sizeof head) return "short";
    memcpy(head, received, sizeof head);
    *number = ntohl(head[0]);
    fill(made, *number, (uint32_t)length);
    return memcmp(made, received, length) == 0 ? "good" : "bad";
}

static void note_message(struct msghdr *message) {
    struct sctp_rcvinfo info = { 0 };
    uint32_t number = length ? received[0] : 0;
    for (struct cmsghdr *at = CMSG_FIRSTHDR(message); at; at = CMSG_NXTHDR(message, at))
        if (at->cmsg_level == IPPROTO_SCTP && at->cmsg_type == SCTP_RCVINFO) memcpy(&info, CMSG_DATA(at), sizeof info);
    const char *judgement = judged(&number);
    counted++, bad += *judgement == 'b';
    if (!own.is_quiet)
        SAY("message %u %zu %u %u %u %u %s", info.rcv_sid, length, ntohl(info.rcv_ppid), info.rcv_flags & SCTP_UNORDERED, info.rcv_ssn, number, judgement);
    length = 0;
}

int receive(void) {
    char control[256];
    struct iovec part = { received + length, sizeof received - length };
    struct msghdr message = { .msg_iov = &part, .msg_iovlen = 1, .msg_control = control, .msg_controllen = sizeof control };
    ssize_t size = recvmsg(own.association, &message, MSG_DONTWAIT);
    if (size < 0 && errno == EAGAIN) return 0;
    if (size < 0) {
        SAY("event error %s", strerror(errno));
        close(own.association), own.association = -1;
    } else if (size == 0 && !(message.msg_flags & MSG_EOR)) {
        SAY("event eof");
        own.is_reading = 0;
    } else if (message.msg_flags & MSG_NOTIFICATION) {
        report((const union sctp_notification *)(received + length));
    } else {
        length += (size_t)size;
        if (message.msg_flags & MSG_EOR) note_message(&message);
    }
    return own.association >= 0 && own.is_reading;
}

/* ---- what is sent */

static void describe(struct msghdr *message, const struct job *job) {
    struct sctp_sndinfo info = { .snd_sid = (uint16_t)job->stream, .snd_flags = (uint16_t)job->flags, .snd_ppid = htonl(PPID) };
    struct sctp_prinfo limit = { .pr_policy = (uint16_t)job->policy, .pr_value = job->value };
    struct cmsghdr *at = CMSG_FIRSTHDR(message);
    at->cmsg_level = IPPROTO_SCTP, at->cmsg_type = SCTP_SNDINFO, at->cmsg_len = CMSG_LEN(sizeof info);
    memcpy(CMSG_DATA(at), &info, sizeof info);
    at = CMSG_NXTHDR(message, at);
    at->cmsg_level = IPPROTO_SCTP, at->cmsg_type = SCTP_PRINFO, at->cmsg_len = CMSG_LEN(sizeof limit);
    memcpy(CMSG_DATA(at), &limit, sizeof limit);
}

/* Whether the kernel took, or refused, one message of the first job; it has space for none else. */
static int send_one(struct job *job) {
    char control[CMSG_SPACE(sizeof(struct sctp_sndinfo)) + CMSG_SPACE(sizeof(struct sctp_prinfo))] = { 0 };
    struct iovec part = { made, job->length };
    struct msghdr message = { .msg_iov = &part, .msg_iovlen = 1, .msg_control = control, .msg_controllen = sizeof control };
    describe(&message, job);
    if (own.has_peer) message.msg_name = &own.peer, message.msg_namelen = sizeof own.peer;
    fill(made, job->number, job->length);
    if (sendmsg(own.association, &message, MSG_DONTWAIT | MSG_NOSIGNAL) < 0) {
        if (errno == EAGAIN) return 0;
        failed("send");
    }
    job->number++;
    return 1;
}

void work(void) {
    for (int turn = 0; jobs && turn < AT_ONCE; turn++) {
        struct job *job = jobs;
        if (!send_one(job)) return;
        if (--job->count) continue;
        jobs = job->next;
        if (!jobs) last_job = &jobs;
        free(job);
    }
}

void drop_jobs(void) {
    while (jobs) {
        struct job *job = jobs;
        jobs = job->next;
        free(job);
    }
    last_job = &jobs;
}

void add_job(const char *line) {
    struct job *job = calloc(1, sizeof *job);
    int said = job ? sscanf(line, "say %u %u %u %u %u %u", &job->stream, &job->length, &job->count, &job->flags, &job->policy, &job->value) : 0;
    if (said != 6) {
        SAY("err %s", line);
        return;
    }
    job->number = next_number, next_number += job->count;
    *last_job = job, last_job = &job->next;
}

int has_jobs(void) { return jobs != NULL; }

void set_number(unsigned number) { next_number = number; }

void begin_messages(int at) {
    ask_for_reports(at);
    length = 0, own.is_reading = 1, counted = bad = 0;
}

void say_counts(void) { SAY("received %lu, %lu of them bad; %s to send", counted, bad, jobs ? "more" : "nothing"); }
