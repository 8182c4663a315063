/* An endpoint of a program that answers line by line, as sctp-end and the second model do (docs/FORMATS.md, "One endpoint, line by line"). */
#include "links.h"
#include <inttypes.h>
#include <signal.h>
#include <stdlib.h>
#include <string.h>
#include <unistd.h>

enum { LONGEST_LINE = 1 << 18, LONGEST_COMMAND = 4096, QUEUE_LIMIT = 1024, MOST_TURNS = 64 };

struct child {
    FILE *to, *from;
    uint64_t next;        /* when its next timer expires, or a delayed SACK is due */
    int queued, unread;   /* messages without a TSN; answers to `send` that weren't read */
};
static struct child *child_of(struct side *side) { return side->state; }

static char *read_answer(struct side *side) {
    static char answer[LONGEST_LINE];
    need(fgets(answer, sizeof answer, child_of(side)->from) != NULL, "the program doesn't answer");
    answer[strcspn(answer, "\n")] = 0;
    need(strncmp(answer, "fault", 5) != 0, answer);
    return answer;
}

/* Before answers are read: all lines are sent, and the messages before them were accepted. */
static void send_lines(struct side *side) {
    fflush(child_of(side)->to);
    for (; child_of(side)->unread > 0; child_of(side)->unread--) need(strncmp(read_answer(side), "ticket", 6) == 0, "a message is refused");
}

/* The answer to the last line, if it is the only one that isn't answered. */
static char *ask(struct side *side) {
    send_lines(side);
    return read_answer(side);
}

static void write_bytes(struct side *side, const uint8_t *bytes, size_t length) {
    for (size_t at = 0; at < length; at++) fprintf(child_of(side)->to, "%02x", bytes[at]);
    fputc('\n', child_of(side)->to);
}

static void transmit_text(struct side *side, const char *text) {
    uint8_t packet[LONGEST_PACKET];
    size_t length = strlen(text) / 2;
    need(length <= sizeof packet, "the program's packet is too long");
    for (size_t at = 0; at < length; at++) {
        unsigned byte = 0;
        sscanf(text + 2 * at, "%2x", &byte);
        packet[at] = (uint8_t)byte;
    }
    transmit(side, packet, length);
}

static void write_time(struct side *side) { fprintf(child_of(side)->to, "at %" PRIu64 "\n", now_ms()); }

/* Starts the program, with its words for this side. */
static void start(struct side *side) {
    char command[LONGEST_COMMAND];
    int fragment = ((int)settings.packet - 32) / 4 * 4, in[2], out[2];
    snprintf(command, sizeof command, "exec %s %s %d %d %d 1 %s %d %d %s", program, side->sends ? "caller" : "listener", (int)settings.packet, fragment,
             (int)settings.buffer, program_words, own_port(side), peer_port(side),
             side->sends ? "" : "000102030405060708090a0b0c0d0e0f101112131415161718191a1b1c1d1e1f");
    need(pipe(in) == 0 && pipe(out) == 0, "a pipe");
    if (fork() == 0) {
        dup2(in[0], 0), dup2(out[1], 1);
        close(in[0]), close(in[1]), close(out[0]), close(out[1]);
        execl("/bin/sh", "sh", "-c", command, (char *)NULL);
        _exit(127);
    }
    close(in[0]), close(out[1]);
    child_of(side)->to = fdopen(in[1], "w"), child_of(side)->from = fdopen(out[0], "r");
}

static void begin(struct side *side) {
    signal(SIGPIPE, SIG_IGN);
    side->state = calloc(1, sizeof(struct child));
    need(side->state != NULL, "memory");
    start(side);
    child_of(side)->next = UINT64_MAX;
    fprintf(child_of(side)->to, "%s %u %u\n", side->sends ? "connect" : "draw", (uint32_t)chance() | 1, (uint32_t)chance());
    need(strcmp(ask(side), "ok") == 0, "the program doesn't begin");
}

static void hear(struct side *side, const uint8_t *packet, size_t length) {
    write_time(side);
    fputs("packet ", child_of(side)->to);
    write_bytes(side, packet, length);
    ask(side);
    const char *answer = read_answer(side);
    if (strncmp(answer, "answer ", 7) == 0) transmit_text(side, answer + 7);
}

/* A message's first bytes are its number, and its length is what counts. */
static void take_message(struct side *side, const char *bytes) {
    static uint8_t message[65536];
    for (size_t at = 0; at < 4; at++) message[at] = (uint8_t)strtoul((char[]){ bytes[2 * at], bytes[2 * at + 1], 0 }, NULL, 16);
    arrived(side, message, strlen(bytes) / 2);
}

static void take(struct side *side) {
    for (bool is_more = !side->sends; is_more;) {
        fputs("take 0\n", child_of(side)->to);
        const char *answer = ask(side);
        is_more = strncmp(answer, "message", 7) == 0;
        if (is_more) take_message(side, strrchr(answer, ' ') + 1);
    }
}

/* Asks for so many packets at once; whether there may be more. */
static bool build(struct side *side, int turns) {
    bool is_more = true;
    for (int turn = 0; turn < turns; turn++) fputs("build\n", child_of(side)->to);
    send_lines(side);
    for (int turn = 0; turn < turns; turn++) {
        const char *answer = read_answer(side);
        is_more = strncmp(answer, "sent ", 5) == 0;
        if (is_more) transmit_text(side, answer + 5);
    }
    return is_more;
}

static void flush(struct side *side) {
    for (int turns = 1; build(side, turns); turns = turns < MOST_TURNS ? 2 * turns : turns) {}
    fputs("status\n", child_of(side)->to);
    char state[32], ended[32], next[32], out[8], in[8], formats[16];
    long outstanding;
    const char *answer = ask(side);
    need(sscanf(answer, "status %31s %31s %31s %7s %7s %15s %ld %d", state, ended, next, out, in, formats, &outstanding, &child_of(side)->queued) == 8, answer);
    child_of(side)->next = strcmp(next, "-") == 0 ? UINT64_MAX : strtoull(next, NULL, 10);
    side->is_open = side->is_open || strcmp(state, "Established") == 0;
    side->has_ended = strcmp(ended, "-") != 0;
}

static bool say(struct side *side, const uint8_t *message, size_t length) {
    if (child_of(side)->queued == QUEUE_LIMIT) return false;
    fprintf(child_of(side)->to, "send 0 o %d - ", PAYLOAD_ID);
    write_bytes(side, message, length);
    child_of(side)->queued++, child_of(side)->unread++;
    return true;
}

static void tick(struct side *side, uint64_t ms) {
    if (child_of(side)->next > ms) return;
    write_time(side);
    ask(side);
    if (settings.read == 0) take(side);
    flush(side);
}

static void report(struct side *side) {
    fputs("path\n", child_of(side)->to);
    printf(", \"path\": \"%s\"", ask(side));
}

const struct kind lines = { "lines", begin, hear, take, flush, say, tick, report };
