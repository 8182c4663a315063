/* Associations over paths in virtual time, all in one process, under one clock: the library's endpoints, usrsctp's, and those of a program that
 * answers line by line.
 *
 *     links KEY=VALUE ..      a line of JSON for each flow
 *
 * flows=ours:usrsctp,..     sender:receiver of each flow, of `ours`, `usrsctp` and `lines`
 * start=0,1500              ms: when each flow begins
 * program=, words=          of `lines`: the program, and its words after STREAMS, the mode first
 * trace=FILE                a line for each packet
 * settings (links.h)        bytes, size, packet, buffer, chunks; delay, back, rate, queue, overhead; lost (both ways), lost_back (one way alone),
 *                           bad, good (to the bad state, in which all is lost, at a packet, and out of it), bad_time, good_time, late, late_by, blocks;
 *                           polled, polled_back (packets that arrived are taken so often, and then what is due is sent), read (the user takes messages
 *                           so often); flags, interleave, partial, delayed, rto_min; share (all flows go through one queue), seconds (each sender
 *                           has always another message; what arrives is counted from half a second after the last start on), seed, limit
 */
#include "links.h"
#include <stdlib.h>
#include <string.h>

struct settings settings = { .bytes = 1000000, .size = 1000, .packet = 1200, .buffer = 1048576, .chunks = 512, .delay = 50, .back = -1, .queue = 32,
                             .overhead = 28, .lost_back = -1, .late_by = 20, .seed = 1, .limit = 600 };
const char *program = "", *program_words = "data";
FILE *trace;

static struct flow flows[FLOWS];
static int count;
static uint64_t next_ms; /* of the next tick */

#define KEY(name) { #name, &settings.name }
static const struct { const char *name; double *value; } keys[] = {
    KEY(bytes), KEY(size), KEY(packet), KEY(buffer), KEY(chunks), KEY(delay), KEY(back), KEY(rate), KEY(queue), KEY(overhead), KEY(lost), KEY(lost_back),
    KEY(bad), KEY(good), KEY(bad_time), KEY(good_time), KEY(late), KEY(late_by), KEY(blocks), KEY(polled), KEY(polled_back), KEY(read), KEY(flags),
    KEY(interleave), KEY(partial), KEY(delayed), KEY(rto_min), KEY(share), KEY(seconds), KEY(seed), KEY(limit)
};

static const struct kind *kind_of(const char *name) {
    static const struct kind *const kinds[] = { &ours, &theirs, &lines };
    for (int at = 0; at < 3; at++)
        if (strcmp(name, kinds[at]->name) == 0) return kinds[at];
    need(false, name);
    return NULL;
}

static void set_flows(char *text) {
    for (char *word; (word = strsep(&text, ",")) != NULL && count < FLOWS; count++) {
        char *receiver = strchr(word, ':');
        need(receiver != NULL, "flows=SENDER:RECEIVER");
        *receiver++ = 0;
        flows[count].number = count;
        flows[count].side[0].kind = kind_of(word), flows[count].side[1].kind = kind_of(receiver);
    }
}

static void set_key(const char *key, char *value) {
    if (strcmp(key, "flows") == 0) set_flows(value);
    else if (strcmp(key, "program") == 0) program = value;
    else if (strcmp(key, "words") == 0) program_words = value;
    else if (strcmp(key, "trace") == 0) need((trace = fopen(value, "w")) != NULL, value);
    else if (strcmp(key, "start") == 0)
        sscanf(value, "%lf,%lf,%lf,%lf", &flows[0].starts, &flows[1].starts, &flows[2].starts, &flows[3].starts);
    else {
        size_t at = 0;
        while (at < sizeof keys / sizeof *keys && strcmp(key, keys[at].name) != 0) at++;
        need(at < sizeof keys / sizeof *keys, key);
        *keys[at].value = atof(value);
    }
}

static void make_flows(void) {
    double back = settings.back < 0 ? settings.delay : settings.back, lost_back = settings.lost_back < 0 ? settings.lost : settings.lost_back;
    for (int at = 0; at < count; at++) {
        struct flow *flow = &flows[at];
        make_way(&flow->there, settings.delay, settings.lost);
        make_way(&flow->back, back, lost_back);
        flow->messages = (uint64_t)(settings.bytes / settings.size);
        for (int end = 0; end < 2; end++) flow->side[end].flow = flow, flow->side[end].sends = end == 0;
        flow->side[0].out = settings.share != 0 ? &flows[0].there : &flow->there, flow->side[1].out = &flow->back;
    }
}

static void begin_flow(struct flow *flow) {
    flow->side[1].kind->begin(&flow->side[1]);
    flow->has_begun = true;
    flow->side[0].kind->begin(&flow->side[0]);
    flow->side[0].kind->poll(&flow->side[0]);
}

/* A packet arrives: it is taken at once, or waits until its side is polled. */
static void arrive(struct packet packet) {
    struct side *side = packet.to;
    if ((side->sends ? settings.polled : settings.polled_back) > 0) {
        if (side->waits == side->waiting_places) {
            side->waiting_places = side->waiting_places ? 2 * side->waiting_places : 64;
            side->waiting = realloc(side->waiting, (size_t)side->waiting_places * sizeof *side->waiting);
            need(side->waiting != NULL, "memory");
        }
        side->waiting[side->waits++] = packet;
        return;
    }
    side->kind->hear(side, packet.bytes, packet.length);
    free(packet.bytes);
    settle(side);
}

static void poll_side(struct side *side) {
    uint64_t every = (uint64_t)(side->sends ? settings.polled : settings.polled_back);
    if (every == 0 || side->waits == 0 || next_ms % every != 0) return;
    for (int at = 0; at < side->waits; at++) {
        side->kind->hear(side, side->waiting[at].bytes, side->waiting[at].length);
        free(side->waiting[at].bytes);
    }
    side->waits = 0;
    settle(side);
}

static void read_side(struct side *side) {
    if (settings.read == 0 || next_ms % (uint64_t)settings.read != 0) return;
    side->kind->read(side);
    side->kind->poll(side);
}

static void each_side(void (*act)(struct side *)) {
    for (int at = 0; at < count; at++)
        for (int end = 0; end < 2 && flows[at].has_begun; end++) act(&flows[at].side[end]);
}

static void tick_side(struct side *side) { side->kind->tick(side, next_ms); }

/* Time passes: at each millisecond timers expire, packets that wait are taken, users read. */
static void pass_to(uint64_t us) {
    for (; next_ms * 1000 <= us; next_ms++) {
        now_us = next_ms * 1000;
        if (next_ms % 10 == 0) tick_theirs();
        each_side(poll_side);
        each_side(read_side);
        each_side(tick_side);
    }
    now_us = us;
}

static bool is_done(const struct flow *flow) {
    const struct side *sender = &flow->side[0], *receiver = &flow->side[1];
    return settings.seconds == 0 && flow->has_begun && (receiver->got >= flow->messages || sender->has_ended || receiver->has_ended);
}

static bool all_done(void) {
    for (int at = 0; at < count; at++)
        if (!is_done(&flows[at])) return false;
    return true;
}

static double last_start(void) {
    double last = 0;
    for (int at = 0; at < count; at++) last = flows[at].starts > last ? flows[at].starts : last;
    return last;
}

/* What has arrived before doesn't count. */
static void note_octets(struct side *side) { side->octets_before = side->octets; }

static void run(void) {
    uint64_t counts_from = (uint64_t)(last_start() * 1000) + 500000;
    uint64_t ends = (uint64_t)(settings.limit * 1e6);
    if (settings.seconds > 0) ends = counts_from + (uint64_t)(settings.seconds * 1e6);
    for (bool counted = settings.seconds == 0; !all_done();) {
        uint64_t next = (now_us / 1000 + 1) * 1000, at;
        if (is_next(&at) && at < next) next = at;
        if (next > ends) return;
        pass_to(next);
        for (int flow = 0; flow < count; flow++)
            if (!flows[flow].has_begun && now_us >= (uint64_t)(flows[flow].starts * 1000)) begin_flow(&flows[flow]);
        while (is_next(&at) && at <= now_us) arrive(land());
        if (counted || now_us < counts_from) continue;
        counted = true;
        each_side(note_octets);
    }
}

static void print_flow(struct flow *flow, double all) {
    struct side *sender = &flow->side[0], *receiver = &flow->side[1];
    bool whole = settings.seconds == 0 && receiver->got >= flow->messages;
    double counted = (double)(receiver->octets - receiver->octets_before);
    printf("{\"flow\": \"%s:%s\", \"ms\": %.0f, \"whole\": %s, \"ended\": %s, ", sender->kind->name, receiver->kind->name,
           (double)((whole ? receiver->last_us : now_us) - flow->opened_us) / 1000, whole ? "true" : "false",
           sender->has_ended || receiver->has_ended ? "true" : "false");
    printf("\"got\": %lu, \"unordered\": %lu, \"packets\": %lu, \"repeats\": %lu, \"sacks\": %lu, \"lost\": %lu, \"dropped\": %lu, ",
           (unsigned long)receiver->got, (unsigned long)receiver->unordered, (unsigned long)sender->packets, (unsigned long)sender->repeats,
           (unsigned long)receiver->sacks, (unsigned long)sender->out->losses, (unsigned long)sender->out->drops);
    printf("\"share\": %.3f, \"mbit\": %.3f", all > 0 ? counted / all : 0, settings.seconds > 0 ? counted * 8 / settings.seconds / 1e6 : 0);
    if (flow->has_begun) sender->kind->report(sender);
    printf("}\n");
}

int main(int words, char **word) {
    for (int at = 1; at < words; at++) {
        char *value = strchr(word[at], '=');
        need(value != NULL, "links KEY=VALUE ..");
        *value++ = 0;
        set_key(word[at], value);
    }
    need(count > 0, "flows=");
    begin_chance((uint64_t)settings.seed);
    begin_theirs();
    make_flows();
    run();
    double all = 0;
    for (int at = 0; at < count; at++) all += (double)(flows[at].side[1].octets - flows[at].side[1].octets_before);
    for (int at = 0; at < count; at++) print_flow(&flows[at], all);
    return 0;
}
