/* An end of ours and one of usrsctp's in one program, in virtual time, and between them a link that loses, repeats and holds back packets.
 *
 *     usrsctp SEED CALLER OURS THEIRS LOST MIXED BUFFERS ENDING [-v]
 *
 * CALLER is `ours`, `theirs` or `both`. OURS and THEIRS is what each end asks for: `data`, `data-pr`, `idata` or `idata-pr`. Of the packets of each
 * direction LOST in a hundred are lost, MIXED repeated, and as many held back. BUFFERS are `wide`, or `narrow`, and then our user is slow. ENDING is
 * `ours-shuts`, `theirs-shuts` or `both-shut`, while both have messages queued, or `ours-aborts` or `theirs-aborts`, when half of them are sent.
 * With -v each packet is printed.
 *
 * Both ends send at once: messages of a byte and more, up to 64 KiB (ours) and 200,000 bytes (usrsctp's), 8,000 with narrow buffers, on some
 * streams, ordered and not, and where partial reliability is agreed on, some that may be given up. It ends with 0 where
 *
 *  - both ends agreed on what both asked for;
 *  - each message that came was sent, came once, with its bytes, on its stream; an ordered one behind all before it that may not be given up;
 *  - after a shutdown all had come that their sender didn't give up;
 *  - both ends were told how it ended;
 *  - no end found a packet of the other one unreadable.
 *
 * Else it says what isn't so, and when. */
#include "exchange.h"
#include <stdio.h>
#include <stdlib.h>
#include <string.h>

enum { TICK = 10, LAST = 36000000, AFTERWARDS = 10000 }; /* milliseconds: of usrsctp's clock; until it is given up; for late packets, and for what a slow user has to take */

struct wanted wanted;
uint64_t now;
const char *const ends[] = { "ours", "theirs" };
static const char *const callers[] = { "ours", "theirs", "both", NULL };
static const char *const modes[] = { "data", "data-pr", "idata", "idata-pr", NULL };
static const char *const buffers[] = { "wide", "narrow", NULL };
static const char *const endings[] = { "ours-shuts", "theirs-shuts", "both-shut", "ours-aborts", "theirs-aborts", NULL };
static uint64_t place;        /* in the chances of the link and of ours */
static uint64_t closed_at[2]; /* when an end was closed; 0 before */

void need(bool holds, const char *what, uint32_t number) {
    if (holds) return;
    printf("%s (%u), at %llu ms\n", what, number, (unsigned long long)now);
    exit(1);
}

void need_of(unsigned end, bool holds, const char *what, uint32_t number) {
    if (!holds) printf("of %s: ", ends[end]);
    need(holds, what, number);
}

uint32_t chance(uint32_t below) {
    place = place * 6364136223846793005u + 1442695040888963407u;
    return (uint32_t)(((place >> 32) * below) >> 32);
}

/* Two messages more of each end, up to those that are enough, where one of them ends it. Where that aborts, and its ABORT is lost, the
 * other one learns it by what it sends then: ours sends no HEARTBEAT. */
static void talk(void) {
    static bool is_over;
    uint32_t enough = wanted.ending < ABORTED_BY_OURS ? MESSAGES : MESSAGES / 2;
    for (int i = 0; i < 2; i++) {
        if (is_over || sent(OURS) < enough) send_next(OURS, we_send);
        if (is_over || sent(THEIRS) < enough) send_next(THEIRS, they_send);
    }
    if (is_over || sent(OURS) < enough || sent(THEIRS) < enough) return;
    is_over = true;
    we_end();
    they_end();
}

/* A packet comes to its end. While only one is closed, none comes to it that went out before it was: it would be answered by an ABORT
 * (RFC 9260, 8.4), and where the last packet of the shutdown was lost, that is how the other end would see it end. */
static void come(const struct packet *packet) {
    bool is_late = wanted.ending < ABORTED_BY_OURS && packet->sent < closed_at[packet->to] && !closed_at[!packet->to];
    print(is_late ? "late" : "comes", packet->to, packet->bytes, packet->length);
    if (is_late) return;
    if (packet->to == OURS)
        we_hear(packet);
    else
        they_hear(packet);
    if (!closed_at[OURS] && we_ended()) closed_at[OURS] = now;
    if (!closed_at[THEIRS] && they_ended()) closed_at[THEIRS] = now;
}

static void deliver(void) {
    struct packet *packet;
    while ((packet = due()) != NULL) {
        come(packet);
        free(packet);
    }
}

/* Time goes on to what comes next: a packet, a moment of ours, or a tick of usrsctp's clock. */
static void pass(void) {
    uint64_t next = now + TICK, moment = our_moment(), before = now;
    if (first_arrival() < next) next = first_arrival();
    if (moment < next) next = moment;
    if (next > now) now = next;
    if (moment <= now) we_pass();
    if (now > before) they_pass((uint32_t)(now - before));
}

static void run(void) {
    uint64_t until = LAST;
    while (now < until) {
        talk();
        we_transmit();
        pass();
        deliver();
        we_take();
        if (until == LAST && we_ended() && they_ended()) until = now + AFTERWARDS;
    }
}

static unsigned which(const char *word, const char *const *words) {
    for (unsigned i = 0; words[i]; i++)
        if (strcmp(words[i], word) == 0) return i;
    fprintf(stderr, "no such word: %s\n", word);
    exit(2);
}

int main(int count, char **words) {
    if (count < 9) return fprintf(stderr, "usrsctp SEED CALLER OURS THEIRS LOST MIXED BUFFERS ENDING [-v]\n"), 2;
    place = strtoull(words[1], NULL, 10);
    wanted.caller = which(words[2], callers);
    wanted.asked[OURS] = which(words[3], modes), wanted.asked[THEIRS] = which(words[4], modes);
    wanted.agreed = wanted.asked[OURS] & wanted.asked[THEIRS];
    wanted.lost = (unsigned)atoi(words[5]), wanted.mixed = (unsigned)atoi(words[6]);
    wanted.narrow = which(words[7], buffers), wanted.ending = which(words[8], endings), wanted.verbose = count > 9;
    they_open(~place);
    we_open();
    run();
    if (wanted.ending < ABORTED_BY_OURS) all_came(OURS, we_gave_up), all_came(THEIRS, they_gave_up);
    they_judge();
    we_judge();
    printf("%u and %u messages, %u packets, %llu ms\n", came(OURS), came(THEIRS), carried(), (unsigned long long)now);
    return 0;
}
