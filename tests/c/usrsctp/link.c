/* The link: it loses, repeats and holds back packets of both directions. */
#include "exchange.h"
#include <stdio.h>
#include <stdlib.h>
#include <string.h>

enum { LATENCY = 20, HELD_BACK = 60, REPEATED = 200, MOST_LOST = 3 };

static struct packet *first;
static unsigned count, missed[2];

void print(const char *what, unsigned to, const uint8_t *bytes, size_t length) {
    if (!wanted.verbose) return;
    printf("%llu %s to %s ", (unsigned long long)now, what, ends[to]);
    for (size_t i = 0; i < length; i++) printf("%02x", bytes[i]);
    putchar('\n');
}

static void arrives(unsigned to, uint64_t at, const uint8_t *bytes, size_t length) {
    struct packet **place = &first, *p = malloc(sizeof *p + length);
    need(p != NULL, "memory", 0);
    while (*place && (*place)->at <= at) place = &(*place)->next;
    p->next = *place, p->sent = now, p->at = at, p->to = to, p->length = length;
    memcpy(p->bytes, bytes, length);
    *place = p;
}

/* A packet goes onto the link. Of each direction three in a row are lost at most: so no end repeats one in vain as often as it may. */
void carry(unsigned to, const uint8_t *bytes, size_t length) {
    bool is_lost = missed[to] < MOST_LOST && chance(100) < wanted.lost;
    missed[to] = is_lost ? missed[to] + 1 : 0;
    count++;
    print(is_lost ? "lost" : "goes", to, bytes, length);
    if (is_lost) return;
    arrives(to, now + LATENCY + (chance(100) < wanted.mixed ? chance(HELD_BACK) : 0), bytes, length);
    if (chance(100) < wanted.mixed) arrives(to, now + LATENCY + chance(REPEATED), bytes, length);
}

unsigned carried(void) { return count; }

uint64_t first_arrival(void) { return first ? first->at : UINT64_MAX; }

struct packet *due(void) {
    struct packet *p = first;
    if (first_arrival() > now) return NULL;
    first = p->next;
    return p;
}
