/* One way of a path: losses, then perhaps a rate with a drop-tail queue before it, then a delay; and the packets on all ways, by arrival. */
#include "links.h"
#include <math.h>
#include <stdlib.h>
#include <string.h>

void make_way(struct way *way, double delay, double lost) {
    memset(way, 0, sizeof *way);
    way->delay_us = delay * 1000, way->rate = settings.rate / 8, way->lost = lost;
    way->places = (int)settings.queue + 2;
    way->leaves = calloc((size_t)way->places, sizeof *way->leaves);
    need(way->leaves != NULL, "memory");
}

/* In the bad state all is lost. It changes at a packet with some probability, or as time passes. */
static bool is_bad(struct way *way) {
    if (settings.good > 0) {
        if (part() < (way->is_bad ? settings.good : settings.bad)) way->is_bad = !way->is_bad;
    } else if (settings.bad_time > 0) {
        while (now_us >= way->changes) {
            way->is_bad = way->changes != 0 && !way->is_bad;
            double mean = way->is_bad ? settings.bad_time : settings.good_time, drawn = part();
            way->changes += 1 + (uint64_t)(-1000 * mean * log(drawn > 1e-12 ? drawn : 1e-12));
        }
    }
    return way->is_bad;
}

/* When the last byte of a packet has left the queue, or 0: the queue is full. */
static uint64_t queue_up(struct way *way, size_t length) {
    while (way->count > 0 && way->leaves[way->first] <= now_us) way->first = (way->first + 1) % way->places, way->count--;
    if (way->count > (int)settings.queue) return 0;
    uint64_t begins = way->free_at > now_us ? way->free_at : now_us;
    way->free_at = begins + (uint64_t)(((double)length + settings.overhead) / way->rate + 0.5);
    way->leaves[(way->first + way->count++) % way->places] = way->free_at;
    return way->free_at;
}

uint64_t carry(struct way *way, size_t length) {
    if (is_bad(way) || (way->lost > 0 && part() < way->lost)) {
        way->losses++;
        return 0;
    }
    uint64_t leaves = way->rate > 0 ? queue_up(way, length) : now_us;
    if (leaves == 0 && way->rate > 0) {
        way->drops++;
        return 0;
    }
    uint64_t at = leaves + (uint64_t)way->delay_us;
    if (settings.late > 0 && part() < settings.late) at += (uint64_t)(settings.late_by * 1000);
    return at > 0 ? at : 1;
}

/* ---- the packets on all ways: a heap, of those that arrive at the same time the first one that was sent before */
static struct packet *heap;
static size_t count, places;
static uint64_t launched;

static bool is_before(const struct packet *a, const struct packet *b) { return a->at < b->at || (a->at == b->at && a->order < b->order); }

static void put(size_t at, struct packet packet) { heap[at] = packet; }

void launch(struct packet packet) {
    packet.order = launched++;
    if (count == places) {
        places = places ? 2 * places : 1024;
        heap = realloc(heap, places * sizeof *heap);
        need(heap != NULL, "memory");
    }
    size_t at = count++;
    for (; at > 0 && is_before(&packet, &heap[(at - 1) / 2]); at = (at - 1) / 2) put(at, heap[(at - 1) / 2]);
    put(at, packet);
}

bool is_next(uint64_t *at) {
    if (count > 0) *at = heap[0].at;
    return count > 0;
}

struct packet land(void) {
    struct packet first = heap[0], last = heap[--count];
    size_t at = 0;
    for (size_t below = 1; below < count; below = 2 * at + 1) {
        if (below + 1 < count && is_before(&heap[below + 1], &heap[below])) below++;
        if (!is_before(&heap[below], &last)) break;
        put(at, heap[below]);
        at = below;
    }
    put(at, last);
    return first;
}
