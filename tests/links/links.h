/* What the parts of the program `links` share. links.c has its words. */
#ifndef LINKS_H
#define LINKS_H
#include <stdbool.h>
#include <stddef.h>
#include <stdint.h>
#include <stdio.h>

enum { FLOWS = 4, LONGEST_PACKET = 1500, PORT = 5000, PAYLOAD_ID = 51, IS_DATA = 0, IS_I_DATA = 64, IS_SACK = 3, HEADER = 12 };

/* The words, KEY=VALUE. Times are milliseconds, but where another unit is said. */
struct settings {
    double bytes, size, packet, buffer, chunks;              /* a flow's bytes, a message's, a packet's; each receive buffer; usrsctp's chunks */
    double delay, back, rate, queue, overhead;               /* one way, and back; Mbit/s, packets that wait, bytes of a packet below SCTP */
    double lost, lost_back, bad, good, bad_time, good_time;  /* shares of packets; of changes at a packet; mean times */
    double late, late_by, blocks;                            /* share of packets; gap blocks of a SACK that aren't cut off */
    double polled, polled_back, read;                        /* 0: at once */
    double flags, interleave, partial, delayed, rto_min;     /* of the library's configuration */
    double share, seconds, seed, limit;                      /* limit and seconds are seconds */
};
extern struct settings settings;
extern const char *program; /* the words of a program that answers as sctp-end does */
extern const char *program_words;
extern FILE *trace;

/* ---- chance.c: the clock, and what is drawn */
extern uint64_t now_us;
uint64_t now_ms(void);
uint64_t chance(void);   /* the endpoints' values */
double part(void);       /* the links': at least 0, below 1 */
void begin_chance(uint64_t seed);

/* ---- way.c: one way of a path, and the packets on all of them */
struct way {
    double delay_us, rate, lost; /* bytes a microsecond, or 0; a share */
    bool is_bad;
    uint64_t changes, free_at;   /* when the state by time changes next; when the last packet has left the queue */
    uint64_t *leaves;            /* when each packet of the queue has left it, a ring */
    int first, count, places;
    uint64_t losses, drops;
};
void make_way(struct way *way, double delay, double lost);
uint64_t carry(struct way *way, size_t length); /* when the packet arrives, or 0: it is lost or dropped */

struct side;
struct packet {
    uint64_t at, order;
    struct side *to;
    size_t length;
    uint8_t *bytes;
};
void launch(struct packet packet);
bool is_next(uint64_t *at);
struct packet land(void);

/* ---- side.c: an endpoint of a flow, and what is counted of it */
struct flow;
struct kind {
    const char *name;
    void (*begin)(struct side *);                                            /* a sender calls, a receiver listens */
    void (*hear)(struct side *, const uint8_t *packet, size_t length);
    void (*read)(struct side *);                                             /* its user takes what has arrived: arrived() for each message */
    void (*poll)(struct side *);                                             /* transmit() for each packet that it has */
    bool (*send)(struct side *, const uint8_t *message, size_t length);      /* false: it has no space */
    void (*tick)(struct side *, uint64_t ms);                                /* each millisecond */
    void (*report)(struct side *);                                           /* more of the line of JSON */
};
extern const struct kind ours, theirs, lines;

struct side {
    struct flow *flow;
    const struct kind *kind;
    bool sends, is_open, has_ended;
    struct way *out;
    void *state;                      /* the kind's own */
    struct packet *waiting;           /* arrived, if it is polled at times */
    int waits, waiting_places;
    uint64_t packets, repeats, sacks; /* sent: all, with data that was sent before (chunks), SACKs */
    uint32_t highest;
    bool has_highest;
    uint64_t got, octets, last_us, unordered, octets_before;
    uint32_t next_number;
};
struct flow {
    int number;
    struct side side[2]; /* the sender, the receiver */
    struct way there, back;
    uint64_t offered, messages, opened_us;
    bool has_begun;
    double starts; /* milliseconds */
};
uint16_t own_port(const struct side *side);
uint16_t peer_port(const struct side *side);
void transmit(struct side *side, const uint8_t *packet, size_t length);
void arrived(struct side *side, const uint8_t *message, size_t length);
void offer(struct side *side);
void settle(struct side *side); /* after each call: its user reads, its packets go, its user sends */
void need(bool holds, const char *what);
void tick_theirs(void); /* usrsctp's timers, each 10 ms */
void begin_theirs(void);
#endif
