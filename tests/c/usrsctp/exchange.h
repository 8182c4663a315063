/* What the files of this program share: main.c says what it tries. */
#ifndef EXCHANGE_H
#define EXCHANGE_H

#include "sctp_endpoint.h"

enum { OURS, THEIRS, BOTH }; /* an end, that of this library or usrsctp's; and who calls */
enum { SHUT_BY_OURS, SHUT_BY_THEIRS, SHUT_BY_BOTH, ABORTED_BY_OURS, ABORTED_BY_THEIRS };
enum { PARTIAL = 1, INTERLEAVED = 2 }; /* of a mode: RFC 3758, RFC 8260 */
enum { PORT = 5000, STREAMS = 8, MESSAGES = 120, LONGEST = 200000, FRAGMENT = 1200, WORTH = 300 /* ms, of a message that has an end */ };

/* The words of the command, and what is agreed on where each end asks for its mode. */
struct wanted {
    unsigned caller, asked[2], agreed, lost, mixed, narrow, ending;
    bool verbose;
};
extern struct wanted wanted;
extern const char *const ends[];
extern uint64_t now;

/* Ends the program with these words where it doesn't hold. */
void need(bool holds, const char *what, uint32_t number);
void need_of(unsigned end, bool holds, const char *what, uint32_t number);
uint32_t chance(uint32_t below);

/* ---- messages.c: what each end sends, and what came of it */

struct message {
    uint16_t stream;
    bool ordered, mortal; /* mortal: it may be given up */
    size_t length;
};
struct message message(unsigned end, uint32_t number);
void fill(unsigned end, uint32_t number, uint8_t *bytes, size_t length);
uint32_t sent(unsigned end);
uint32_t came(unsigned end);
bool is_whole(unsigned end, uint32_t number);
/* The next one is sent, unless it isn't accepted now. */
void send_next(unsigned end, bool (*accepted)(uint32_t number));
/* Its next bytes came, and the last ones where it is whole. */
void part(unsigned end, uint32_t number, uint16_t stream, bool ordered, const uint8_t *bytes, size_t length, bool whole);
/* Of one that came in part on this stream no more will come: it is one that its sender may give up. */
void broken_off(unsigned end, uint32_t stream);
/* All came, but those that their sender gave up. */
void all_came(unsigned end, bool (*given_up)(uint32_t number));

/* ---- link.c: the packets on their way */

struct packet {
    struct packet *next;
    uint64_t sent, at;
    unsigned to;
    size_t length;
    uint8_t bytes[]; /* from the common header on */
};
void carry(unsigned to, const uint8_t *bytes, size_t length);
void print(const char *what, unsigned to, const uint8_t *bytes, size_t length);
uint64_t first_arrival(void);
/* The first that is due, to be freed; NULL where there is none. */
struct packet *due(void);
unsigned carried(void);

/* ---- theirs.c and ours.c: the ends */

void they_open(uint64_t seed);
bool they_send(uint32_t number);
void they_hear(const struct packet *packet);
void they_pass(uint32_t milliseconds);
void they_end(void);
bool they_gave_up(uint32_t number);
bool they_ended(void);
void they_judge(void);

void we_open(void);
bool we_send(uint32_t number);
void we_hear(const struct packet *packet);
void we_transmit(void);
void we_take(void);
uint64_t our_moment(void);
void we_pass(void);
void we_end(void);
bool we_gave_up(uint32_t number);
bool we_ended(void);
void we_judge(void);

#endif
