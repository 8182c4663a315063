/* The clock and what is drawn: virtual time, and numbers that are the same in each run of a seed. gettimeofday and syscall are here, so that usrsctp
 * finds them in place of the system's. */
#include "links.h"
#include <stdarg.h>
#include <sys/time.h>

enum { FIRST_SECOND = 1000000000 }; /* the time of day of time 0 */

uint64_t now_us;
static uint64_t ends_state, links_state;

static uint64_t next_of(uint64_t *state) { /* splitmix64 */
    uint64_t z = (*state += 0x9e3779b97f4a7c15u);
    z = (z ^ (z >> 30)) * 0xbf58476d1ce4e5b9u;
    z = (z ^ (z >> 27)) * 0x94d049bb133111ebu;
    return z ^ (z >> 31);
}

void begin_chance(uint64_t seed) {
    ends_state = seed * 0xd1342543de82ef95u + 12345;
    links_state = seed * 0xd1342543de82ef95u + 777;
}

uint64_t now_ms(void) { return now_us / 1000; }
uint64_t chance(void) { return next_of(&ends_state); }
double part(void) { return (double)(next_of(&links_state) >> 11) / 9007199254740992.0; }

int gettimeofday(struct timeval *time, void *zone) {
    (void)zone;
    time->tv_sec = (time_t)(FIRST_SECOND + now_ms() / 1000);
    time->tv_usec = (suseconds_t)(now_ms() % 1000 * 1000);
    return 0;
}

/* usrsctp's one system call by number: getrandom(bytes, length, flags). */
long syscall(long number, ...) {
    va_list words;
    va_start(words, number);
    unsigned char *bytes = va_arg(words, unsigned char *);
    size_t length = va_arg(words, size_t);
    va_end(words);
    for (size_t at = 0; at < length; at++) bytes[at] = (unsigned char)chance();
    return (long)length;
}
