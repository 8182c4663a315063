/* A path with a bottleneck between two tun devices: relay A B RATE QUEUE DELAY SECONDS [FROM TO]
 * RATE in bits a second, QUEUE in packets, DELAY in milliseconds. From A to B packets wait in a queue, which drops those that it has no space for,
 * are sent at the rate, and are delayed; from B to A they are delayed alone. In the seconds FROM to TO, counted from the first packet, all are lost.
 * It ends SECONDS after the first packet. Each second it writes a line: the second, how many packets it forwarded, how much later than it should
 * have, in the mean and at most, in milliseconds, and how many packets the queue dropped. */
#define _GNU_SOURCE
#include <fcntl.h>
#include <linux/if.h>
#include <linux/if_tun.h>
#include <poll.h>
#include <stdint.h>
#include <stdio.h>
#include <stdlib.h>
#include <string.h>
#include <sys/ioctl.h>
#include <time.h>
#include <unistd.h>

enum { RING = 1 << 16, LONGEST = 4096, AT_ONCE = 64, VERSION_4 = 4 };

struct packet {
    double leaves, due; /* when it has left the queue, and when it arrives */
    size_t length;
    uint8_t *bytes;
};

static struct { struct packet ring[RING]; unsigned first, next; } ways[2];
static int devices[2];
static double rate, delay, seconds, dead_from = 1e18, dead_to = 1e18, began, is_free;
static unsigned limit;
static struct { long forwarded, dropped; double late, most; } counted;

static double now(void) {
    struct timespec time;
    clock_gettime(CLOCK_MONOTONIC, &time);
    return (double)time.tv_sec + (double)time.tv_nsec * 1e-9;
}

static int device(const char *name) {
    struct ifreq request = { 0 };
    int file = open("/dev/net/tun", O_RDWR | O_NONBLOCK | O_CLOEXEC);
    snprintf(request.ifr_name, sizeof request.ifr_name, "%s", name);
    request.ifr_flags = IFF_TUN | IFF_NO_PI;
    if (file < 0 || ioctl(file, TUNSETIFF, &request)) {
        perror(name);
        exit(1);
    }
    return file;
}

/* How many packets wait while another one is sent. */
static unsigned queued(double time) {
    unsigned at = ways[0].next;
    while (at != ways[0].first && ways[0].ring[(at - 1) % RING].leaves > time) at--;
    unsigned waiting = ways[0].next - at;
    return waiting ? waiting - 1 : 0;
}

static void accept_packet(int way, const uint8_t *bytes, size_t length, double time) {
    struct packet *packet = &ways[way].ring[ways[way].next % RING];
    if (began == 0) began = time;
    if (time - began >= dead_from && time - began < dead_to) return;
    packet->leaves = time;
    if (way == 0) {
        if (queued(time) >= limit) {
            counted.dropped++;
            return;
        }
        is_free = (is_free > time ? is_free : time) + (double)length / rate;
        packet->leaves = is_free;
    }
    packet->due = packet->leaves + delay;
    packet->length = length, packet->bytes = malloc(length);
    if (!packet->bytes) exit(1);
    memcpy(packet->bytes, bytes, length);
    ways[way].next++;
}

static void read_packets(int way) {
    static uint8_t bytes[LONGEST];
    for (int n = 0; n < AT_ONCE && ways[way].next - ways[way].first < RING; n++) {
        ssize_t length = read(devices[way], bytes, sizeof bytes);
        if (length <= 0) return;
        if (bytes[0] >> 4 == VERSION_4) accept_packet(way, bytes, (size_t)length, now());
    }
}

static void forward(int way) {
    while (ways[way].first != ways[way].next) {
        struct packet *packet = &ways[way].ring[ways[way].first % RING];
        double late = now() - packet->due;
        if (late < 0) return;
        counted.forwarded++, counted.late += late;
        if (late > counted.most) counted.most = late;
        if (write(devices[!way], packet->bytes, packet->length) < 0) perror("write");
        free(packet->bytes);
        ways[way].first++;
    }
}

static void rest(void) {
    double until = now() + 0.2;
    for (int way = 0; way < 2; way++) {
        const struct packet *packet = &ways[way].ring[ways[way].first % RING];
        if (ways[way].first != ways[way].next && packet->due < until) until = packet->due;
    }
    double wait = until - now();
    struct timespec time = { 0, wait > 0 ? (long)(wait * 1e9) : 0 };
    struct pollfd ready[2] = { { devices[0], POLLIN, 0 }, { devices[1], POLLIN, 0 } };
    ppoll(ready, 2, &time, NULL);
}

static void report(int second) {
    double mean = counted.forwarded ? counted.late / (double)counted.forwarded : 0;
    printf("%d %ld %.3f %.3f %ld\n", second, counted.forwarded, mean * 1000, counted.most * 1000, counted.dropped);
    fflush(stdout);
    memset(&counted, 0, sizeof counted);
}

int main(int count, char **words) {
    if (count != 7 && count != 9) return 2;
    for (int n = 0; n < 2; n++) devices[n] = device(words[1 + n]);
    rate = atof(words[3]) / 8, limit = (unsigned)atoi(words[4]), delay = atof(words[5]) / 1000, seconds = atof(words[6]);
    if (count == 9) dead_from = atof(words[7]), dead_to = atof(words[8]);
    puts("ready");
    fflush(stdout);
    for (int second = 1; began == 0 || now() - began < seconds;) {
        rest();
        for (int way = 0; way < 2; way++) read_packets(way);
        for (int way = 0; way < 2; way++) forward(way);
        if (began != 0 && now() - began >= second) report(second++);
    }
    return 0;
}
