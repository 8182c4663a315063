/* One connection of the kernel's TCP, as much as goes: tcp receive PORT SECONDS, tcp send ADDRESS PORT SECONDS CONTROL (reno, cubic, bbr). Each second the
 * receiver writes a line: the second, and the bytes that it read in it. At the end the sender writes the packets that were retransmitted. */
#include <arpa/inet.h>
#include <netinet/in.h>
#include <netinet/tcp.h>
#include <stdio.h>
#include <stdlib.h>
#include <string.h>
#include <sys/socket.h>
#include <time.h>

static char bytes[65536];
static const struct timeval longest_wait = { 0, 100000 };

static double now(void) {
    struct timespec time;
    clock_gettime(CLOCK_MONOTONIC, &time);
    return (double)time.tv_sec + (double)time.tv_nsec * 1e-9;
}

static int fail(const char *what) {
    perror(what);
    return 1;
}

static int receive(int socket, struct sockaddr_in own, double seconds) {
    int one = 1;
    setsockopt(socket, SOL_SOCKET, SO_REUSEADDR, &one, sizeof one);
    if (bind(socket, (struct sockaddr *)&own, sizeof own) || listen(socket, 1)) return fail("bind");
    int connection = accept(socket, NULL, NULL);
    setsockopt(connection, SOL_SOCKET, SO_RCVTIMEO, &longest_wait, sizeof longest_wait);
    double began = now();
    long read = 0;
    for (int second = 1; now() - began < seconds;) {
        ssize_t length = recv(connection, bytes, sizeof bytes, 0);
        if (length == 0) break;
        read += length > 0 ? length : 0;
        if (now() - began < second) continue;
        printf("%d %ld\n", second++, read);
        fflush(stdout);
        read = 0;
    }
    return 0;
}

static int transmit(int socket, struct sockaddr_in to, double seconds, const char *control) {
    if (setsockopt(socket, IPPROTO_TCP, TCP_CONGESTION, control, (socklen_t)strlen(control))) return fail(control);
    if (connect(socket, (struct sockaddr *)&to, sizeof to)) return fail("connect");
    setsockopt(socket, SOL_SOCKET, SO_SNDTIMEO, &longest_wait, sizeof longest_wait);
    for (double began = now(); now() - began < seconds;) send(socket, bytes, sizeof bytes, MSG_NOSIGNAL);
    struct tcp_info info;
    socklen_t size = sizeof info;
    getsockopt(socket, IPPROTO_TCP, TCP_INFO, &info, &size);
    printf("retransmitted %u\n", info.tcpi_total_retrans);
    return 0;
}

int main(int count, char **words) {
    int connection = socket(AF_INET, SOCK_STREAM, 0);
    struct sockaddr_in address = { .sin_family = AF_INET };
    if (count == 4 && !strcmp(words[1], "receive")) {
        address.sin_port = htons((uint16_t)atoi(words[2]));
        return receive(connection, address, atof(words[3]));
    }
    if (count != 6) return 2;
    address.sin_port = htons((uint16_t)atoi(words[3]));
    inet_pton(AF_INET, words[2], &address.sin_addr);
    return transmit(connection, address, atof(words[4]), words[5]);
}
