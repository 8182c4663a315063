/* One association of usrsctp over UDP, as much as goes: usrsctp receive PORT SECONDS, usrsctp send PORT ADDRESS PORT SECONDS. Each second the receiver
 * writes a line: the second, and the bytes of the messages that it was given in it. At the end the sender writes the chunks that it sent again. */
#include <arpa/inet.h>
#include <stdio.h>
#include <stdlib.h>
#include <string.h>
#include <time.h>
#include <unistd.h>
#include <usrsctp.h>

enum { MESSAGE = 1428, BUFFER = 1 << 20, PORT = 5000, NO_ABORT_OUT_OF_THE_BLUE = 2 };

static volatile long received;

static double now(void) {
    struct timespec time;
    clock_gettime(CLOCK_MONOTONIC, &time);
    return (double)time.tv_sec + (double)time.tv_nsec * 1e-9;
}

static int hear(struct socket *socket, union sctp_sockstore from, void *data, size_t length, struct sctp_rcvinfo info, int flags, void *user) {
    (void)socket, (void)from, (void)info, (void)user;
    if (data && !(flags & MSG_NOTIFICATION)) received += (long)length;
    free(data);
    return 1;
}

static struct socket *make(int own_port, int peer_port, int sends) {
    int on = 1, size = BUFFER;
    struct sctp_udpencaps encapsulation;
    struct sockaddr_in own = { .sin_family = AF_INET, .sin_port = htons(PORT) };
    usrsctp_init((uint16_t)own_port, NULL, NULL);
    usrsctp_sysctl_set_sctp_blackhole(NO_ABORT_OUT_OF_THE_BLUE);
    usrsctp_sysctl_set_sctp_ecn_enable(0);
    struct socket *made = usrsctp_socket(AF_INET, SOCK_STREAM, IPPROTO_SCTP, sends ? NULL : hear, NULL, 0, NULL);
    memset(&encapsulation, 0, sizeof encapsulation);
    encapsulation.sue_address.ss_family = AF_INET, encapsulation.sue_port = htons((uint16_t)peer_port);
    usrsctp_setsockopt(made, IPPROTO_SCTP, SCTP_REMOTE_UDP_ENCAPS_PORT, &encapsulation, sizeof encapsulation);
    usrsctp_setsockopt(made, IPPROTO_SCTP, SCTP_NODELAY, &on, sizeof on);
    usrsctp_setsockopt(made, SOL_SOCKET, SO_SNDBUF, &size, sizeof size);
    usrsctp_setsockopt(made, SOL_SOCKET, SO_RCVBUF, &size, sizeof size);
    if (usrsctp_bind(made, (struct sockaddr *)&own, sizeof own)) perror("bind");
    return made;
}

static void receive(struct socket *listener, double seconds) {
    usrsctp_listen(listener, 1);
    if (!usrsctp_accept(listener, NULL, NULL)) return;
    double began = now();
    long before = 0;
    for (int second = 1; second <= seconds; second++) {
        double wait = began + second - now();
        if (wait > 0) usleep((useconds_t)(wait * 1e6));
        long all = received;
        printf("%d %ld\n", second, all - before);
        fflush(stdout);
        before = all;
    }
}

static int transmit(struct socket *made, const char *address, double seconds) {
    static char message[MESSAGE];
    struct sctp_sndinfo info = { 0 };
    struct sctpstat counts;
    struct sockaddr_in to = { .sin_family = AF_INET, .sin_port = htons(PORT) };
    inet_pton(AF_INET, address, &to.sin_addr);
    if (usrsctp_connect(made, (struct sockaddr *)&to, sizeof to)) {
        perror("connect");
        return 1;
    }
    for (double began = now(); now() - began < seconds;)
        if (usrsctp_sendv(made, message, sizeof message, NULL, 0, &info, sizeof info, SCTP_SENDV_SNDINFO, 0) < 0) break;
    usrsctp_get_stat(&counts);
    printf("retransmitted %u\n", counts.sctps_sendretransdata);
    return 0;
}

int main(int count, char **words) {
    int result = 0;
    if (count == 4 && !strcmp(words[1], "receive")) receive(make(atoi(words[2]), atoi(words[2]), 0), atof(words[3]));
    else if (count == 6) result = transmit(make(atoi(words[2]), atoi(words[4]), 1), words[3], atof(words[5]));
    else result = 2;
    fflush(stdout);
    _exit(result);
}
