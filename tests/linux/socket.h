/* The socket of a trial: socket.c makes and closes it, and reads the lines; messages.c sends, receives and reports. */
#include <netinet/in.h>
#include <stdio.h>
#include <sys/socket.h>

#define SAY(...) (printf(__VA_ARGS__), putchar('\n'), fflush(stdout))

extern struct own {
    int association, listener; /* -1 if there is none */
    int is_connecting, is_reading, is_quiet, has_peer;
    struct sockaddr_in peer; /* of a socket of many associations, before it has one */
} own;

void failed(const char *what);
void set(int at, int name, const void *value, socklen_t size, const char *what);

/* An association begins on this socket: what is to be reported of it, and nothing received. */
void begin_messages(int at);

/* Reads once; whether there may be more. */
int receive(void);

/* The messages of a line `say`; whether some are to be sent; as many as there is space for are sent; they are dropped. The next one's number. */
void add_job(const char *line);
int has_jobs(void);
void work(void);
void drop_jobs(void);
void set_number(unsigned number);

void say_counts(void);
