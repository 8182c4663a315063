/* Two ends of data channels in one program: one opens a channel, both send text on it, and the other closes it.
 *
 *     channels
 *
 * A program with a browser at the other end has one of them, and passes packets to and from its DTLS stack where `deliver` has them here. */
#include "sctp_channels.h"
#include <stdio.h>
#include <stdlib.h>

static struct sctp_channels client = SCTP_CHANNELS_INIT, server = SCTP_CHANNELS_INIT;

/* No source for real draws: these are the same in each run. */
static struct sctp_endpoint_draw draw(void) {
    static uint32_t last = 7;
    struct sctp_endpoint_draw d = { ++last, 1000, 0 };
    return d;
}

static void must(uint32_t result, const char *what) {
    char text[SCTP_EP_LONGEST_NAME] = { 0 };
    if (result == SCTP_EP_OK) return;
    sctp_endpoint_name(result, text, sizeof text);
    fprintf(stderr, "%s: %s\n", what, text);
    exit(1);
}

/* Tells what happened at one end, and answers a message once. */
static void hear(struct sctp_channels *end, const char *name) {
    static uint8_t buffer[4096];
    struct sctp_channel_event event = { 0 };
    uint64_t ticket = 0;
    uint32_t result;
    while ((result = sctp_channels_next_event(end, &event, buffer, sizeof buffer)) == SCTP_EP_OK) {
        printf("%s, channel %u: ", name, event.stream);
        switch (event.kind) {
        case SCTP_CH_INCOMING: printf("opened by the other end, \"%.*s\"\n", (int)event.label_length, (char *)buffer); break;
        case SCTP_CH_OPENED: printf("open\n"); break;
        case SCTP_CH_MESSAGE: printf("%s \"%.*s\"\n", event.text ? "text" : "binary", (int)event.length, (char *)buffer); break;
        case SCTP_CH_CLOSED: printf("closed\n"); break;
        case SCTP_CH_BUFFERED_AMOUNT_LOW: printf("little is queued\n"); break;
        default: printf("refused or ignored: %u\n", event.reason);
        }
        if (event.kind == SCTP_CH_MESSAGE && end == &server) {
            must(sctp_channels_send(end, 0, event.stream, true, (const uint8_t *)"and to you", 10, &ticket), "send");
            must(sctp_channels_close(end, event.stream), "close");
        }
    }
    if (result != SCTP_EP_NOTHING) must(result, "next_event"); /* NEEDS_ROOM: a longer buffer would get the same event */
}

/* Carries all packets that one end has to the other, and answers back. */
static bool deliver(struct sctp_channels *from, struct sctp_channels *to) {
    bool any = false;
    for (;;) {
        static uint8_t packet[SCTP_EP_LONGEST_PACKET], answer[SCTP_EP_LONGEST_PACKET];
        static uint64_t tickets[SCTP_EP_MOST_TICKETS];
        struct sctp_endpoint_sent sent = { 0 };
        struct sctp_endpoint_verdict verdict = { 0 };
        struct sctp_endpoint_draw d = draw();
        must(sctp_channels_poll_transmit(from, 0, packet, sizeof packet, tickets, SCTP_EP_MOST_TICKETS, &sent), "poll_transmit");
        if (sent.length == 0) return any;
        any = true;
        must(sctp_channels_handle_packet(to, 0, packet, sent.length, &d, answer, sizeof answer, &verdict), "handle_packet");
        size_t length = verdict.length;
        if (verdict.verdict == SCTP_EP_ANSWER)
            must(sctp_channels_handle_packet(from, 0, answer, length, &d, packet, sizeof packet, &verdict), "handle_packet");
    }
}

static void run(void) {
    bool to = true, back = true;
    while (to || back) {
        to = deliver(&client, &server);
        hear(&server, "server");
        back = deliver(&server, &client);
        hear(&client, "client");
    }
}

int main(void) {
    struct sctp_endpoint caller = SCTP_ENDPOINT_INIT, listener = SCTP_ENDPOINT_INIT;
    struct sctp_endpoint_config config = SCTP_CHANNELS_CONFIG(5000, 5001), other = SCTP_CHANNELS_CONFIG(5001, 5000);
    struct sctp_endpoint_key key = { { 7 }, { 0 } }; /* in a real program: random, and secret */
    struct sctp_endpoint_draw d = draw();
    struct sctp_channel_parameters parameters = SCTP_CHANNEL_PARAMETERS_INIT;
    uint16_t stream = 0;
    uint64_t ticket = 0;

    must(sctp_endpoint_caller(&caller, &config), "caller");
    must(sctp_endpoint_listener(&listener, &other, &key), "listener");
    must(sctp_channels_over(&client, &caller, true), "over");
    must(sctp_channels_over(&server, &listener, false), "over");

    must(sctp_channels_connect(&client, 0, &d), "connect");
    run();
    must(sctp_channels_open(&client, &parameters, (const uint8_t *)"chat", 4, NULL, 0, SCTP_CH_ANY_STREAM, &stream), "open");
    must(sctp_channels_send(&client, 0, stream, true, (const uint8_t *)"good morning", 12, &ticket), "send");
    run();

    sctp_channels_free(&client), sctp_channels_free(&server);
    return 0;
}
