/* Our end: the library's. */
#include "exchange.h"
#include <string.h>

enum { SLOW = 50 }; /* milliseconds from one taken message to the next */

static struct sctp_endpoint end = SCTP_ENDPOINT_INIT;
static uint64_t ticket[MESSAGES];
static bool withdrawn[MESSAGES], begun[MESSAGES + 1]; /* by number, and by ticket */
static uint64_t next_take; /* when the user of a narrow buffer takes the next message */

static void must(uint32_t result, const char *what) { need(result == SCTP_EP_OK, what, result); }

/* Chance that repeats itself, so that a run can be repeated: no source for real draws and keys. */
static struct sctp_endpoint_draw draw(void) {
    struct sctp_endpoint_draw d = { 1 + chance(UINT32_MAX), chance(UINT32_MAX), 0 };
    return d;
}

static struct sctp_endpoint_status status(void) {
    struct sctp_endpoint_status s;
    memset(&s, 0, sizeof s);
    must(sctp_endpoint_status(&end, &s), "status");
    return s;
}

void we_open(void) {
    struct sctp_endpoint_config config = SCTP_ENDPOINT_CONFIG(PORT, PORT + 1);
    struct sctp_endpoint_key key = { { 0 }, { 0 } };
    struct sctp_endpoint_draw d = draw();
    for (size_t i = 0; i < sizeof key.bytes; i++) key.bytes[i] = (uint8_t)chance(256);
    config.outbound = config.inbound = STREAMS, config.buffer = wanted.narrow ? 65536 : 1 << 22, config.fragment = FRAGMENT, config.delay = chance(2);
    config.partial = wanted.asked[OURS] & PARTIAL, config.interleave = wanted.asked[OURS] & INTERLEAVED;
    if (wanted.caller == THEIRS) {
        must(sctp_endpoint_listener(&end, &config, &key), "listener");
    } else {
        must(sctp_endpoint_caller(&end, &config), "caller");
        must(sctp_endpoint_connect(&end, now, &d), "connect");
    }
}

/* A message that was sent some while ago is given up now, if it may be: its time isn't over yet. */
static void give_up(uint32_t number) {
    uint32_t fate = 0;
    if (number >= MESSAGES || !message(OURS, number).mortal) return;
    must(sctp_endpoint_abandon(&end, ticket[number], &fate), "abandon");
    need(fate == SCTP_EP_WITHDRAWN || fate == SCTP_EP_ABANDONED || fate == SCTP_EP_ACKNOWLEDGED, "abandon's fate", fate);
    withdrawn[number] = fate == SCTP_EP_WITHDRAWN;
}

bool we_send(uint32_t number) {
    static uint8_t bytes[LONGEST];
    struct message m = message(OURS, number);
    fill(OURS, number, bytes, m.length);
    uint64_t until = m.mortal ? now + WORTH : SCTP_EP_NEVER;
    uint32_t result = sctp_endpoint_send(&end, m.stream, m.ordered, number, bytes, m.length, until, &ticket[number]);
    need(result == SCTP_EP_OK || result == SCTP_EP_NOT_OPEN || result == SCTP_EP_QUEUE_FULL, "send", result);
    if (number % 2) give_up(number - 11);
    return result == SCTP_EP_OK;
}

void we_hear(const struct packet *packet) {
    uint8_t room[SCTP_EP_LONGEST_PACKET];
    struct sctp_endpoint_verdict verdict = { 0 };
    struct sctp_endpoint_draw d = draw();
    must(sctp_endpoint_handle_packet(&end, now, packet->bytes, packet->length, &d, room, sizeof room, &verdict), "handle_packet");
    need(verdict.reason != SCTP_EP_FAULT && verdict.reason != SCTP_EP_PORTS, "a packet of usrsctp's is unreadable", verdict.reason);
    if (verdict.verdict == SCTP_EP_ANSWER) carry(THEIRS, room, verdict.length);
}

/* A packet carries the first fragment of the message with this ticket. */
static void begin(uint64_t its_ticket) {
    need(its_ticket <= MESSAGES && !begun[its_ticket], "a message begins again, or is none", (uint32_t)its_ticket);
    begun[its_ticket] = true;
}

void we_transmit(void) {
    uint8_t room[SCTP_EP_LONGEST_PACKET];
    uint64_t tickets[SCTP_EP_MOST_TICKETS];
    struct sctp_endpoint_sent sent = { 0 };
    for (;;) {
        must(sctp_endpoint_poll_transmit(&end, now, room, sizeof room, tickets, SCTP_EP_MOST_TICKETS, &sent), "poll_transmit");
        if (sent.length == 0) return;
        for (size_t i = 0; i < sent.tickets; i++) begin(tickets[i]);
        carry(THEIRS, room, sent.length);
    }
}

void we_take(void) {
    static uint8_t room[LONGEST];
    struct sctp_endpoint_message told;
    memset(&told, 0, sizeof told);
    uint16_t stream = 0;
    while ((!wanted.narrow || now >= next_take) && sctp_endpoint_readable(&end, 0, &stream) == SCTP_EP_OK) {
        next_take = now + SLOW;
        must(sctp_endpoint_take(&end, stream, &told, room, sizeof room), "take");
        part(THEIRS, told.payload_id, told.stream, told.ordered, room, told.length, true);
    }
}

uint64_t our_moment(void) { return status().next_moment; }

void we_pass(void) { must(sctp_endpoint_on_moment(&end, now), "on_moment"); }

void we_end(void) {
    static const uint8_t reason[] = "enough";
    uint8_t room[SCTP_EP_LONGEST_PACKET];
    size_t length = 0;
    if (wanted.ending == SHUT_BY_OURS || wanted.ending == SHUT_BY_BOTH) must(sctp_endpoint_shutdown(&end), "shutdown");
    if (wanted.ending != ABORTED_BY_OURS) return;
    must(sctp_endpoint_abort(&end, reason, sizeof reason, room, sizeof room, &length), "abort");
    carry(THEIRS, room, length);
}

/* A message that didn't come may have gone out or not: what it may not be is acknowledged. */
bool we_gave_up(uint32_t number) {
    bool is = false;
    must(sctp_endpoint_acknowledged(&end, ticket[number], &is), "acknowledged");
    return !is;
}

bool we_ended(void) { return status().ended != SCTP_EP_NOT_ENDED; }

void we_judge(void) {
    static const uint32_t wanted_end[] = { SCTP_EP_COMPLETED, SCTP_EP_COMPLETED, SCTP_EP_COMPLETED, SCTP_EP_ABORTED_HERE, SCTP_EP_ABORTED };
    struct sctp_endpoint_status s = status();
    need(s.interleaved == !!(wanted.agreed & INTERLEAVED) && s.partial == !!(wanted.agreed & PARTIAL), "ours agreed otherwise", wanted.agreed);
    need(s.outbound == STREAMS && s.inbound == STREAMS, "our streams", s.outbound);
    need(s.ended == wanted_end[wanted.ending], "ours ended otherwise", s.ended);
    for (uint32_t number = 0; number < MESSAGES; number++) {
        need(begun[ticket[number]] || !is_whole(OURS, number), "a message came that didn't begin", number);
        need(!begun[ticket[number]] || !withdrawn[number], "a message began that was withdrawn", number);
    }
    sctp_endpoint_free(&end);
}
