/* One endpoint of an SCTP association: RFC 9260, with FORWARD-TSN (RFC 3758), I-DATA (RFC 8260) and stream reset (RFC 6525). The library opens
 * no socket, reads no clock and generates no random numbers: received packets, the current time and random values are arguments, packets to
 * send and received messages are results. Data channels over an endpoint are in sctp_channels.h. docs/C.md has a first program, the loop of a
 * program over UDP, and what to set.
 *
 * What a caller must observe, since no call can check it:
 *
 *  - A struct sctp_endpoint is zeroed before its first call (SCTP_ENDPOINT_INIT), is read and written by these calls alone,
 *    and isn't copied. It may be moved, if the old place is forgotten.
 *  - A pointer may be NULL only if the length that follows it is 0; every other pointer is valid. Each is aligned, and what it points to is
 *    the caller's for the whole call. Memory that a call writes (what a pointer to non-const points to) overlaps nothing else that it is given.
 *  - Memory that a call writes is initialised before the call, buffers too: zeros will do (`static`, or `= { 0 }`). A bool is 0 or 1.
 *  - One endpoint is used by one thread at a time, no matter which. Two endpoints share nothing.
 *  - No call is made from a signal handler, or in the child of a fork of a program with threads.
 *
 * Each call but those that say otherwise returns a number of enum sctp_endpoint_result. If it isn't SCTP_EP_OK, the endpoint is unchanged,
 * with one exception: sctp_endpoint_handle_packet says what SCTP_EP_NO_MEMORY leaves. If it is SCTP_EP_OK, the call has written its outputs,
 * of a buffer only the beginning, as many bytes as its length says. Otherwise outputs are unchanged, except that lengths and the verdict of a
 * packet may be set to zero, and except for what is said at SCTP_EP_NEEDS_ROOM.
 *
 * Times are milliseconds on any clock that doesn't go back, the same for all calls of an endpoint, and for all listeners that share a key. A time
 * before the latest one counts as the latest. A time that is wrong can't be taken back: UINT64_MAX, passed as the current time, stops all timers of
 * the endpoint for good.
 *
 * Memory is allocated by three functions, which are called on the thread that calls the library. libsctp_endpoint_malloc.a implements them by
 * malloc, realloc and free; a program that defines its own doesn't link that library (rattle_alloc below).
 *
 * Structs, calls and numbers are those of one ABI version, SCTP_EP_ABI. The shared library's soname ends with it (libsctp_endpoint.so.1 is
 * ABI 1). A new call, or a reserved number that gets a meaning, keeps both: a program runs with any later library of its ABI version. What
 * changes the meaning of anything here raises both, and the first number of SCTP_EP_VERSION that isn't 0.
 */
#ifndef SCTP_ENDPOINT_H
#define SCTP_ENDPOINT_H

#include <stdbool.h>
#include <stddef.h>
#include <stdint.h>

#if SIZE_MAX != UINT64_MAX
#error "sctp_endpoint.h: the library is for processors of 64 bits"
#endif

#ifdef __cplusplus
extern "C" {
#endif

#define SCTP_EP_VERSION "0.1.0"
#define SCTP_EP_ABI 1u

/* Returns the ABI version that the library was built with: compare it with SCTP_EP_ABI if it is loaded at run time. */
uint32_t sctp_endpoint_abi(void);

/* Writes the library's SCTP_EP_VERSION to `text`, with a 0 after it, and returns its length without that. If `text` is too small, nothing is
 * written: SCTP_EP_LONGEST_NAME bytes are always enough. */
size_t sctp_endpoint_version(char *text, size_t text_length);

#define SCTP_EP_LONGEST_PACKET 1500   /* bytes: no endpoint builds a longer packet */
#define SCTP_EP_MOST_TICKETS 74       /* no packet carries the first fragment of more messages */
#define SCTP_EP_LONGEST_MESSAGE 65536 /* bytes: send accepts no longer message. A peer's may be as long as the receive buffer */
#define SCTP_EP_NEVER UINT64_MAX      /* in place of a time: never */
#define SCTP_EP_LONGEST_NAME 96       /* bytes: no text is longer, with the 0 after it */

enum sctp_endpoint_result {
    SCTP_EP_OK = 0,
    SCTP_EP_NO_SUCH_STREAM = 1, /* the stream isn't below the number of streams agreed on */
    SCTP_EP_EMPTY = 2,          /* the message has no bytes */
    SCTP_EP_TOO_LONG = 3,       /* the message has more than 65,536 bytes; abort: the reason doesn't fit one packet; a channel's label and protocol
                                 * have more than 65,524 bytes together */
    SCTP_EP_QUEUE_FULL = 4,     /* 1,024 messages are queued: send again after the next SACK */
    SCTP_EP_SPENT = 5,          /* the 2^63 - 1 TSNs or the tickets of this association are used up */
    SCTP_EP_NO_MEMORY = 6,      /* memory allocation failed */
    SCTP_EP_NOT_OPEN = 7,       /* the association isn't established; shutdown: nor is it being closed; a channel's opening or closing: it wasn't
                                 * established yet */
    SCTP_EP_BAD_STATE = 8,      /* the call isn't allowed in this state */
    SCTP_EP_NOTHING = 9,        /* there is none: no message is ready; a packet doesn't have what is asked for */
    SCTP_EP_NEEDS_ROOM = 10,    /* the buffer is too small: the length says how many bytes it must have. Nothing is lost */
    SCTP_EP_MISUSE = 11,        /* the handle is empty; a call that makes an endpoint, or channels: it isn't empty */
    SCTP_EP_BAD_DRAW = 12,      /* a tag is 0 */
    SCTP_EP_BAD_RESERVED = 13,  /* a reserved number isn't 0, or a flag has no meaning */
    SCTP_EP_RESETTING = 14,     /* the stream is being reset, or the peer refused to reset it */
    /* of the calls of sctp_channels.h */
    SCTP_EP_NO_CHANNEL = 15,    /* there is no channel on the stream, or it is being closed */
    SCTP_EP_NO_STREAM = 16,     /* there is no such stream both ways; if none was asked for, none is free */
    SCTP_EP_WRONG_HALF = 17,    /* the stream is one of those on which the peer opens channels */
    SCTP_EP_USED = 18,          /* there is a channel on the stream, or one is still being closed */
    SCTP_EP_OUT_OF_RANGE = 19,  /* more than 65,535 retransmissions or milliseconds */
    /* the first thing wrong with a configuration, in this order */
    SCTP_EP_BAD_PORT = 21,
    SCTP_EP_BAD_PACKET_LIMIT = 22,
    SCTP_EP_BAD_FRAGMENT = 23,
    SCTP_EP_BAD_BUFFER = 24,
    SCTP_EP_BAD_STREAMS = 25,
    /* of a key */
    SCTP_EP_ZERO_KEY = 26       /* its bytes are all 0, as if nobody had set them */
};

/* Writes what a result means, in a few words, as sctp_endpoint_version does. */
size_t sctp_endpoint_name(uint32_t code, char *text, size_t text_length);

/* ---- an endpoint */

/* The caller's handle of an endpoint, anywhere in memory: 16 bytes, zero if it is empty. */
struct sctp_endpoint {
    size_t full; /* both fields are private */
    void *at;
};
#define SCTP_ENDPOINT_INIT { 0, NULL }

/* What a configuration also asks for, as a sum. */
enum sctp_endpoint_flag {
    SCTP_EP_FAST_RETRANSMIT = 1,   /* three miss indications mark a TSN for retransmission without its timer, and the RTO is computed from measured
                                    * round trips (RFC 9260, 7.2.4 and 6.3.1). Alone it limits nothing that is sent, and isn't for the Internet */
    SCTP_EP_CONGESTION_CONTROL = 2, /* a congestion window limits the bytes in flight (RFC 9260, 7.2). It brings fast retransmission */
    SCTP_EP_STREAM_RESET = 4       /* offer the reset of streams, either endpoint's (RFC 6525): sctp_endpoint_reset */
};

struct sctp_endpoint_config {
    uint16_t own_port, peer_port; /* of SCTP, not of UDP; not 0 */
    uint16_t packet_limit;        /* bytes of the longest packet that is sent, common header included: 576 to 1,500 */
    uint16_t fragment;            /* bytes of each fragment but a message's last: 4 to 1,400; 32 + fragment, padded to 4, fit a packet */
    uint32_t buffer;              /* bytes of the receive buffer: what was received and not taken, messages in part included: 65,536 to 16,777,216 */
    uint16_t outbound, inbound;   /* streams asked for to the peer, allowed from it: 1 to 1,024 */
    bool interleave;              /* offer I-DATA (RFC 8260): long messages don't hold up those of other streams */
    bool partial;                 /* offer partial reliability (RFC 3758): messages can be abandoned after they were sent */
    bool delay;                   /* delay SACKs: for a second packet, 200 ms at most (RFC 9260, 6.2) */
    bool standard_closing;        /* close by the timers of RFC 9260, 9.2: a peer that never stops sending can delay closing without limit */
    uint32_t flags;               /* enum sctp_endpoint_flag, a sum: 0 to 7; others are refused as BAD_RESERVED */
    uint32_t rto_min;             /* milliseconds, the least RTO that is computed from round trips (RFC 9260, 6.3.1); 0 for 1,000 */
    uint32_t reserved[2];         /* 0 */
};

/* Packets of 1,280 bytes and less below UDP and IPv6, 64 streams each way, a receive buffer of 4 MiB, both extensions. The buffer is a limit:
 * nothing is allocated for it in advance.
 *
 * How large it must be: the peer begins at most one message at a time on each stream, and a message is delivered only when it is complete. Under
 * I-DATA a message may be in part on every stream at once, so with less than
 *
 *     streams the peer sends on  x  its longest message
 *
 * parts of messages can fill the buffer with none complete, and then nothing more is ever received, though nothing was lost. With at least so
 * many bytes there is always space for what is missing of each message in part, as long as the user takes what is complete. Here: 64 x 65,536
 * = 4 MiB. Under DATA (no interleave) one message at a time is in part, so the longest message is enough,
 * or four times that for a browser (docs/PEERS.md). */
#define SCTP_ENDPOINT_CONFIG(own_port, peer_port) \
    { (uint16_t)(own_port), (uint16_t)(peer_port), 1232, 1200, 4194304, 64, 64, true, true, false, true, 0, 0, { 0, 0 } }

/* Two random values from a secure source, new ones for each call. Who can guess them can inject packets (RFC 9260, 5.3.1). */
struct sctp_endpoint_draw {
    uint32_t tag;         /* the verification tag of packets to this endpoint: not 0 */
    uint32_t tsn;         /* the first TSN that it sends */
    uint64_t reserved;    /* 0 */
};

/* The two random values, made of random numbers of 32 bits, of which the first may be 0:
 *     struct sctp_endpoint_draw draw = SCTP_ENDPOINT_DRAW(arc4random(), arc4random());
 * arc4random is in <stdlib.h> of glibc 2.36 and later, the BSDs and macOS; elsewhere take the numbers from getrandom or getentropy. */
#define SCTP_ENDPOINT_DRAW(random, other_random) { (uint32_t)(random) % UINT32_MAX + 1, (uint32_t)(other_random), 0 }

/* Secret random bytes, not all 0, that authenticate a listener's state cookies (RFC 9260, 5.1.3). Listeners may share them, on one clock, since a
 * cookie holds the time that it was made at: it opens an association for 60,000 milliseconds, the last one included. A cookie that was made for one
 * address opens one from any other, so a server has a key for each address (sctp_endpoint_key_derived). */
struct sctp_endpoint_key {
    uint8_t bytes[32];
    uint32_t reserved[4]; /* 0 */
};

/* Derives a key from a secret master key and bytes that say what it is for, as the address and port that a packet was received from: HMAC-SHA-256 of
 * the bytes under the master key (RFC 2104). Equal bytes give equal keys. BAD_RESERVED; ZERO_KEY: the master key's bytes are all 0. */
uint32_t sctp_endpoint_key_derived(const struct sctp_endpoint_key *master, const uint8_t *bytes, size_t length, struct sctp_endpoint_key *key);

/* Makes an endpoint that opens the association, by sctp_endpoint_connect.
 * The first of these that applies: MISUSE, BAD_RESERVED, what is wrong with the configuration, NO_MEMORY. */
uint32_t sctp_endpoint_caller(struct sctp_endpoint *handle, const struct sctp_endpoint_config *config);

/* Makes an endpoint that waits for a peer to open the association. MISUSE, BAD_RESERVED, ZERO_KEY, then as for a caller. */
uint32_t sctp_endpoint_listener(struct sctp_endpoint *handle, const struct sctp_endpoint_config *config, const struct sctp_endpoint_key *key);

/* Makes an endpoint that is established at once, without packets: its peer is opened with `own` and `peer` exchanged and the same
 * sizes, streams and extensions. BAD_DRAW, then as for a caller. */
uint32_t sctp_endpoint_opened(struct sctp_endpoint *handle, const struct sctp_endpoint_config *config, const struct sctp_endpoint_draw *own,
                              const struct sctp_endpoint_draw *peer);

/* Frees an endpoint with all that it holds, and empties the handle. It does nothing for an empty one, and, called by its name, for NULL. */
void sctp_endpoint_free(struct sctp_endpoint *handle);
static inline void sctp_ep_free(struct sctp_endpoint *handle) {
    if (handle != NULL) sctp_endpoint_free(handle);
}
#define sctp_endpoint_free(handle) sctp_ep_free(handle)

/* ---- packets and time */

/* Opens the association: the next packet is an INIT. BAD_DRAW, MISUSE, BAD_RESERVED, BAD_STATE unless it is a caller on which connect wasn't
 * called yet. */
uint32_t sctp_endpoint_connect(struct sctp_endpoint *handle, uint64_t now, const struct sctp_endpoint_draw *draw);

enum sctp_endpoint_verdict_kind {
    SCTP_EP_TAKEN = 0,   /* it was processed */
    SCTP_EP_ANSWER = 1,  /* the buffer has the answer: send it at once, to the address that the packet was received from */
    SCTP_EP_DROPPED = 2  /* it was ignored: nothing but the time has changed */
};
enum sctp_endpoint_reason {
    SCTP_EP_NO_REASON = 0,
    SCTP_EP_FAULT = 1,   /* its bytes aren't a valid packet, or its checksum is wrong */
    SCTP_EP_PORTS = 2,   /* its ports aren't those of the configuration */
    SCTP_EP_TAG = 3,     /* its verification tag is wrong */
    SCTP_EP_STATE = 4,   /* nothing in it applies in this state */
    SCTP_EP_COOKIE = 5   /* its state cookie isn't one made under this key, for these ports and this tag */
};
struct sctp_endpoint_verdict {
    size_t length;        /* of the answer; at NEEDS_ROOM the bytes that the buffer must have */
    uint32_t verdict;     /* enum sctp_endpoint_verdict_kind */
    uint32_t reason;      /* enum sctp_endpoint_reason: why it was dropped */
    uint64_t reserved;    /* 0 */
};

/* Processes a received packet: its bytes from the common header on. The draw is used if it is an INIT to a listener; pass a new one each time.
 * The buffer is for the answer: it has at least the endpoint's packet limit, else NEEDS_ROOM, with the limit as the length.
 * Once there is an association the peer's address is the one that a packet with the verdict TAKEN was received from: its tag was right. That of the
 * COOKIE ECHO that begins it may be forged, unless the listener's key is for this address alone. An ANSWER or a DROPPED packet says nothing about
 * its sender. BAD_DRAW; MISUSE; BAD_RESERVED; NO_MEMORY: the chunks before the one whose memory couldn't be allocated were processed, and the same
 * packet may be passed again. */
uint32_t sctp_endpoint_handle_packet(struct sctp_endpoint *handle, uint64_t now, const uint8_t *packet, size_t packet_length,
                                     const struct sctp_endpoint_draw *draw, uint8_t *buffer, size_t buffer_length,
                                     struct sctp_endpoint_verdict *verdict);

struct sctp_endpoint_sent {
    size_t length;        /* of the packet, 0 if there is none; at NEEDS_ROOM the bytes that the buffer must have */
    uint64_t tickets;     /* how many messages have their first fragment in it */
    uint64_t reserved;    /* 0 */
};

/* Returns the next packet to send, with the tickets of the messages whose first fragments it carries. It counts as sent: call this after
 * every other call until there is none. The buffer has at least the packet limit, else NEEDS_ROOM. As many tickets are written as their
 * buffer has space for: all if it has SCTP_EP_MOST_TICKETS. MISUSE, NO_MEMORY. */
uint32_t sctp_endpoint_poll_transmit(struct sctp_endpoint *handle, uint64_t now, uint8_t *buffer, size_t buffer_length, uint64_t *tickets,
                                     size_t tickets_length, struct sctp_endpoint_sent *sent);

/* The current time: timers that are due expire, a delayed SACK becomes due, and messages whose lifetime is over are abandoned. Call it no
 * later than next_moment of the status says, and at the lifetimes' own deadlines (sctp_endpoint_send). MISUSE. */
uint32_t sctp_endpoint_on_moment(struct sctp_endpoint *handle, uint64_t now);

/* ---- messages */

/* Queues a message: its bytes are copied. `until` is the time at which its lifetime is over and it is abandoned, or SCTP_EP_NEVER. Lifetimes
 * aren't part of next_moment: it is the next sctp_endpoint_on_moment that abandons a message, so a program that gives lifetimes also calls
 * that at the earliest `until`. The ticket is the message's number in the calls below: 1, 2, 3 and so on.
 * MISUSE; NO_MEMORY; NOT_OPEN, then NO_SUCH_STREAM, EMPTY, TOO_LONG, QUEUE_FULL, SPENT. */
uint32_t sctp_endpoint_send(struct sctp_endpoint *handle, uint16_t stream, bool ordered, uint32_t payload_id, const uint8_t *bytes, size_t length,
                            uint64_t until, uint64_t *ticket);

/* The same with a limit of retransmissions (RFC 7496, 3.1): the message is abandoned as soon as a fragment of it, which was retransmitted
 * max_retransmits times already, would be retransmitted once more. With 0 no fragment is retransmitted. A limit counts only if both endpoints
 * use partial reliability, as a lifetime does; the message is reliable without. */
uint32_t sctp_endpoint_send_with_max_retransmits(struct sctp_endpoint *handle, uint16_t stream, bool ordered, uint32_t payload_id,
                                                 const uint8_t *bytes, size_t length, uint64_t until, uint16_t max_retransmits,
                                                 uint64_t *ticket);

struct sctp_endpoint_message {
    size_t length;        /* of the whole message */
    uint64_t number;      /* counted from 0 on its stream, ordered and unordered ones apart; 0 if it isn't numbered */
    uint32_t payload_id;  /* the payload protocol identifier, in the processor's byte order */
    uint16_t stream;
    bool ordered;
    bool numbered;        /* false for an unordered message under DATA, which has no number */
    uint32_t reserved[4]; /* 0 */
};

/* Returns the first stream, from this one on, on which a message is ready. Called with the last stream plus 1, and with 0 after NOTHING, it
 * visits all streams in turn, at the cost of reading some bits. MISUSE, NOTHING. */
uint32_t sctp_endpoint_readable(struct sctp_endpoint *handle, uint16_t from, uint16_t *stream);

/* Describes the first message that is ready on a stream, and leaves it there. MISUSE, NOTHING. */
uint32_t sctp_endpoint_peek(struct sctp_endpoint *handle, uint16_t stream, struct sctp_endpoint_message *message);

/* Takes the first message that is ready on a stream: whole, its bytes at the beginning of the buffer. If the buffer is too small, NEEDS_ROOM:
 * the message stays, and `message` says its length. MISUSE, NOTHING. */
uint32_t sctp_endpoint_take(struct sctp_endpoint *handle, uint16_t stream, struct sctp_endpoint_message *message, uint8_t *buffer,
                            size_t buffer_length);

enum sctp_endpoint_fate {
    SCTP_EP_WITHDRAWN = 1,    /* nothing of it was sent, and nothing will be */
    SCTP_EP_ABANDONED = 2,    /* it was sent, at least in part, and won't be sent again */
    SCTP_EP_ACKNOWLEDGED = 3, /* the peer had acknowledged all of it */
    SCTP_EP_UNKNOWN = 4,      /* no message has this ticket */
    SCTP_EP_RELIABLE = 5      /* it was sent, and partial reliability wasn't agreed on: it stays */
};

/* Abandons a message: returns what has become of it. MISUSE. */
uint32_t sctp_endpoint_abandon(struct sctp_endpoint *handle, uint64_t ticket, uint32_t *fate);

/* Whether the peer has acknowledged all of a message that wasn't abandoned. MISUSE. */
uint32_t sctp_endpoint_acknowledged(struct sctp_endpoint *handle, uint64_t ticket, bool *is);

/* Whether a message was sent, at least in part, and then abandoned. MISUSE. */
uint32_t sctp_endpoint_abandoned(struct sctp_endpoint *handle, uint64_t ticket, bool *is);

/* ---- resets of streams (RFC 6525) */

/* Asks for the reset of an outgoing stream: from now on send returns RESETTING for it. Once all that was sent on it is acknowledged, the peer is
 * asked to reset it; once the peer has done so, the stream takes messages again, whose numbers on the wire begin anew at 0. If the peer refuses,
 * it takes none until this is called again. If the stream is being reset already, nothing changes. MISUSE, BAD_STATE unless the association
 * is established and both endpoints offered resets, NO_SUCH_STREAM, NO_MEMORY. */
uint32_t sctp_endpoint_reset(struct sctp_endpoint *handle, uint16_t stream);

/* Whether the reset of an outgoing stream was asked for and isn't done: false also if the peer refused it. MISUSE. */
uint32_t sctp_endpoint_resetting(struct sctp_endpoint *handle, uint16_t stream, bool *is);

/* Reports a reset by the peer: the lowest stream that it reset and that wasn't reported since, and, as `earlier`, how many of the messages that are
 * ready on it were sent before the reset: the first ones. The numbers of messages (struct sctp_endpoint_message) count on. MISUSE, NOTHING. */
uint32_t sctp_endpoint_take_reset(struct sctp_endpoint *handle, uint16_t *stream, uint64_t *earlier);

/* ---- memory */

/* Gives back memory that a burst of messages took: of sent ones where less than an eighth is used, of received ones all that isn't. It is for an
 * endpoint that is idle: of one that has such bursts again and again each would allocate anew. No result of another call depends on it. MISUSE. */
uint32_t sctp_endpoint_trim(struct sctp_endpoint *handle);

/* ---- closing */

/* Closes the association gracefully: no more messages are accepted, those that were are still delivered. MISUSE, NOT_OPEN. */
uint32_t sctp_endpoint_shutdown(struct sctp_endpoint *handle);

/* Ends the association at once: the packet in the buffer is the ABORT with this reason, to be sent to the peer. The buffer has at least the
 * packet limit, else NEEDS_ROOM. MISUSE, BAD_STATE if there is no peer to send it to, TOO_LONG, NO_MEMORY. */
uint32_t sctp_endpoint_abort(struct sctp_endpoint *handle, const uint8_t *reason, size_t reason_length, uint8_t *buffer, size_t buffer_length,
                             size_t *length);

/* ---- the status */

enum sctp_endpoint_state {
    SCTP_EP_CLOSED = 1, /* not connected yet, or the association has ended */
    SCTP_EP_LISTEN = 2,
    SCTP_EP_COOKIE_WAIT = 3,
    SCTP_EP_COOKIE_ECHOED = 4,
    SCTP_EP_ESTABLISHED = 5,
    SCTP_EP_SHUTDOWN_PENDING = 6,
    SCTP_EP_SHUTDOWN_SENT = 7,
    SCTP_EP_SHUTDOWN_RECEIVED = 8,
    SCTP_EP_SHUTDOWN_ACK_SENT = 9
};

/* How the association ended. Once it has:
 *  - Messages that were received can still be taken, and sctp_endpoint_acknowledged, abandoned and abandon still answer for each ticket.
 *  - sctp_endpoint_send returns NOT_OPEN, and so does shutdown; connect and abort return BAD_STATE. The endpoint stays closed for good.
 *  - No packet is left to poll, and next_moment is SCTP_EP_NEVER.
 *  - Received packets are still to be passed in for some seconds, and answers sent: if SHUTDOWN COMPLETE, which was the answer to the packet
 *    that ended the association, is lost, the peer repeats its SHUTDOWN ACK, and without an answer gives up after 363 seconds as TIMED_OUT. */
enum sctp_endpoint_ended {
    SCTP_EP_NOT_ENDED = 0,
    SCTP_EP_COMPLETED = 1,    /* closed gracefully by both endpoints */
    SCTP_EP_ABORTED = 2,      /* aborted by the peer */
    SCTP_EP_ABORTED_HERE = 3, /* aborted here: by sctp_endpoint_abort, or because the peer violated the protocol */
    SCTP_EP_TIMED_OUT = 4,    /* a packet was retransmitted as often as allowed, and not answered */
    SCTP_EP_STALE_COOKIE = 5  /* the listener found the state cookie too old */
};

struct sctp_endpoint_status {
    uint64_t next_moment;       /* the time by which to call sctp_endpoint_on_moment: the first timer or delayed SACK, not lifetimes; SCTP_EP_NEVER */
    uint64_t tickets;           /* how many messages were accepted: the last ticket */
    uint64_t outstanding;       /* TSNs that aren't acknowledged, and one for each message of which fragments are still to be sent */
    uint64_t queued;            /* messages of which no fragment has a TSN: at 1,024 send returns QUEUE_FULL */
    uint64_t queued_bytes;      /* bytes of these messages */
    uint64_t held_bytes;        /* bytes of user data in the receive buffer: received and not taken, messages in part included */
    uint64_t peer_window;       /* the peer's receiver window in bytes, as last advertised */
    uint32_t state;             /* enum sctp_endpoint_state */
    uint32_t ended;             /* enum sctp_endpoint_ended */
    uint16_t outbound, inbound; /* the streams agreed on; 0 before that */
    bool interleaved;           /* I-DATA was agreed on */
    bool partial;               /* partial reliability was agreed on */
    uint32_t reassembly_bytes;  /* of held_bytes, those that can't be taken yet: of messages of which fragments are missing, and of ordered ones
                                 * after such a message. If they are near the configured buffer, it is too small (SCTP_ENDPOINT_CONFIG) */
    uint32_t resetting;         /* the outgoing streams whose reset was asked for and isn't done */
    uint32_t own_tag;           /* the verification tag that packets to the endpoint carry; 0 if it has none: sctp_endpoint_own_tag */
    uint32_t reserved;          /* 0 */
};

/* Returns the status. MISUSE. */
uint32_t sctp_endpoint_status(struct sctp_endpoint *handle, struct sctp_endpoint_status *status);

/* Returns the verification tag that packets to the endpoint carry (sctp_endpoint_peek_packet), by which a program with many peers at one socket finds
 * the endpoint of a packet: a caller's from connect on, a listener's from the COOKIE ECHO on that establishes its association. NOTHING: it has none
 * yet, or the association is over; a program that needs it then has noted it before. MISUSE. */
uint32_t sctp_endpoint_own_tag(struct sctp_endpoint *handle, uint32_t *tag);

/* Which numbers of a path are there, as a sum. Those that aren't are 0. */
enum sctp_endpoint_path_flag {
    SCTP_EP_PATH_RTO = 1,   /* rto: once there is an association, with fast retransmission */
    SCTP_EP_PATH_TRIP = 2,  /* srtt and rttvar: once a round trip was measured */
    SCTP_EP_PATH_WINDOW = 4 /* cwnd and ssthresh: once there is an association, with congestion control */
};

struct sctp_endpoint_path {
    uint64_t in_flight;    /* bytes of user data: sent, and neither acknowledged, abandoned nor marked for retransmission */
    uint64_t rto;          /* milliseconds: the RTO of the data timer at its next start */
    uint32_t srtt, rttvar; /* milliseconds: the smoothed round-trip time and its variation (RFC 9260, 6.3.1), rounded down */
    uint32_t cwnd;         /* bytes: the congestion window (RFC 9260, 7.2) */
    uint32_t ssthresh;     /* bytes: the slow-start threshold */
    uint32_t flags;        /* enum sctp_endpoint_path_flag, a sum */
    uint32_t reserved;     /* 0 */
};

/* Returns what the endpoint knows of the path to its peer. MISUSE. */
uint32_t sctp_endpoint_path(struct sctp_endpoint *handle, struct sctp_endpoint_path *path);

/* What an endpoint counted since it was made, each number modulo 2^64. A call that returns NO_MEMORY counts nothing. */
struct sctp_endpoint_counts {
    uint64_t packets_out;         /* packets returned to be sent: by poll_transmit, as an answer of handle_packet, by abort */
    uint64_t bytes_out;           /* bytes of these, from the common header on */
    uint64_t packets_in;          /* packets passed to handle_packet */
    uint64_t bytes_in;            /* bytes of these, from the common header on */
    uint64_t first_sent;          /* DATA and I-DATA chunks sent for the first time */
    uint64_t timer_retransmitted; /* those retransmitted because the data timer expired (RFC 9260, 6.3.3) */
    uint64_t fast_retransmitted;  /* those retransmitted since three acknowledgements missed them (RFC 9260, 7.2.4) */
    uint64_t sacks_out;           /* packets sent that have a SACK */
    uint64_t sacks_in;            /* SACKs in packets whose verdict was TAKEN, out of date or not */
    uint64_t abandoned;           /* messages abandoned after a fragment got a TSN; none that was withdrawn from the queue */
    uint64_t dropped_fault;       /* packets that were ignored, by their reason (enum sctp_endpoint_reason): FAULT, */
    uint64_t dropped_ports;       /* PORTS, */
    uint64_t dropped_tag;         /* TAG, */
    uint64_t dropped_state;       /* STATE, */
    uint64_t dropped_cookie;      /* COOKIE */
    uint64_t reserved;            /* 0 */
};

/* Returns what the endpoint counted. MISUSE. */
uint32_t sctp_endpoint_counts(struct sctp_endpoint *handle, struct sctp_endpoint_counts *counts);

/* ---- what a packet says, without an endpoint */

/* Reads ports and verification tag of a packet, for a program with several peers at one socket. The tag is that of the endpoint which the
 * packet is for, 0 with an INIT. But with the T bit (bit 0 of byte 13) of an ABORT or a SHUTDOWN COMPLETE (byte 12 is 6 or 14) it is the
 * sender's, which packets to the sender carry (RFC 9260, 8.5.1). Nothing else of the packet is checked, so it may be anyone's. NOTHING if it is
 * shorter than 12 bytes. */
uint32_t sctp_endpoint_peek_packet(const uint8_t *packet, size_t packet_length, uint16_t *source, uint16_t *destination, uint32_t *tag);

/* Reads why a peer aborted: the first cause of the first ABORT in a packet, 12 for a user's abort (RFC 9260, 3.3.10), 0 if it has none; and its
 * information, which is the reason of a user's abort. It is what the packet says, whoever sent it: that an endpoint accepted it is seen by its
 * verdict TAKEN and by `ended`. NOTHING if the bytes aren't a valid packet with an ABORT; NEEDS_ROOM, with cause and length. */
uint32_t sctp_endpoint_abort_cause(const uint8_t *packet, size_t packet_length, uint16_t *cause, uint8_t *buffer, size_t buffer_length,
                                   size_t *length);

/* ---- memory: what the library calls */

/* If `ok` is false, allocation failed, and `at` is any pointer but NULL. */
struct sctp_endpoint_block {
    bool ok;
    void *at;
};
/* struct sctp_endpoint_block rattle_alloc(size_t size, size_t alignment);       alignment: 1, 2, 4, 8 or 16
 * struct sctp_endpoint_block rattle_realloc(void *at, size_t old_size, size_t size, size_t alignment);
 * void rattle_dealloc(void *at);
 *
 * `old_size` is how many bytes of the block are in use, to be kept. It isn't the size that the block was allocated with, which may be larger:
 * an allocator that needs that keeps it itself. */

#ifdef __cplusplus
}
#endif
#endif
