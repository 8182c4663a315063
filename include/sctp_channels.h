/* Data channels (RFC 8831) and their establishment (RFC 8832) over one endpoint: what a browser's RTCDataChannel has, in the same library as
 * sctp_endpoint.h. All that is said there of memory, threads, times, results and buffers holds here too; the calls below name what they leave
 * if they don't return SCTP_EP_OK, where that isn't nothing. docs/CHANNELS.md has a first program; DTLS and ICE, which carry the packets of a
 * browser, are the program's own.
 *
 * Channels are made over an endpoint, by sctp_channels_over, and own it from then on: connect, handle_packet, poll_transmit and the like are
 * calls of the channels then.
 * A channel is known by its stream, the same number both ways. Of the two sides the DTLS client opens channels on even streams, the server on
 * odd ones; which side calls connect has nothing to do with that.
 *
 * What was received is reported by sctp_channels_next_event: call it after each packet until it returns NOTHING.
 */
#ifndef SCTP_CHANNELS_H
#define SCTP_CHANNELS_H

#include "sctp_endpoint.h"

#ifdef __cplusplus
extern "C" {
#endif

#define SCTP_CH_ANY_STREAM 65535 /* in place of a stream: the lowest that is free of this side's. No channel has this number (RFC 8831, 6.2) */

/* The configuration of an endpoint for data channels with a browser: packets of 1,188 bytes and less, as Chromium sends them, which fit 1,280
 * below UDP, IPv6 and DTLS; 1,024 streams each way; a receive buffer of 1 MiB; partial reliability without I-DATA, congestion control, and
 * stream reset, by which channels are closed. Ports are 5000 unless the SDP says others (a=sctp-port). */
#define SCTP_CHANNELS_CONFIG(own_port, peer_port) \
    { (uint16_t)(own_port), (uint16_t)(peer_port), 1188, 1156, 1048576, 1024, 1024, false, true, false, false, \
      SCTP_EP_CONGESTION_CONTROL + SCTP_EP_STREAM_RESET, 0, { 0, 0 } }

/* ---- channels of an endpoint */

/* The caller's handle of the channels of one endpoint, anywhere in memory: 16 bytes, zero if it is empty. */
struct sctp_channels {
    size_t full; /* both fields are private */
    void *at;
};
#define SCTP_CHANNELS_INIT { 0, NULL }

/* Makes channels over an endpoint, on which nothing was sent or taken yet: sctp_endpoint_caller, listener or opened has made it. The handle of the
 * endpoint is empty afterwards. `is_dtls_client`: this side was the client in the DTLS handshake. 16 bytes are allocated for each of its streams.
 * MISUSE: `channels` isn't empty, or `endpoint` is; BAD_STATE: a message was sent on the endpoint, which stays as it is; NO_MEMORY: the endpoint was
 * freed, and both are empty. */
uint32_t sctp_channels_over(struct sctp_channels *channels, struct sctp_endpoint *endpoint, bool is_dtls_client);

/* Frees channels with their endpoint and all that it holds, and empties the handle. It does nothing for an empty one, and, called by its name, for
 * NULL. */
void sctp_channels_free(struct sctp_channels *channels);
static inline void sctp_ch_free(struct sctp_channels *channels) {
    if (channels != NULL) sctp_channels_free(channels);
}
#define sctp_channels_free(channels) sctp_ch_free(channels)

/* ---- a channel */

/* How long the messages of a channel are retransmitted (RFC 8832, 5.1). Where partial reliability wasn't agreed on (struct sctp_endpoint_status),
 * each is reliable. */
enum sctp_channel_reliability {
    SCTP_CH_RELIABLE = 0,           /* until they are acknowledged */
    SCTP_CH_MAX_RETRANSMITS = 1,    /* `limit` times at most: maxRetransmits of a browser */
    SCTP_CH_MAX_PACKET_LIFETIME = 2 /* for `limit` milliseconds at most: its maxPacketLifeTime */
};

struct sctp_channel_parameters {
    uint32_t limit;       /* retransmissions or milliseconds: 0 to 65,535; without a meaning for a reliable channel */
    uint16_t priority;    /* it is sent to the peer and has no other effect: 256 is a browser's "low", its default */
    uint8_t reliability;  /* enum sctp_channel_reliability */
    bool ordered;         /* messages are delivered in the order in which they were sent */
    uint32_t reserved[2]; /* 0 */
};
#define SCTP_CHANNEL_PARAMETERS_INIT { 0, 256, SCTP_CH_RELIABLE, true, { 0, 0 } } /* reliable and ordered */

/* Opens a channel, on this stream or on SCTP_CH_ANY_STREAM, and returns its stream. Label and protocol should be UTF-8. Messages may be sent on it at
 * once: they go in order until something was received from the peer. SCTP_CH_OPENED says that the peer has it, too. MISUSE; BAD_RESERVED: a reserved number
 * isn't 0, or `reliability` is above 2; NOT_OPEN: the association wasn't established yet; TOO_LONG: label and protocol have more than 65,524 bytes
 * together; OUT_OF_RANGE; NO_STREAM; WRONG_HALF; USED; then as sctp_endpoint_send. */
uint32_t sctp_channels_open(struct sctp_channels *channels, const struct sctp_channel_parameters *parameters, const uint8_t *label,
                            size_t label_length, const uint8_t *protocol, size_t protocol_length, uint16_t stream, uint16_t *opened);

/* Opens a channel that both applications agreed on, on a stream of either half: `negotiated` and `id` of a browser. Nothing is sent for it, and it
 * is open at once. The priority has no effect. MISUSE; BAD_RESERVED; NOT_OPEN: there was no association yet (from SCTP_EP_COOKIE_ECHOED on there is);
 * OUT_OF_RANGE; NO_STREAM; USED. */
uint32_t sctp_channels_open_negotiated(struct sctp_channels *channels, const struct sctp_channel_parameters *parameters, uint16_t stream);

/* Sends a message, text or binary, which may be empty: its bytes are copied and queued. `now` is the current time, from which a lifetime counts. The
 * ticket is the message's number in sctp_channels_abandon.
 * MISUSE; NO_CHANNEL: there is none on the stream, or it is being closed; then as sctp_endpoint_send, but never EMPTY. If the message is
 * refused, the acknowledgement of a channel that the peer opened may have been queued, and nothing else changed. */
uint32_t sctp_channels_send(struct sctp_channels *channels, uint64_t now, uint16_t stream, bool text, const uint8_t *bytes, size_t length,
                            uint64_t *ticket);

/* Closes a channel: nothing more can be sent on it, what was sent is still delivered, and what the peer sent before it noticed is still reported. Then
 * SCTP_CH_CLOSED says that it is closed both ways. MISUSE; NOT_OPEN: the association wasn't established yet; NO_CHANNEL; BAD_STATE unless the association is established with stream reset:
 * without, no channel can be closed but by the association's end; NO_SUCH_STREAM; NO_MEMORY. */
uint32_t sctp_channels_close(struct sctp_channels *channels, uint16_t stream);

/* Abandons a message: returns what has become of it (enum sctp_endpoint_fate). MISUSE. */
uint32_t sctp_channels_abandon(struct sctp_channels *channels, uint64_t ticket, uint32_t *fate);

/* Returns the bytes of user data that are queued on a stream: of messages of which no fragment was sent, empty ones 0. The `bufferedAmount` of a
 * browser. MISUSE. */
uint32_t sctp_channels_buffered_amount(struct sctp_channels *channels, uint16_t stream, uint64_t *bytes);

/* Sets the threshold of SCTP_CH_BUFFERED_AMOUNT_LOW for a channel, until it is closed. Without this call it has no such event. MISUSE, NO_CHANNEL,
 * NO_MEMORY. */
uint32_t sctp_channels_set_buffered_amount_low_threshold(struct sctp_channels *channels, uint16_t stream, uint32_t bytes);

/* Returns the longest message that the peer should send, in bytes, for the SDP (a=max-message-size): a quarter of the receive buffer. One longer than the
 * buffer never arrives, and holds up all that follow it; with messages nearly as long some browsers fill the buffer for good (docs/PEERS.md). This side
 * sends no message above SCTP_EP_LONGEST_MESSAGE. MISUSE. */
uint32_t sctp_channels_max_message_size(struct sctp_channels *channels, uint32_t *bytes);

/* ---- events */

enum sctp_channel_event_kind {
    SCTP_CH_INCOMING = 1,           /* the peer opened a channel: its parameters; its label and its protocol are in the buffer. It is open */
    SCTP_CH_OPENED = 2,             /* a channel that was opened here is open at the peer, too */
    SCTP_CH_MESSAGE = 3,            /* a message, which is in the buffer: `text`, or binary */
    SCTP_CH_CLOSED = 4,             /* a channel that was opened here or INCOMING is closed both ways, or the association is over. Another one may be opened on its stream */
    SCTP_CH_REFUSED = 5,            /* the peer began what opens no channel, for this reason; the stream is reset, and what else the peer sends on it is ignored until it resets it, too. No CLOSED follows */
    SCTP_CH_IGNORED = 6,            /* a message of the peer is ignored, for this reason */
    SCTP_CH_BUFFERED_AMOUNT_LOW = 7 /* the buffered amount was above the channel's threshold, and is at most that now */
};

/* Why the peer was refused or ignored. */
enum sctp_channel_reason {
    SCTP_CH_NO_REASON = 0,
    SCTP_CH_UNKNOWN_MESSAGE = 1, /* a message of DCEP that is neither DATA_CHANNEL_OPEN nor DATA_CHANNEL_ACK */
    SCTP_CH_OPEN_CUT_SHORT = 2,  /* a DATA_CHANNEL_OPEN that lacks a part of its fields or texts */
    SCTP_CH_ACK_WITH_MORE = 3,   /* a DATA_CHANNEL_ACK of more than one byte */
    SCTP_CH_UNKNOWN_TYPE = 4,    /* a channel type that isn't one of the six */
    SCTP_CH_WRONG_HALF = 5,      /* refused: the stream is one on which this side opens channels */
    SCTP_CH_NO_WAY_BACK = 6,     /* refused: there is no outgoing stream of this number */
    SCTP_CH_NO_CHANNEL = 7,      /* ignored: there is no channel on the stream */
    SCTP_CH_OPEN_AGAIN = 8,      /* ignored: a DATA_CHANNEL_OPEN on a stream that has a channel */
    SCTP_CH_STRAY_ACK = 9,       /* ignored: a DATA_CHANNEL_ACK for which no channel waits */
    SCTP_CH_LATE_ACK = 10,       /* ignored: a DATA_CHANNEL_ACK that a message overtook; the channel was reported open before */
    SCTP_CH_OTHER_PAYLOAD = 11,  /* ignored: a payload protocol identifier that isn't one of data channels */
    SCTP_CH_CLOSING = 12,        /* ignored: the channel is being closed */
    SCTP_CH_WAS_REFUSED = 13     /* ignored: what began on the stream was refused */
};

/* Numbers without a meaning for its kind are 0. */
struct sctp_channel_event {
    size_t length;        /* of what is in the buffer: a message, or a label and a protocol; at NEEDS_ROOM the bytes that the buffer must have */
    size_t label_length;  /* INCOMING: of these bytes the first ones, the label; the others are the protocol */
    uint32_t reason;      /* REFUSED, IGNORED: enum sctp_channel_reason */
    uint32_t limit;       /* INCOMING: retransmissions or milliseconds */
    uint16_t priority;    /* INCOMING */
    uint8_t reliability;  /* INCOMING: enum sctp_channel_reliability */
    bool ordered;         /* INCOMING */
    uint16_t stream;      /* the stream of the channel */
    uint8_t kind;         /* enum sctp_channel_event_kind */
    bool text;            /* MESSAGE: it was sent as text, which should be UTF-8 */
    uint32_t reserved[2]; /* 0 */
};

/* Takes the next event. If the buffer is too small for its bytes, NEEDS_ROOM: the event is the next one again, and `event` describes it. One as large
 * as the receive buffer is always enough. MISUSE; NOTHING; NO_MEMORY. */
uint32_t sctp_channels_next_event(struct sctp_channels *channels, struct sctp_channel_event *event, uint8_t *buffer, size_t buffer_length);

/* ---- packets and time: as the calls of the same name of the endpoint */

uint32_t sctp_channels_connect(struct sctp_channels *channels, uint64_t now, const struct sctp_endpoint_draw *draw);

/* Then call sctp_channels_next_event until it returns NOTHING, and sctp_channels_poll_transmit. */
uint32_t sctp_channels_handle_packet(struct sctp_channels *channels, uint64_t now, const uint8_t *packet, size_t packet_length,
                                     const struct sctp_endpoint_draw *draw, uint8_t *buffer, size_t buffer_length,
                                     struct sctp_endpoint_verdict *verdict);

/* What is due of the channels is queued before: acknowledgements, and the resets by which channels are closed. NO_MEMORY: some of that may have been. */
uint32_t sctp_channels_poll_transmit(struct sctp_channels *channels, uint64_t now, uint8_t *buffer, size_t buffer_length, uint64_t *tickets,
                                     size_t tickets_length, struct sctp_endpoint_sent *sent);

/* Call it also at the end of the lifetimes of a channel with SCTP_CH_MAX_PACKET_LIFETIME: each turn of the loop will do. */
uint32_t sctp_channels_on_moment(struct sctp_channels *channels, uint64_t now);

uint32_t sctp_channels_trim(struct sctp_channels *channels);

/* A browser doesn't report a shutdown to its page: sctp_channels_abort is what it expects. */
uint32_t sctp_channels_shutdown(struct sctp_channels *channels);

/* Events report what was received before, and that each channel is closed. */
uint32_t sctp_channels_abort(struct sctp_channels *channels, const uint8_t *reason, size_t reason_length, uint8_t *buffer, size_t buffer_length,
                             size_t *length);

uint32_t sctp_channels_status(struct sctp_channels *channels, struct sctp_endpoint_status *status);
uint32_t sctp_channels_path(struct sctp_channels *channels, struct sctp_endpoint_path *path);
uint32_t sctp_channels_counts(struct sctp_channels *channels, struct sctp_endpoint_counts *counts);

#ifdef __cplusplus
}
#endif
#endif
