//! Packets: what is sent, what is said of one that was received, and what one says without an endpoint.

use crate::sctp_endpoint as proved;
use crate::values::{AbortCause, PacketHeader, Reason, Ticket};
use alloc::vec::Vec;

/// A packet to send.
#[derive(Debug, PartialEq, Eq)]
#[must_use = "it counts as sent"]
pub struct Sent {
    /// Its bytes, from the common header on: no more than the packet limit.
    pub packet: Vec<u8>,
    /// The tickets of the messages whose first fragment it has: each is returned once in the life of an endpoint. 74 at most.
    pub tickets: Vec<Ticket>,
}

impl Sent {
    pub(crate) fn of(proved: proved::Sent) -> Sent {
        Sent { packet: proved.packet.into(), tickets: proved.tickets.into() }
    }
}

/// What was done with a received packet.
#[derive(Debug, PartialEq, Eq)]
#[must_use = "an answer is to be sent"]
pub enum Verdict {
    /// At least one of its chunks was handled. At an endpoint with an association its sender is the peer, whose tag it has.
    Taken,
    /// It was dropped: it had no effect but that the time of its arrival was noted.
    Dropped(Reason),
    /// It is answered: these bytes are a packet, no longer than the packet limit, to be sent at once to where this one was received from.
    Answer(Vec<u8>),
}

impl Verdict {
    pub(crate) fn of(proved: proved::Verdict) -> Verdict {
        match proved {
            proved::Verdict::Taken => Verdict::Taken,
            proved::Verdict::Dropped(reason) => Verdict::Dropped(Reason::of(reason)),
            proved::Verdict::Answer(packet) => Verdict::Answer(packet.into()),
        }
    }
}

/// The ports and the verification tag in a packet's header, for a program that has several peers at one socket: it passes the packet to the endpoint
/// whose own tag it has, and one of tag 0, which is an INIT's, to a listener. But with the T bit (bit 0 of byte 13) of an ABORT or a SHUTDOWN COMPLETE
/// (byte 12 is 6 or 14) the tag is the sender's, which packets to the sender carry (RFC 9260, 8.5.1). `None` if there are fewer than the header's 12
/// bytes. Nothing else is tested, neither checksum nor chunks: [`handle_packet`](crate::Endpoint::handle_packet) does that.
pub fn peek_packet(bytes: &[u8]) -> Option<PacketHeader> {
    proved::peek_packet(bytes)
}

/// The first cause of the first ABORT in a packet (RFC 9260, 3.3.7): `None` if the bytes are no packet, as with a wrong checksum, or the packet has no
/// ABORT. It is what the packet says, whoever sent it: that an endpoint accepted the ABORT is seen by [`handle_packet`](crate::Endpoint::handle_packet),
/// which returns [`Verdict::Taken`], and by [`ended`](crate::Endpoint::ended), which is [`End::Aborted`](crate::End::Aborted) from then on.
pub fn abort_cause(bytes: &[u8]) -> Option<AbortCause<'_>> {
    proved::abort_cause(bytes)
}
