//! What is known of an endpoint, by itself or below its channels. None of these calls changes anything or allocates memory.

use crate::sctp_endpoint as proved;
use crate::time::{current, millis};
use crate::values::{Agreed, Counts, End, Path, State, Ticket};
use crate::{Config, Endpoint, WaitingMessage};
use core::fmt::{self, DebugStruct};
use core::time::Duration;

/// The readers: `$of` is the proved endpoint.
macro_rules! reads_endpoint {
    ($name:ident, $it:ident => $of:expr) => {
        /// Readers, which change nothing and allocate no memory.
        impl $name {
            fn proved(&self) -> &proved::Endpoint {
                let $it = self;
                $of
            }

            /// The state (RFC 9260, 4): `Closed` before `connect`, and again once the association is over.
            pub fn state(&self) -> State {
                State::of(self.proved().state())
            }

            /// How the association ended, once it is over: the endpoint then stays closed for good.
            pub fn ended(&self) -> Option<End> {
                self.proved().ended().map(End::of)
            }

            /// When to call `on_moment` next, in whole milliseconds: the earliest time at which a running timer expires or a delayed SACK is due; `None`
            /// if there is neither. The ends of messages' lifetimes don't count: who uses them calls `on_moment` at these times, too.
            pub fn next_moment(&self) -> Option<Duration> {
                self.proved().next_moment().map(millis)
            }

            /// Whether the peer has acknowledged the whole message with this ticket, and it wasn't abandoned.
            pub fn acknowledged(&self, ticket: Ticket) -> bool {
                self.proved().acknowledged(ticket)
            }

            /// Whether the message with this ticket was abandoned after it was sent, in part at least (RFC 3758, 3.5).
            pub fn abandoned(&self, ticket: Ticket) -> bool {
                self.proved().abandoned(ticket)
            }

            /// The bytes of user data in the receive buffer: received, and not yet taken. Never more than
            /// [`Config::receive_buffer`](crate::Config::receive_buffer).
            pub fn held_bytes(&self) -> u32 {
                self.proved().held_bytes()
            }

            /// Of [`held_bytes`](Self::held_bytes), those that can't be taken yet: the user data of messages of which a fragment is missing, and of
            /// ordered messages that follow such a message on their stream. If they fill the receive buffer, no message becomes complete any more.
            pub fn reassembly_bytes(&self) -> u32 {
                self.proved().reassembly_bytes()
            }

            /// The configuration that it was made with.
            pub fn config(&self) -> Config {
                Config(*self.proved().config())
            }

            /// How many tickets `send` has returned: they are 1, 2, 3 and so on.
            pub fn tickets(&self) -> u64 {
                self.proved().tickets()
            }

            /// Of the messages that wait to be taken on a stream, the one at this position, from 0; `None` past the last.
            pub fn waiting(&self, stream: u16, position: usize) -> Option<WaitingMessage<'_>> {
                self.proved().waiting(stream, position).map(WaitingMessage)
            }

            /// The number of streams that the peer may send on: 0 before an association (RFC 9260, 5.1.1).
            pub fn inbound(&self) -> u16 {
                self.proved().inbound()
            }

            /// The number of streams that may be sent on: 0 before an association (RFC 9260, 5.1.1).
            pub fn outbound(&self) -> u16 {
                self.proved().outbound()
            }

            /// Whether user data is sent as I-DATA: both endpoints support it (RFC 8260, 2.2.1).
            pub fn is_interleaved(&self) -> bool {
                self.proved().is_interleaved()
            }

            /// Whether messages may be abandoned after they were sent: both endpoints support partial reliability (RFC 3758, 3.3).
            pub fn is_partial(&self) -> bool {
                self.proved().is_partial()
            }

            /// The streams and the extensions that both endpoints agreed on, also once the association is over; `None` exactly if no stream was, as
            /// before an association.
            pub fn agreed(&self) -> Option<Agreed> {
                self.proved().agreed()
            }

            /// The number of TSNs assigned above the cumulative TSN that the peer acknowledged, plus one for each message of which only a part has TSNs:
            /// never more than 32,767.
            pub fn outstanding(&self) -> u32 {
                self.proved().outstanding()
            }

            /// The number of messages queued: accepted by `send`, and no fragment was sent yet. At most [`QUEUE_LIMIT`](crate::QUEUE_LIMIT), which
            /// `send` refuses to exceed.
            pub fn queued(&self) -> usize {
                self.proved().queued()
            }

            /// The bytes of the messages that [`queued`](Self::queued) counts.
            pub fn queued_bytes(&self) -> u64 {
                self.proved().queued_bytes()
            }

            /// Of the bytes that [`queued_bytes`](Self::queued_bytes) counts, those of the messages on this stream with one of these payload protocol
            /// identifiers; one given twice counts once.
            pub fn queued_bytes_on(&self, stream: u16, payload_ids: &[u32]) -> u64 {
                self.proved().queued_bytes_on(stream, payload_ids)
            }

            /// The peer's advertised receiver window (a_rwnd) in bytes, as last received: 0 before an association. Bytes in flight are not subtracted.
            pub fn peer_window(&self) -> u32 {
                self.proved().peer_window()
            }

            /// The bytes of user data in flight: sent, and neither acknowledged, abandoned nor marked for retransmission; 0 before an association.
            pub fn in_flight(&self) -> u64 {
                self.proved().in_flight()
            }

            /// The verification tag that packets to it carry, by which a program with many endpoints at one socket finds the one that a packet is for
            /// ([`peek_packet`](crate::peek_packet)): a caller's from `connect` on, a listener's from the COOKIE ECHO on that begins its association;
            /// `None` once that is over (RFC 9260, 8.5).
            pub fn own_tag(&self) -> Option<u32> {
                self.proved().own_tag()
            }

            /// What is known of the path to the peer; `None` exactly before an association, and without fast retransmission.
            pub fn path(&self) -> Option<Path> {
                self.proved().path().map(Path::of)
            }

            /// What was counted from the start on, each number modulo 2^64.
            pub fn counts(&self) -> Counts {
                self.proved().counts()
            }

            /// The lowest stream, `from` or above, on which a message waits to be taken; `None` exactly if there is none.
            pub fn readable(&self, from: u16) -> Option<u16> {
                self.proved().readable(from)
            }

            /// The lowest stream, `from` or above, on which a message waits to be taken, or else the lowest of all; `None` exactly if no message waits.
            pub fn next_readable(&self, from: u16) -> Option<u16> {
                self.proved().next_readable(from)
            }

            /// Whether a reset of a stream by the peer isn't reported yet.
            pub fn has_reset(&self) -> bool {
                self.proved().has_reset()
            }

            /// Whether the reset of an outgoing stream was asked for and isn't done: its messages are refused. False also after the peer refused, and if
            /// there is no such stream.
            pub fn is_resetting(&self, stream: u16) -> bool {
                self.proved().is_resetting(stream)
            }

            /// How many of the outgoing streams wait for their reset; 0 before an association.
            pub fn resetting_streams(&self) -> usize {
                self.proved().resetting_streams()
            }

            /// Whether the lifetime of a message is over at this time: `on_moment` would abandon it (RFC 3758, 3.5).
            pub fn has_late(&self, now: Duration) -> bool {
                self.proved().has_late(current(now))
            }

            /// Of the messages that `on_moment` would abandon at this time because their lifetime is over, the lowest ticket above `last`; `Ticket(0)` is
            /// below all. Called again with each result, it lists them.
            pub fn next_late(&self, last: Ticket, now: Duration) -> Option<Ticket> {
                self.proved().next_late(last, current(now))
            }

            /// Of the messages that `on_moment` may abandon at this time, the lowest ticket above `last`: those of [`next_late`](Self::next_late); and if
            /// the data timer is due, those of [`next_at_limit`](Self::next_at_limit) (RFC 7496, 3.1).
            pub fn next_to_give_up(&self, last: Ticket, now: Duration) -> Option<Ticket> {
                self.proved().next_to_give_up(last, current(now))
            }

            /// The lowest ticket above `last` of a message with an outstanding fragment that was retransmitted as often as its limit allows (RFC 7496,
            /// 3.1): with fast retransmission a packet that arrives may abandon such messages, and no others.
            pub fn next_at_limit(&self, last: Ticket) -> Option<Ticket> {
                self.proved().next_at_limit(last)
            }
        }
    };
}

reads_endpoint!(Endpoint, it => &it.0);

#[cfg(feature = "channels")]
use crate::channels::Channels;
#[cfg(feature = "channels")]
reads_endpoint!(Channels, it => it.0.endpoint());

/// What `Debug` shows of an endpoint.
pub(crate) fn shown(endpoint: &proved::Endpoint, shown: &mut DebugStruct<'_, '_>) -> fmt::Result {
    shown
        .field("state", &State::of(endpoint.state()))
        .field("ended", &endpoint.ended().map(End::of))
        .field("outstanding", &endpoint.outstanding())
        .field("queued", &endpoint.queued())
        .field("queued_bytes", &endpoint.queued_bytes())
        .field("held_bytes", &endpoint.held_bytes())
        .finish_non_exhaustive()
}
