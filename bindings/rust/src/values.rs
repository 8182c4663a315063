//! What the library returns: verdicts, packets, messages, the status.

use crate::{raw, NEVER};
use std::num::NonZeroU32;

/// What was done with a received packet.
#[derive(Clone, Debug, PartialEq, Eq)]
pub enum Verdict {
    /// It was processed: its tag was right, so the address that it was received from is the peer's.
    Taken,
    /// This packet is to be sent at once, to the address that the other one was received from.
    Answer(Vec<u8>),
    /// It was ignored: nothing but the time has changed.
    Dropped(Reason),
}

/// What was done with a received packet, whose answer is written to a buffer of the caller.
#[derive(Clone, Copy, Debug, PartialEq, Eq)]
pub enum VerdictInto {
    /// As [`Verdict::Taken`].
    Taken,
    /// As [`Verdict::Answer`]: the packet is the first so many bytes of the buffer.
    Answer(usize),
    /// As [`Verdict::Dropped`].
    Dropped(Reason),
}

/// Why a packet was ignored.
#[derive(Clone, Copy, Debug, PartialEq, Eq)]
pub enum Reason {
    /// Its bytes aren't a valid packet, or its checksum is wrong.
    Fault,
    /// Its ports aren't those of the configuration.
    Ports,
    /// Its verification tag is wrong.
    Tag,
    /// Nothing in it applies in this state.
    State,
    /// Its state cookie isn't one made under this key, for these ports and this tag.
    Cookie,
}

/// A packet to send, and the tickets of the messages whose first fragments it carries.
#[derive(Clone, Debug, PartialEq, Eq)]
pub struct Sent {
    pub packet: Vec<u8>,
    pub tickets: Vec<u64>,
}

/// A packet to send that was written to a buffer of the caller: its bytes, and how many tickets were written.
#[derive(Clone, Copy, Debug, PartialEq, Eq)]
pub struct SentInto {
    pub length: usize,
    pub tickets: usize,
}

/// A message that was taken.
#[derive(Clone, Debug, PartialEq, Eq)]
pub struct Message {
    pub stream: u16,
    pub ordered: bool,
    /// Counted from 0 on its stream, ordered and unordered ones apart; None for an unordered one under DATA.
    pub number: Option<u64>,
    pub payload_id: u32,
    pub bytes: Vec<u8>,
}

/// A message that was taken into a buffer of the caller, or that is ready.
#[derive(Clone, Copy, Debug, PartialEq, Eq)]
pub struct Head {
    /// The bytes of the whole message.
    pub length: usize,
    pub stream: u16,
    pub ordered: bool,
    /// As of [`Message`].
    pub number: Option<u64>,
    pub payload_id: u32,
}

/// The ports and the verification tag of a packet, by [`peek_packet`](crate::peek_packet).
#[derive(Clone, Copy, Debug, PartialEq, Eq)]
pub struct PacketHeader {
    pub source: u16,
    pub destination: u16,
    /// That of the endpoint which the packet is for; 0 with an INIT.
    pub tag: u32,
}

/// Why a peer aborted, by [`abort_cause`](crate::abort_cause).
#[derive(Clone, Debug, PartialEq, Eq)]
pub struct AbortCause {
    /// The first cause: 12 for a user's abort (RFC 9260, 3.3.10), 0 if the ABORT has none.
    pub cause: u16,
    /// Its information: the reason of a user's abort.
    pub info: Vec<u8>,
}

/// A stream that the peer reset.
#[derive(Clone, Copy, Debug, PartialEq, Eq)]
pub struct Reset {
    pub stream: u16,
    /// How many of the messages that are ready on it were sent before the reset: the first ones.
    pub earlier: u64,
}

/// What has become of a message that is abandoned.
#[derive(Clone, Copy, Debug, PartialEq, Eq)]
pub enum Fate {
    /// Nothing of it was sent, and nothing will be.
    Withdrawn,
    /// It was sent, at least in part, and won't be sent again.
    Abandoned,
    /// The peer had acknowledged all of it.
    Acknowledged,
    /// No message has this ticket.
    Unknown,
    /// It was sent, and partial reliability wasn't agreed on: it stays.
    Reliable,
}

/// The state of an endpoint (RFC 9260, 4).
#[derive(Clone, Copy, Debug, PartialEq, Eq)]
pub enum State {
    Closed,
    Listen,
    CookieWait,
    CookieEchoed,
    Established,
    ShutdownPending,
    ShutdownSent,
    ShutdownReceived,
    ShutdownAckSent,
}

/// How an association ended. Received messages can still be taken then, and received packets are still to be passed in for some seconds, and
/// answers sent: the last packet may have been lost.
#[derive(Clone, Copy, Debug, PartialEq, Eq)]
pub enum Ended {
    /// Closed gracefully by both endpoints.
    Completed,
    /// Aborted by the peer.
    Aborted,
    /// Aborted here: by `abort`, or because the peer violated the protocol.
    AbortedHere,
    /// A packet was retransmitted as often as allowed, and not answered.
    TimedOut,
    /// The listener found the state cookie too old.
    StaleCookie,
}

/// The state of an endpoint, and its counts.
#[derive(Clone, Copy, Debug)]
pub struct Status {
    /// The time by which to call `on_moment`: the first timer or delayed SACK. Lifetimes of messages aren't part of it.
    pub next_moment: Option<u64>,
    pub state: State,
    pub ended: Option<Ended>,
    /// How many messages were accepted: the last ticket.
    pub tickets: u64,
    /// TSNs that aren't acknowledged, and one for each message of which fragments are still to be sent.
    pub outstanding: u64,
    /// Messages of which no fragment has a TSN, and their bytes.
    pub queued: u64,
    pub queued_bytes: u64,
    /// Bytes of user data in the receive buffer: received and not taken, messages in part included.
    pub held_bytes: u64,
    /// Of these, those that can't be taken yet: of messages of which fragments are missing, and of ordered ones after such a message. If they
    /// are near the configured buffer, it is too small.
    pub reassembly_bytes: u32,
    /// The peer's receiver window in bytes, as last advertised.
    pub peer_window: u64,
    pub outbound: u16,
    pub inbound: u16,
    pub interleaved: bool,
    pub partial: bool,
    /// The outgoing streams whose reset was asked for and isn't done.
    pub resetting: u32,
    /// The verification tag that packets to it carry (`Endpoint::own_tag`).
    pub own_tag: Option<NonZeroU32>,
}

/// What an endpoint knows of the path to its peer: times in milliseconds, sizes in bytes of user data.
#[derive(Clone, Copy, Debug, PartialEq, Eq)]
pub struct Path {
    /// Sent, and neither acknowledged, abandoned nor marked for retransmission.
    pub in_flight: u64,
    /// The RTO of the data timer at its next start; None before an association, and without fast retransmission.
    pub rto: Option<u64>,
    /// The smoothed round-trip time, and its variation; None before the first measurement.
    pub srtt: Option<u32>,
    pub rttvar: Option<u32>,
    /// The congestion window, and the slow-start threshold; None without congestion control.
    pub cwnd: Option<u32>,
    pub ssthresh: Option<u32>,
}

/// Packets that were ignored, by their [`Reason`].
#[derive(Clone, Copy, Debug, PartialEq, Eq)]
pub struct Dropped {
    pub fault: u64,
    pub ports: u64,
    pub tag: u64,
    pub state: u64,
    pub cookie: u64,
}

/// What an endpoint counted since it was made, each number modulo 2^64. A call that fails with [`Error::NoMemory`](crate::Error::NoMemory)
/// counts nothing.
#[derive(Clone, Copy, Debug, PartialEq, Eq)]
pub struct Counts {
    /// Packets returned to be sent, also as an answer and by `abort`; and their bytes, from the common header on.
    pub packets_out: u64,
    pub bytes_out: u64,
    /// Packets passed to `handle_packet`, and their bytes.
    pub packets_in: u64,
    pub bytes_in: u64,
    /// DATA and I-DATA chunks sent for the first time.
    pub first_sent: u64,
    /// Those retransmitted because the data timer expired, and since three acknowledgements missed them.
    pub timer_retransmitted: u64,
    pub fast_retransmitted: u64,
    /// Packets sent that have a SACK.
    pub sacks_out: u64,
    /// SACKs in packets that were processed.
    pub sacks_in: u64,
    /// Messages abandoned after a fragment got a TSN.
    pub abandoned: u64,
    pub dropped: Dropped,
}

pub(crate) fn counts_of(told: &raw::Counts) -> Counts {
    Counts {
        packets_out: told.packets_out,
        bytes_out: told.bytes_out,
        packets_in: told.packets_in,
        bytes_in: told.bytes_in,
        first_sent: told.first_sent,
        timer_retransmitted: told.timer_retransmitted,
        fast_retransmitted: told.fast_retransmitted,
        sacks_out: told.sacks_out,
        sacks_in: told.sacks_in,
        abandoned: told.abandoned,
        dropped: Dropped {
            fault: told.dropped_fault,
            ports: told.dropped_ports,
            tag: told.dropped_tag,
            state: told.dropped_state,
            cookie: told.dropped_cookie,
        },
    }
}

pub(crate) fn status_of(told: &raw::Status) -> Status {
    Status {
        next_moment: (told.next_moment != NEVER).then_some(told.next_moment),
        state: state_of(told.state),
        ended: ended_of(told.ended),
        tickets: told.tickets,
        outstanding: told.outstanding,
        queued: told.queued,
        queued_bytes: told.queued_bytes,
        held_bytes: told.held_bytes,
        reassembly_bytes: told.reassembly_bytes,
        peer_window: told.peer_window,
        outbound: told.outbound,
        inbound: told.inbound,
        interleaved: told.interleaved,
        partial: told.partial,
        resetting: told.resetting,
        own_tag: NonZeroU32::new(told.own_tag),
    }
}

pub(crate) fn path_of(told: &raw::Path) -> Path {
    let (measured, controlled) = (told.flags & 2 > 0, told.flags & 4 > 0);
    Path {
        in_flight: told.in_flight,
        rto: (told.flags & 1 > 0).then_some(told.rto),
        srtt: measured.then_some(told.srtt),
        rttvar: measured.then_some(told.rttvar),
        cwnd: controlled.then_some(told.cwnd),
        ssthresh: controlled.then_some(told.ssthresh),
    }
}

pub(crate) fn fate_of(number: u32) -> Fate {
    [Fate::Withdrawn, Fate::Abandoned, Fate::Acknowledged, Fate::Unknown, Fate::Reliable][number as usize - 1]
}

pub(crate) fn verdict_of(told: &raw::Verdict) -> VerdictInto {
    match told.verdict {
        0 => VerdictInto::Taken,
        1 => VerdictInto::Answer(told.length),
        _ => VerdictInto::Dropped(reason_of(told.reason)),
    }
}

pub(crate) fn head_of(told: &raw::Message) -> Head {
    Head {
        length: told.length,
        stream: told.stream,
        ordered: told.ordered,
        number: told.numbered.then_some(told.number),
        payload_id: told.payload_id,
    }
}

fn reason_of(number: u32) -> Reason {
    [Reason::Fault, Reason::Ports, Reason::Tag, Reason::State, Reason::Cookie][number as usize - 1]
}

fn state_of(number: u32) -> State {
    [
        State::Closed,
        State::Listen,
        State::CookieWait,
        State::CookieEchoed,
        State::Established,
        State::ShutdownPending,
        State::ShutdownSent,
        State::ShutdownReceived,
        State::ShutdownAckSent,
    ][number as usize - 1]
}

fn ended_of(number: u32) -> Option<Ended> {
    [
        None,
        Some(Ended::Completed),
        Some(Ended::Aborted),
        Some(Ended::AbortedHere),
        Some(Ended::TimedOut),
        Some(Ended::StaleCookie),
    ][number as usize]
}
