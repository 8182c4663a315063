//! Plain values that calls take and return.

use crate::mirror::mirror;
use crate::time::millis;
use crate::{sctp_association, sctp_cookie, sctp_send, sctp_terms};
use core::fmt;
use core::time::Duration;

pub use crate::sctp_association::Agreed;
pub use crate::sctp_endpoint::{AbortCause, Counts, Dropped, PacketHeader};
pub use crate::sctp_recv::Reset;
pub use crate::sctp_values::{NoMemory, Ticket};

/// The random values with which an endpoint opens an association: the verification tag of packets to it, which is never 0, and the TSN of the first
/// chunk of user data that it sends (RFC 9260, 5.3.1 and 3.3.2). Take new ones from a secure source for each call: who guesses the tag can inject
/// packets.
#[derive(Clone, Copy, PartialEq, Eq)]
pub struct Draw(pub(crate) sctp_terms::Draw);

impl Draw {
    /// This verification tag and this initial TSN; `None` if and only if the tag is 0.
    pub fn new(tag: u32, tsn: u32) -> Option<Draw> {
        sctp_terms::Draw::new(tag, tsn).map(Draw)
    }

    /// The values that eight random bytes make: four of the tag, four of the TSN. A tag of 0, which one in 2^32 would be, is 1.
    pub fn from_random(bytes: [u8; 8]) -> Draw {
        let [a, b, c, d, tsn @ ..] = bytes;
        let tag = u32::from_ne_bytes([a, b, c, d]).max(1);
        Draw::new(tag, u32::from_ne_bytes(tsn)).expect("1 or more")
    }

    /// The verification tag of packets to the endpoint (RFC 9260, 8.5), which isn't 0.
    pub fn tag(&self) -> u32 {
        self.0.tag()
    }

    /// The initial TSN: that of the first DATA or I-DATA chunk that the endpoint sends.
    pub fn tsn(&self) -> u32 {
        self.0.tsn()
    }
}

/// It doesn't show the values.
impl fmt::Debug for Draw {
    fn fmt(&self, f: &mut fmt::Formatter<'_>) -> fmt::Result {
        f.write_str("Draw(..)")
    }
}

/// A listener's secret: 32 random bytes that authenticate its state cookies (RFC 9260, 5.1.3). Listeners may share one.
#[derive(Clone)]
pub struct Key(pub(crate) sctp_cookie::Key);

impl Key {
    /// The key with these bytes, from a secure source.
    pub fn new(bytes: [u8; 32]) -> Key {
        Key(sctp_cookie::Key::new(bytes))
    }

    /// The key that a secret, from a secure source, and these bytes make: HMAC with SHA-256 of the bytes (RFC 2104). A listener whose key is derived
    /// from the sender's address takes no cookie that was made for another one.
    pub fn derived(secret: &[u8; 32], bytes: &[u8]) -> Key {
        Key::new(sctp_cookie::hmac_sha256(secret, bytes))
    }
}

impl From<[u8; 32]> for Key {
    fn from(bytes: [u8; 32]) -> Key {
        Key::new(bytes)
    }
}

/// It shows no byte of the key.
impl fmt::Debug for Key {
    fn fmt(&self, f: &mut fmt::Formatter<'_>) -> fmt::Result {
        f.write_str("Key(..)")
    }
}

mirror! {
    /// The state of an endpoint (RFC 9260, 4).
    pub enum State of sctp_terms::State {
        /// There is no association: none was opened yet, or it is over.
        Closed,
        /// It waits for an INIT, and keeps no state of any peer.
        Listen,
        /// INIT was sent, and no INIT ACK received yet.
        CookieWait,
        /// COOKIE ECHO was sent, and no COOKIE ACK received yet.
        CookieEchoed,
        /// The association is open: both users may send.
        Established,
        /// Its user asked for shutdown; messages that are queued or outstanding are still sent.
        ShutdownPending,
        /// All that it sent was acknowledged, and SHUTDOWN was sent.
        ShutdownSent,
        /// SHUTDOWN was received; messages that are queued or outstanding here are still sent.
        ShutdownReceived,
        /// All that was sent here is acknowledged too, and SHUTDOWN ACK was sent.
        ShutdownAckSent,
    }
}

mirror! {
    /// How an association ended, as this endpoint saw it.
    #[non_exhaustive]
    pub enum End of sctp_terms::End {
        /// It was shut down gracefully by both endpoints (RFC 9260, 9.2).
        Completed,
        /// The peer aborted it (RFC 9260, 9.1).
        Aborted,
        /// This endpoint aborted it, at its user's request or because of an error of the peer (RFC 9260, 9.1).
        AbortedHere,
        /// A packet was retransmitted as often as allowed, and not answered (RFC 9260, 8.1).
        TimedOut,
        /// The listener reported that the cookie had expired (RFC 9260, 5.2.6).
        StaleCookie,
    }
}

mirror! {
    /// Why a received packet was dropped: it had no effect but that the time of its arrival was noted.
    #[non_exhaustive]
    pub enum Reason of sctp_terms::Reason {
        /// Its bytes aren't a packet (RFC 9260, 3 and 6.8).
        Fault,
        /// Its ports aren't those of the association (RFC 9260, 8.4).
        Ports,
        /// Its verification tag is wrong (RFC 9260, 8.5).
        Tag,
        /// None of its chunks is handled in the endpoint's state.
        State,
        /// Its cookie isn't valid (RFC 9260, 5.1.5).
        Cookie,
    }
}

mirror! {
    /// What has become of a message that was to be abandoned (RFC 3758, 3.5).
    pub enum Fate of sctp_send::Abandoned {
        /// No fragment of it was sent: it was removed from the queue, by this call or an earlier one.
        Withdrawn,
        /// It is abandoned, by this call or an earlier one.
        Abandoned,
        /// The peer has acknowledged all of it.
        Acknowledged,
        /// No message has this ticket.
        Unknown,
        /// It was sent, in part at least, and partial reliability wasn't agreed on (RFC 3758, 3.3): it is still retransmitted.
        Reliable,
    }
}

/// What an endpoint with fast retransmission knows of the path to its peer (RFC 9260, 6.3.1 and 7.2). Times are whole milliseconds.
#[derive(Clone, Copy, Debug, PartialEq, Eq, Hash)]
pub struct Path {
    /// The smoothed round-trip time (SRTT); `None` before the first measurement.
    pub srtt: Option<Duration>,
    /// The round-trip time variation (RTTVAR); `None` before the first measurement.
    pub rttvar: Option<Duration>,
    /// The RTO of the data timer at its next start.
    pub rto: Duration,
    /// The congestion window in bytes; `None` without congestion control.
    pub cwnd: Option<u32>,
    /// The slow-start threshold in bytes; `None` without congestion control.
    pub ssthresh: Option<u32>,
}

impl Path {
    pub(crate) fn of(proved: sctp_association::Path) -> Path {
        Path {
            srtt: proved.srtt.map(millis),
            rttvar: proved.rttvar.map(millis),
            rto: millis(proved.rto),
            cwnd: proved.cwnd,
            ssthresh: proved.ssthresh,
        }
    }
}

impl core::hash::Hash for Ticket {
    fn hash<H: core::hash::Hasher>(&self, state: &mut H) {
        self.0.hash(state);
    }
}

/// The message that was accepted earlier is the smaller one.
impl PartialOrd for Ticket {
    fn partial_cmp(&self, other: &Ticket) -> Option<core::cmp::Ordering> {
        Some(self.cmp(other))
    }
}

impl Ord for Ticket {
    fn cmp(&self, other: &Ticket) -> core::cmp::Ordering {
        self.0.cmp(&other.0)
    }
}

/// Its number.
impl fmt::Display for Ticket {
    fn fmt(&self, f: &mut fmt::Formatter<'_>) -> fmt::Result {
        self.0.fmt(f)
    }
}
