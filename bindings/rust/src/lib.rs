//! One endpoint of an SCTP association: RFC 9260, with FORWARD-TSN (RFC 3758), I-DATA (RFC 8260) and stream reset (RFC 6525). It is a formally
//! verified library, called by its C header `sctp_endpoint.h`: it opens no socket, reads no clock and generates no random numbers. Received
//! packets, the current time and random values are arguments, packets to send and received messages are results. Times are milliseconds on any
//! clock that doesn't go back.
//!
//! [`Channels`] are data channels over an endpoint (RFC 8831, RFC 8832), by `sctp_channels.h`.
//!
//! An [`Endpoint`] and [`Channels`] may be moved to another thread.

mod channels;
mod config;
mod error;
mod key;
mod messages;
mod packets;
mod raw;
mod resets;
mod values;

pub use channels::{Channels, Content, Event, Parameters, Reason as ChannelReason, Reliability};
pub use config::{Config, Draw};
pub use error::Error;
pub use key::{key_derived, random_key};
pub use packets::{abort_cause, peek_packet, version};
pub use values::{
    AbortCause, Counts, Dropped, Ended, Fate, Head, Message, PacketHeader, Path, Reason, Reset, Sent, SentInto, State,
    Status, Verdict, VerdictInto,
};

use error::{checked, checked_at};
use std::fmt;
use std::num::NonZeroU32;
use values::{counts_of, path_of, status_of, verdict_of};

/// The bytes of the longest packet that an endpoint builds.
pub const LONGEST_PACKET: usize = 1_500;
/// The bytes of the longest message that [`Endpoint::send`] accepts.
pub const LONGEST_MESSAGE: usize = 65_536;
/// No packet carries the first fragments of more messages.
pub const MOST_TICKETS: usize = 74;
const OK: u32 = 0;
const NEVER: u64 = u64::MAX;

/// One endpoint of an association; what it holds is freed when it is dropped.
pub struct Endpoint(pub(crate) raw::Handle);

// SAFETY: that a handle may go to another thread is proved of the library (`handles_may_go_to_another_thread`); it goes by `&mut` here, or is read alone.
unsafe impl Send for Endpoint {}

impl Drop for Endpoint {
    fn drop(&mut self) {
        unsafe { raw::sctp_endpoint_free(&mut self.0) }
    }
}

impl fmt::Debug for Endpoint {
    fn fmt(&self, f: &mut fmt::Formatter<'_>) -> fmt::Result {
        write!(f, "Endpoint(..)")
    }
}

impl Endpoint {
    fn made(make: impl FnOnce(*mut raw::Handle) -> u32) -> Result<Endpoint, Error> {
        assert_eq!(unsafe { raw::sctp_endpoint_abi() }, 1, "this library is for another version");
        let mut end = Endpoint(raw::Handle { full: 0, at: std::ptr::null_mut() });
        checked(make(&mut end.0))?;
        Ok(end)
    }

    /// An endpoint that opens the association, by `connect`.
    pub fn caller(config: &Config) -> Result<Endpoint, Error> {
        Endpoint::made(|end| unsafe { raw::sctp_endpoint_caller(end, &config.raw()) })
    }

    /// An endpoint that waits for a peer. The key, secret random bytes (`random_key`), authenticates its state cookies; one of zeros is refused. With
    /// many peers at one socket each address has a key of its own: `key_derived`.
    pub fn listener(config: &Config, key: [u8; 32]) -> Result<Endpoint, Error> {
        Endpoint::made(|end| unsafe { raw::sctp_endpoint_listener(end, &config.raw(), &raw::Key { bytes: key, reserved: [0; 4] }) })
    }

    /// An endpoint that is established at once, without packets; its peer is opened with `own` and `peer` exchanged.
    pub fn opened(config: &Config, own: Draw, peer: Draw) -> Result<Endpoint, Error> {
        Endpoint::made(|end| unsafe { raw::sctp_endpoint_opened(end, &config.raw(), &own.raw(), &peer.raw()) })
    }

    /// Opens the association: the next packet is an INIT.
    pub fn connect(&mut self, now: u64, draw: Draw) -> Result<(), Error> {
        checked(unsafe { raw::sctp_endpoint_connect(&mut self.0, now, &draw.raw()) })
    }

    /// Processes a received packet. If memory allocation fails, the same packet may be passed again.
    pub fn handle_packet(&mut self, now: u64, packet: &[u8], draw: Draw) -> Result<Verdict, Error> {
        let mut buffer = [0; LONGEST_PACKET];
        Ok(match self.handle_packet_into(now, packet, draw, &mut buffer)? {
            VerdictInto::Taken => Verdict::Taken,
            VerdictInto::Answer(length) => Verdict::Answer(buffer[..length].to_vec()),
            VerdictInto::Dropped(reason) => Verdict::Dropped(reason),
        })
    }

    /// Processes a received packet, and writes the answer to the buffer, which has at least the packet limit.
    pub fn handle_packet_into(
        &mut self,
        now: u64,
        packet: &[u8],
        draw: Draw,
        buffer: &mut [u8],
    ) -> Result<VerdictInto, Error> {
        let mut told = raw::Verdict::default();
        let result = unsafe {
            raw::sctp_endpoint_handle_packet(
                &mut self.0,
                now,
                packet.as_ptr(),
                packet.len(),
                &draw.raw(),
                buffer.as_mut_ptr(),
                buffer.len(),
                &mut told,
            )
        };
        checked_at(result, told.length)?;
        Ok(verdict_of(&told))
    }

    /// The next packet to send. It counts as sent: call this after every other call until it returns None.
    pub fn poll_transmit(&mut self, now: u64) -> Result<Option<Sent>, Error> {
        let mut buffer = [0; LONGEST_PACKET];
        let mut tickets = [0; MOST_TICKETS];
        let sent = self.poll_transmit_into(now, &mut buffer, &mut tickets)?;
        Ok(sent.map(|sent| Sent {
            packet: buffer[..sent.length].to_vec(),
            tickets: tickets[..sent.tickets].to_vec(),
        }))
    }

    /// The next packet to send, written to the buffer, which has at least the packet limit, and as many of its tickets as theirs has space for.
    pub fn poll_transmit_into(
        &mut self,
        now: u64,
        buffer: &mut [u8],
        tickets: &mut [u64],
    ) -> Result<Option<SentInto>, Error> {
        let mut told = raw::Sent::default();
        let result = unsafe {
            raw::sctp_endpoint_poll_transmit(
                &mut self.0,
                now,
                buffer.as_mut_ptr(),
                buffer.len(),
                tickets.as_mut_ptr(),
                tickets.len(),
                &mut told,
            )
        };
        checked_at(result, told.length)?;
        Ok((told.length > 0).then(|| SentInto {
            length: told.length,
            tickets: tickets.len().min(told.tickets as usize),
        }))
    }

    /// The current time: timers that are due expire, and messages whose lifetime is over are abandoned. Call it no later than `next_moment` of
    /// the status says, and at the earliest `until` of the messages sent. A time far in the future can't be taken back.
    pub fn on_moment(&mut self, now: u64) {
        let result = unsafe { raw::sctp_endpoint_on_moment(&mut self.0, now) };
        debug_assert_eq!(result, OK);
    }

    /// Gives back memory that a burst of messages took and that isn't used. It is for an endpoint that is idle: of one that has such bursts again and
    /// again each would allocate anew.
    pub fn trim(&mut self) {
        let result = unsafe { raw::sctp_endpoint_trim(&mut self.0) };
        debug_assert_eq!(result, OK);
    }

    /// Closes gracefully: no more messages are accepted, those that were are still delivered.
    pub fn shutdown(&mut self) -> Result<(), Error> {
        checked(unsafe { raw::sctp_endpoint_shutdown(&mut self.0) })
    }

    /// Ends the association at once, and returns the packet that says so to the peer.
    pub fn abort(&mut self, reason: &[u8]) -> Result<Vec<u8>, Error> {
        let mut buffer = [0; LONGEST_PACKET];
        let mut length = 0;
        checked(unsafe {
            raw::sctp_endpoint_abort(
                &mut self.0,
                reason.as_ptr(),
                reason.len(),
                buffer.as_mut_ptr(),
                buffer.len(),
                &mut length,
            )
        })?;
        Ok(buffer[..length].to_vec())
    }

    /// Its state, counts and next time.
    pub fn status(&mut self) -> Status {
        let mut told = raw::Status::default();
        let result = unsafe { raw::sctp_endpoint_status(&mut self.0, &mut told) };
        debug_assert_eq!(result, OK);
        status_of(&told)
    }

    /// The verification tag that packets to it carry (`peek_packet`), by which a program with many peers at one socket finds the endpoint of a packet: a
    /// caller's from `connect` on, a listener's from the COOKIE ECHO on that establishes its association; None once that is over.
    pub fn own_tag(&mut self) -> Option<NonZeroU32> {
        let mut tag = 0;
        let result = unsafe { raw::sctp_endpoint_own_tag(&mut self.0, &mut tag) };
        (result == OK).then_some(tag).and_then(NonZeroU32::new)
    }

    /// What it knows of the path to its peer.
    pub fn path(&mut self) -> Path {
        let mut told = raw::Path::default();
        let result = unsafe { raw::sctp_endpoint_path(&mut self.0, &mut told) };
        debug_assert_eq!(result, OK);
        path_of(&told)
    }

    /// What it counted since it was made.
    pub fn counts(&mut self) -> Counts {
        let mut told = raw::Counts::default();
        let result = unsafe { raw::sctp_endpoint_counts(&mut self.0, &mut told) };
        debug_assert_eq!(result, OK);
        counts_of(&told)
    }
}
