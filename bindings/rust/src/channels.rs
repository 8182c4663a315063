//! Data channels over an endpoint (RFC 8831, RFC 8832): what a browser's RTCDataChannel does.

mod events;

pub use events::{Event, Reason};

use crate::error::{checked, checked_at};
use crate::values::{counts_of, fate_of, path_of, status_of, verdict_of};
use crate::{raw, Counts, Draw, Endpoint, Error, Fate, Path, Sent, Status, Verdict, VerdictInto, LONGEST_PACKET, MOST_TICKETS, OK};
use std::fmt;

const ANY_STREAM: u16 = 65_535;

/// How long the messages of a channel are retransmitted (RFC 8832, 5.1). Where partial reliability wasn't agreed on, each is reliable.
#[derive(Clone, Copy, Debug, Default, PartialEq, Eq)]
pub enum Reliability {
    /// Until they are acknowledged.
    #[default]
    Reliable,
    /// At most this number of times.
    MaxRetransmits(u32),
    /// For this number of milliseconds at most.
    MaxPacketLifetime(u32),
}

impl Reliability {
    fn numbers(self) -> (u8, u32) {
        match self {
            Reliability::Reliable => (0, 0),
            Reliability::MaxRetransmits(times) => (1, times),
            Reliability::MaxPacketLifetime(milliseconds) => (2, milliseconds),
        }
    }

    fn of(kind: u8, limit: u32) -> Reliability {
        match kind {
            1 => Reliability::MaxRetransmits(limit),
            2 => Reliability::MaxPacketLifetime(limit),
            _ => Reliability::Reliable,
        }
    }
}

/// The parameters of a channel. Its label and its protocol should be UTF-8.
#[derive(Clone, Debug, PartialEq, Eq)]
pub struct Parameters {
    pub label: Vec<u8>,
    pub protocol: Vec<u8>,
    /// Its messages are delivered in the order in which they were sent.
    pub ordered: bool,
    pub reliability: Reliability,
    /// It is sent to the peer and has no other effect; 256 is a browser's default.
    pub priority: u16,
}

impl Parameters {
    /// A reliable, ordered channel with this label.
    pub fn new(label: &str) -> Parameters {
        Parameters {
            label: label.into(),
            protocol: Vec::new(),
            ordered: true,
            reliability: Reliability::Reliable,
            priority: 256,
        }
    }

    fn raw(&self) -> raw::ChannelParameters {
        let (reliability, limit) = self.reliability.numbers();
        raw::ChannelParameters { limit, priority: self.priority, reliability, ordered: self.ordered, reserved: [0; 2] }
    }
}

/// What is sent on a channel, and may be empty.
#[derive(Clone, Copy, Debug, PartialEq, Eq)]
pub enum Content<'a> {
    Text(&'a str),
    Binary(&'a [u8]),
}

/// The data channels of one endpoint; what they hold is freed when they are dropped.
pub struct Channels(raw::Channels);

// SAFETY: that a handle may go to another thread is proved of the library (`channels_may_go_to_another_thread`); it goes by `&mut` here, or is read alone.
unsafe impl Send for Channels {}

impl Drop for Channels {
    fn drop(&mut self) {
        unsafe { raw::sctp_channels_free(&mut self.0) }
    }
}

impl fmt::Debug for Channels {
    fn fmt(&self, f: &mut fmt::Formatter<'_>) -> fmt::Result {
        write!(f, "Channels(..)")
    }
}

impl Channels {
    /// The channels of an endpoint on which nothing was sent or taken yet. `is_dtls_client`: this side was the client in the DTLS handshake; it opens
    /// channels on even streams, the server on odd ones. The endpoint is dropped if memory allocation fails, or if a message was sent on it
    /// (`Error::BadState`).
    pub fn over(mut endpoint: Endpoint, is_dtls_client: bool) -> Result<Channels, Error> {
        let mut channels = Channels(raw::Channels { full: 0, at: std::ptr::null_mut() });
        checked(unsafe { raw::sctp_channels_over(&mut channels.0, &mut endpoint.0, is_dtls_client) })?;
        Ok(channels)
    }

    /// Opens a channel on this stream, or on the lowest that is free of this side's, and returns its stream. Messages may be sent at once;
    /// `Event::Opened` says that the peer has it, too. `Error::NotOpen` before the association is established.
    pub fn open(&mut self, parameters: &Parameters, stream: Option<u16>) -> Result<u16, Error> {
        let mut opened = 0;
        checked(unsafe {
            raw::sctp_channels_open(
                &mut self.0,
                &parameters.raw(),
                parameters.label.as_ptr(),
                parameters.label.len(),
                parameters.protocol.as_ptr(),
                parameters.protocol.len(),
                stream.unwrap_or(ANY_STREAM),
                &mut opened,
            )
        })?;
        Ok(opened)
    }

    /// Opens a channel that both applications agreed on, on a stream of either half: `negotiated` and `id` of a browser. It is open at once.
    pub fn open_negotiated(&mut self, stream: u16, ordered: bool, reliability: Reliability) -> Result<(), Error> {
        let parameters = Parameters { ordered, reliability, ..Parameters::new("") };
        checked(unsafe { raw::sctp_channels_open_negotiated(&mut self.0, &parameters.raw(), stream) })
    }

    /// Sends a message, and returns its ticket. `now` is the current time, from which its lifetime counts.
    pub fn send(&mut self, now: u64, stream: u16, content: Content<'_>) -> Result<u64, Error> {
        let (text, bytes) = match content {
            Content::Text(text) => (true, text.as_bytes()),
            Content::Binary(bytes) => (false, bytes),
        };
        let mut ticket = 0;
        checked(unsafe {
            raw::sctp_channels_send(&mut self.0, now, stream, text, bytes.as_ptr(), bytes.len(), &mut ticket)
        })?;
        Ok(ticket)
    }

    /// Closes a channel: what was sent on it is still delivered, what the peer sent before it noticed is still reported, and then `Event::Closed`.
    pub fn close(&mut self, stream: u16) -> Result<(), Error> {
        checked(unsafe { raw::sctp_channels_close(&mut self.0, stream) })
    }

    /// Abandons a message, and returns what has become of it.
    pub fn abandon(&mut self, ticket: u64) -> Fate {
        let mut fate = 0;
        let result = unsafe { raw::sctp_channels_abandon(&mut self.0, ticket, &mut fate) };
        debug_assert_eq!(result, OK);
        fate_of(fate)
    }

    /// The bytes of user data that are queued on a stream: of messages of which no fragment was sent.
    pub fn buffered_amount(&mut self, stream: u16) -> u64 {
        let mut bytes = 0;
        let result = unsafe { raw::sctp_channels_buffered_amount(&mut self.0, stream, &mut bytes) };
        debug_assert_eq!(result, OK);
        bytes
    }

    /// Sets the threshold of `Event::BufferedAmountLow` for a channel, in bytes. Without this call it has no such event.
    pub fn set_buffered_amount_low_threshold(&mut self, stream: u16, bytes: u32) -> Result<(), Error> {
        checked(unsafe { raw::sctp_channels_set_buffered_amount_low_threshold(&mut self.0, stream, bytes) })
    }

    /// The longest message that the peer should send, in bytes, for the SDP (a=max-message-size).
    pub fn max_message_size(&mut self) -> u32 {
        let mut bytes = 0;
        let result = unsafe { raw::sctp_channels_max_message_size(&mut self.0, &mut bytes) };
        debug_assert_eq!(result, OK);
        bytes
    }

    /// Opens the association: the next packet is an INIT.
    pub fn connect(&mut self, now: u64, draw: Draw) -> Result<(), Error> {
        checked(unsafe { raw::sctp_channels_connect(&mut self.0, now, &draw.raw()) })
    }

    /// Processes a received packet, as `Endpoint::handle_packet`; then take the events.
    pub fn handle_packet(&mut self, now: u64, packet: &[u8], draw: Draw) -> Result<Verdict, Error> {
        let (mut told, mut buffer) = (raw::Verdict::default(), [0; LONGEST_PACKET]);
        let result = unsafe {
            raw::sctp_channels_handle_packet(
                &mut self.0,
                now,
                packet.as_ptr(),
                packet.len(),
                &draw.raw(),
                buffer.as_mut_ptr(),
                buffer.len(),
                &mut told,
            )
        };
        checked_at(result, told.length)?;
        Ok(match verdict_of(&told) {
            VerdictInto::Taken => Verdict::Taken,
            VerdictInto::Answer(length) => Verdict::Answer(buffer[..length].to_vec()),
            VerdictInto::Dropped(reason) => Verdict::Dropped(reason),
        })
    }

    /// The next packet to send, as `Endpoint::poll_transmit`.
    pub fn poll_transmit(&mut self, now: u64) -> Result<Option<Sent>, Error> {
        let (mut told, mut buffer, mut tickets) = (raw::Sent::default(), [0; LONGEST_PACKET], [0; MOST_TICKETS]);
        let result = unsafe {
            raw::sctp_channels_poll_transmit(
                &mut self.0,
                now,
                buffer.as_mut_ptr(),
                buffer.len(),
                tickets.as_mut_ptr(),
                tickets.len(),
                &mut told,
            )
        };
        checked_at(result, told.length)?;
        Ok((told.length > 0).then(|| Sent {
            packet: buffer[..told.length].to_vec(),
            tickets: tickets[..told.tickets as usize].to_vec(),
        }))
    }

    /// The current time, as `Endpoint::on_moment`: call it also at the end of lifetimes.
    pub fn on_moment(&mut self, now: u64) {
        let result = unsafe { raw::sctp_channels_on_moment(&mut self.0, now) };
        debug_assert_eq!(result, OK);
    }

    /// Gives back memory that a burst of messages took, as `Endpoint::trim`.
    pub fn trim(&mut self) {
        let result = unsafe { raw::sctp_channels_trim(&mut self.0) };
        debug_assert_eq!(result, OK);
    }

    /// Closes the association gracefully. A browser doesn't report it to its page: `abort` is what it expects.
    pub fn shutdown(&mut self) -> Result<(), Error> {
        checked(unsafe { raw::sctp_channels_shutdown(&mut self.0) })
    }

    /// Ends the association at once, and returns the packet that says so to the peer.
    pub fn abort(&mut self, reason: &[u8]) -> Result<Vec<u8>, Error> {
        let (mut buffer, mut length) = ([0; LONGEST_PACKET], 0);
        checked(unsafe {
            raw::sctp_channels_abort(
                &mut self.0,
                reason.as_ptr(),
                reason.len(),
                buffer.as_mut_ptr(),
                buffer.len(),
                &mut length,
            )
        })?;
        Ok(buffer[..length].to_vec())
    }

    /// The state of the endpoint, its counts and its next time.
    pub fn status(&mut self) -> Status {
        let mut told = raw::Status::default();
        let result = unsafe { raw::sctp_channels_status(&mut self.0, &mut told) };
        debug_assert_eq!(result, OK);
        status_of(&told)
    }

    /// What the endpoint knows of the path to its peer.
    pub fn path(&mut self) -> Path {
        let mut told = raw::Path::default();
        let result = unsafe { raw::sctp_channels_path(&mut self.0, &mut told) };
        debug_assert_eq!(result, OK);
        path_of(&told)
    }

    /// What the endpoint counted since it was made.
    pub fn counts(&mut self) -> Counts {
        let mut told = raw::Counts::default();
        let result = unsafe { raw::sctp_channels_counts(&mut self.0, &mut told) };
        debug_assert_eq!(result, OK);
        counts_of(&told)
    }
}
