//! Data channels (RFC 8831, RFC 8832) over an endpoint: what a browser's `RTCDataChannel` has.

mod error;
mod event;
mod options;
mod reasons;

pub use error::{ChannelSendError, CloseError, ControlError, OpenError, ThresholdError};
pub use event::{Event, Parameters, Payload};
pub use options::{ChannelOptions, Content, Reliability};
pub use reasons::{Ignored, Refusal};

use crate::error::{AbortError, ConnectError, ShutdownError};
use crate::rattle_std::alloc::Global;
use crate::sctp_channels as proved;
use crate::time::current;
use crate::values::{Draw, Fate, Key, NoMemory, Ticket};
use crate::{Config, Endpoint, Sent, Verdict};
use alloc::vec::Vec;
use core::fmt;
use core::time::Duration;

/// The role in the DTLS handshake: it says which streams this side opens channels on (RFC 8832, 6). It has nothing to do with who calls `connect`.
#[derive(Clone, Copy, Debug, PartialEq, Eq, Hash)]
pub enum DtlsRole {
    /// The client, `a=setup:active`: streams with even numbers.
    Client,
    /// The server, `a=setup:passive`: streams with odd numbers.
    Server,
}

/// What [`Channels::next_message_into`] did.
#[derive(Clone, Copy, Debug, PartialEq, Eq)]
pub enum Written {
    /// There is nothing to report: `next_event` would return `None`.
    Nothing,
    /// The next event was this message, and is reported by it.
    Message {
        /// The stream of the channel.
        stream: u16,
        /// It is text, which should be UTF-8; else binary data.
        text: bool,
        /// How many bytes it has, at the beginning of the buffer.
        length: usize,
    },
    /// The next event, if there is one, is another one, or a message for which the buffer has no space: `next_event` reports it.
    Other,
}

/// The data channels of one endpoint. A channel is its stream, of the same number both ways: a page calls it `id`.
///
/// The loop is that of [`Endpoint`], and after each packet [`next_event`](Self::next_event) until it returns `None`, then
/// [`poll_transmit`](Self::poll_transmit): what is due of the channels is queued by it. All readers of the endpoint are here, too.
pub struct Channels(pub(crate) proved::Channels);

impl Channels {
    /// No channel yet, over an endpoint whose user has neither sent nor taken anything.
    ///
    /// # Errors
    /// An allocation failed: the endpoint is dropped. [`Channels::listener`] and [`Channels::caller`] have none to lose.
    pub fn new(endpoint: Endpoint, role: DtlsRole) -> Result<Channels, NoMemory> {
        let role = match role {
            DtlsRole::Client => proved::DtlsRole::Client,
            DtlsRole::Server => proved::DtlsRole::Server,
        };
        proved::Channels::new(Global, endpoint.0, role).map(Channels)
    }

    /// No channel yet, over a [listener](Endpoint::listener). In WebRTC both sides call: of two endpoints of this library one listens.
    ///
    /// # Errors
    /// An allocation failed.
    pub fn listener(config: Config, key: Key, role: DtlsRole) -> Result<Channels, NoMemory> {
        Channels::new(Endpoint::listener(config, key), role)
    }

    /// No channel yet, over a [caller](Endpoint::caller).
    ///
    /// # Errors
    /// An allocation failed.
    pub fn caller(config: Config, role: DtlsRole) -> Result<Channels, NoMemory> {
        Channels::new(Endpoint::caller(config), role)
    }

    /// The endpoint, without its channels.
    pub fn into_endpoint(self) -> Endpoint {
        Endpoint(self.0.into_endpoint())
    }

    /// Opens a channel on the lowest stream that is free of this side's, and returns the stream (RFC 8832, 6). Messages may be sent at once;
    /// [`Event::Opened`] says that the peer has it, too. Before the association is established there is no stream.
    ///
    /// # Errors
    /// The first [`OpenError`] that applies. Nothing changed.
    pub fn open(&mut self, options: &ChannelOptions<'_>) -> Result<u16, OpenError> {
        self.0.open(&options.0, None).map_err(OpenError::of)
    }

    /// Opens a channel as [`open`](Self::open) does, on this stream.
    ///
    /// # Errors
    /// The first [`OpenError`] that applies. Nothing changed.
    pub fn open_on(&mut self, stream: u16, options: &ChannelOptions<'_>) -> Result<(), OpenError> {
        self.0.open(&options.0, Some(stream)).map(|_| ()).map_err(OpenError::of)
    }

    /// Opens a channel that both applications agreed on, on a stream of either half: `negotiated` and `id` of a browser (RFC 8831, 6.4). It is open at
    /// once, and nothing is sent for it: of the options, order and reliability count.
    ///
    /// # Errors
    /// The first [`OpenError`] that applies, of `OutOfRange`, `NoStream` and `Used`. Nothing changed.
    pub fn open_negotiated(&mut self, stream: u16, options: &ChannelOptions<'_>) -> Result<(), OpenError> {
        self.0.open_negotiated(stream, options.0.ordered, options.0.reliability).map_err(OpenError::of)
    }

    /// Sends a copy of a message on a channel (RFC 8831, 6.6): a `&str` as text, bytes as binary data, of 0 to 65,536 bytes. `now` is the current time,
    /// from which its lifetime counts; call [`on_moment`](Self::on_moment) at its end, too.
    ///
    /// # Errors
    /// [`ChannelSendError`]: if the DATA_CHANNEL_ACK of a channel of the peer's is still due it is queued first, and the message is refused with it;
    /// nothing else changed.
    pub fn send<'a>(&mut self, now: Duration, stream: u16, content: impl Into<Content<'a>>) -> Result<Ticket, ChannelSendError> {
        self.0.send(current(now), stream, content.into()).map_err(ChannelSendError::of)
    }

    /// Closes a channel (RFC 8831, 6.7): nothing more may be sent on it; what was sent is still delivered, what the peer sent before it noticed is still
    /// reported, and then [`Event::Closed`].
    ///
    /// # Errors
    /// The first [`CloseError`] that applies: without stream reset, or if the association isn't established, no channel can be closed. Nothing changed.
    pub fn close(&mut self, stream: u16) -> Result<(), CloseError> {
        self.0.close(stream).map_err(CloseError::of)
    }

    /// The bytes of user data that are queued on a stream: of messages of which no fragment was sent. Empty messages count 0.
    pub fn buffered_amount(&self, stream: u16) -> u64 {
        self.0.buffered_amount(stream)
    }

    /// Sets the threshold of [`Event::BufferedAmountLow`] for a channel, in bytes. It is reported once the buffered amount is at most the threshold, if
    /// it was above it since this call or since the last such event. Without this call a channel has no such event.
    ///
    /// # Errors
    /// The first [`ThresholdError`] that applies. Nothing changed.
    pub fn set_buffered_amount_low_threshold(&mut self, stream: u16, bytes: u32) -> Result<(), ThresholdError> {
        self.0.set_buffered_amount_low_threshold(stream, bytes).map_err(ThresholdError::of)
    }

    /// Takes the next event. Call it after each packet until it returns `None`.
    ///
    /// # Errors
    /// An allocation for a message of DCEP failed: nothing changed, and the event is the next one again.
    pub fn next_event(&mut self) -> Result<Option<Event>, NoMemory> {
        Ok(self.0.next_event()?.map(Event::of))
    }

    /// Takes the next event if that is a message for which the buffer has space: its bytes are copied to the beginning of the buffer. Else nothing
    /// changes. It is for those who copy each message.
    pub fn next_message_into(&mut self, buffer: &mut [u8]) -> Written {
        match self.0.next_message_into(buffer) {
            proved::Written::Nothing => Written::Nothing,
            proved::Written::Message { stream, text, length } => Written::Message { stream, text, length },
            proved::Written::Other => Written::Other,
        }
    }

    /// Hands back the memory of a message, for what is received later. No result of another call depends on it.
    pub fn give_back_payload(&mut self, payload: Payload) {
        if let Some(message) = payload.0 {
            self.give_back(message);
        }
    }

    /// The longest message, in bytes, to announce to the peer as `max-message-size` (RFC 8841, 6): a quarter of the receive buffer.
    pub fn max_message_size(&self) -> u32 {
        self.0.max_message_size()
    }
}

/// The endpoint's calls.
impl Channels {
    /// Begins the association, as [`Endpoint::connect`].
    ///
    /// # Errors
    /// [`ConnectError::State`] unless it is a caller that hasn't called yet. Nothing changed then.
    pub fn connect(&mut self, now: Duration, draw: Draw) -> Result<(), ConnectError> {
        self.0.connect(current(now), draw.0).map_err(ConnectError::of)
    }

    /// Handles a received packet, as [`Endpoint::handle_packet`]; then take the events.
    ///
    /// # Errors
    /// An allocation failed: only the chunks before the one that needed it took effect, so the packet may be passed in again.
    pub fn handle_packet(&mut self, now: Duration, packet: &[u8], draw: Draw) -> Result<Verdict, NoMemory> {
        self.0.handle_packet(current(now), packet, draw.0).map(Verdict::of)
    }

    /// The next packet to send, as [`Endpoint::poll_transmit`]. What is due of the channels is queued before.
    ///
    /// # Errors
    /// An allocation failed: of what was due, some may have been queued, and nothing else changed, not even the time.
    pub fn poll_transmit(&mut self, now: Duration) -> Result<Option<Sent>, NoMemory> {
        Ok(self.0.poll_transmit(current(now))?.map(Sent::of))
    }

    /// Advances the time, as [`Endpoint::on_moment`].
    pub fn on_moment(&mut self, now: Duration) {
        self.0.on_moment(current(now));
    }

    /// Abandons a message, as [`Endpoint::abandon`].
    pub fn abandon(&mut self, ticket: Ticket) -> Fate {
        Fate::of(self.0.abandon(ticket))
    }

    /// Closes the association gracefully, as [`Endpoint::shutdown`]. Browsers don't report it to their pages: `abort` is what they expect.
    ///
    /// # Errors
    /// [`ShutdownError::NotOpen`] if no association is open. Nothing changed.
    pub fn shutdown(&mut self) -> Result<(), ShutdownError> {
        self.0.shutdown().map_err(ShutdownError::of)
    }

    /// Aborts the association and returns the packet to send, as [`Endpoint::abort`]. Then [`next_event`](Self::next_event) says what was received
    /// before, and that each channel is closed.
    ///
    /// # Errors
    /// The first [`AbortError`] that applies. Nothing changed.
    pub fn abort(&mut self, reason: &[u8]) -> Result<Vec<u8>, AbortError> {
        self.0.abort(reason).map(Vec::from).map_err(AbortError::of)
    }
}

/// It shows state and numbers of the endpoint, and neither keys nor tags nor bytes of messages.
impl fmt::Debug for Channels {
    fn fmt(&self, f: &mut fmt::Formatter<'_>) -> fmt::Result {
        crate::readers::shown(self.0.endpoint(), &mut f.debug_struct("Channels"))
    }
}
