//! An endpoint, and the calls that change it.

use crate::error::{AbortError, ConnectError, ResetError, SendError, ShutdownError};
use crate::rattle_std::alloc::Global;
use crate::sctp_endpoint as proved;
use crate::time::{current, deadline};
use crate::values::{Draw, Fate, Key, NoMemory, Reset, Ticket};
use crate::{Config, LONGEST_MESSAGE, Message, SendOptions, Sent, Verdict};
use alloc::vec::Vec;
use core::fmt;
use core::time::Duration;

/// One endpoint of an association (RFC 9260): a state machine without sockets, clock or random numbers of its own.
///
/// - Input: [`handle_packet`](Self::handle_packet) for a received packet, [`on_moment`](Self::on_moment) for the time, no later than
///   [`next_moment`](Self::next_moment) says.
/// - Requests: [`connect`](Self::connect), [`send`](Self::send), [`take`](Self::take), [`abandon`](Self::abandon), [`reset`](Self::reset),
///   [`take_reset`](Self::take_reset), [`shutdown`](Self::shutdown), [`abort`](Self::abort).
/// - Output: after each of these [`poll_transmit`](Self::poll_transmit), until it returns no further packet. An answer to a packet and the packet of
///   `abort` are returned by these calls themselves.
/// - Readers, which change nothing.
/// - Memory, optional: [`recycle`](Self::recycle), [`give_back`](Self::give_back), [`trim`](Self::trim). No result of another call depends on them.
///
/// Times are [`Duration`]s since any start that the user chooses, as of `Instant::elapsed`; what is less than a millisecond is left out. They never
/// go back: a time before the latest one counts as that one.
///
/// No call panics, and none ends the process if memory is refused: it says so, and its documentation says what it left.
pub struct Endpoint(pub(crate) proved::Endpoint);

impl Endpoint {
    /// A listener: it waits for a peer, and keeps no state until a valid cookie returns. It allocates no memory.
    pub fn listener(config: Config, key: Key) -> Endpoint {
        Endpoint(proved::Endpoint::listener(Global, config.0, key.0))
    }

    /// A caller: [`connect`](Self::connect) begins the association. It allocates no memory.
    pub fn caller(config: Config) -> Endpoint {
        Endpoint(proved::Endpoint::caller(Global, config.0))
    }

    /// An endpoint that is established at once, without packets. Its peer is made by the same call, with `own` and `peer` exchanged, and with the same
    /// sizes, streams and extensions.
    ///
    /// # Errors
    /// An allocation failed.
    pub fn opened(config: Config, own: Draw, peer: Draw) -> Result<Endpoint, NoMemory> {
        proved::Endpoint::opened(Global, config.0, own.0, peer.0).map(Endpoint)
    }

    /// Begins an association: an INIT is due (RFC 9260, 5.1 and 11.1.2). It allocates no memory.
    ///
    /// # Errors
    /// [`ConnectError::State`] unless it is a caller that hasn't called yet. Nothing changed then, not even the time.
    pub fn connect(&mut self, now: Duration, draw: Draw) -> Result<(), ConnectError> {
        self.0.connect(current(now), draw.0).map_err(ConnectError::of)
    }

    /// Queues a copy of a message of 1 to 65,536 bytes for the peer on a stream, counted from 0 (RFC 9260, 11.1.5). The ticket identifies it in
    /// [`abandon`](Self::abandon), [`acknowledged`](Self::acknowledged) and [`abandoned`](Self::abandoned), and
    /// [`poll_transmit`](Self::poll_transmit) returns it with the message's first fragment.
    ///
    /// # Errors
    /// [`SendError::NoMemory`] if the copy can't be allocated; else the first [`SendError`] that applies. Nothing changed.
    pub fn send(&mut self, stream: u16, bytes: &[u8], options: SendOptions) -> Result<Ticket, SendError> {
        let bytes = bytes.get(..=LONGEST_MESSAGE).unwrap_or(bytes); // no more of one that is refused as too long
        let copy = self.0.copy_bytes(Global, bytes).map_err(|NoMemory| SendError::NoMemory)?;
        let SendOptions { ordered, payload_id, until, max_retransmits } = options;
        let until = until.map(deadline);
        match max_retransmits {
            None => self.0.send(stream, ordered, payload_id, copy, until),
            Some(times) => self.0.send_with_max_retransmits(stream, ordered, payload_id, copy, until, times),
        }
        .map_err(SendError::of)
    }

    /// Takes the first message that waits on a stream (RFC 9260, 11.1.6); `None` if none does. Its space in the receive buffer is then free; the peer
    /// learns of it with the next SACK. It allocates no memory.
    pub fn take(&mut self, stream: u16) -> Option<Message> {
        self.0.take(stream).map(Message)
    }

    /// Takes the first message of the stream that [`next_readable`](Self::next_readable) names; `None` exactly if no message waits. With the stream
    /// after that of the message before, the streams take turns. It allocates no memory.
    pub fn take_next(&mut self, from: u16) -> Option<Message> {
        self.0.next_readable(from).and_then(|stream| self.take(stream))
    }

    /// Abandons a message: one that is queued is withdrawn; one that was sent, in part at least, is abandoned if both endpoints support partial
    /// reliability (RFC 3758, 3.5). It returns what has become of it. It allocates no memory.
    pub fn abandon(&mut self, ticket: Ticket) -> Fate {
        Fate::of(self.0.abandon(ticket))
    }

    /// Asks for the reset of an outgoing stream (RFC 6525, 5.1): from this call on `send` refuses its messages. Once all that was sent on it is
    /// acknowledged the peer is asked to reset it, and once the peer has done that the stream takes messages again, whose numbers begin anew at 0.
    /// [`is_resetting`](Self::is_resetting) says whether that is still to come. If the peer refused, the stream takes no message until a further call
    /// has succeeded.
    ///
    /// # Errors
    /// The first [`ResetError`] that applies. Nothing changed.
    pub fn reset(&mut self, stream: u16) -> Result<(), ResetError> {
        self.0.reset(stream).map_err(ResetError::of)
    }

    /// Reports a reset by the peer (RFC 6525, 5.2.2): the lowest stream that it reset and that wasn't reported since, and how many of the messages that
    /// wait there, the first ones, were delivered before it. `None` exactly if there is none. It allocates no memory.
    pub fn take_reset(&mut self) -> Option<Reset> {
        self.0.take_reset()
    }

    /// Closes the association gracefully: no further message is accepted, and those accepted are still delivered (RFC 9260, 9.2 and 11.1.3). If the
    /// shutdown has begun already the call changes nothing. It allocates no memory.
    ///
    /// # Errors
    /// [`ShutdownError::NotOpen`] if no association is open. Nothing changed.
    pub fn shutdown(&mut self) -> Result<(), ShutdownError> {
        self.0.shutdown().map_err(ShutdownError::of)
    }

    /// Aborts the association: it returns a packet to send, an ABORT with this reason (RFC 9260, 9.1, 11.1.4 and 3.3.10.12). What is queued is dropped;
    /// messages that were received may still be taken.
    ///
    /// # Errors
    /// The first [`AbortError`] that applies. Nothing changed.
    pub fn abort(&mut self, reason: &[u8]) -> Result<Vec<u8>, AbortError> {
        self.0.abort(reason).map(Vec::from).map_err(AbortError::of)
    }

    /// Handles a received packet: its bytes from the common header on, without those of the protocol that carried it.
    ///
    /// `draw` is used only if an INIT arrives at a listener without an association, which replies with these values and doesn't keep them; any other
    /// packet leaves them unused. Pass fresh random values with each packet: nobody may be able to guess a verification tag.
    ///
    /// Messages that are now complete wait for [`take`](Self::take). A packet that is dropped changes nothing but the time; nor does one that arrives at
    /// an endpoint without an association, unless it has a valid cookie.
    ///
    /// # Errors
    /// An allocation failed: only the chunks before the one that needed it took effect, so the packet may be passed in again. If that was the first
    /// chunk, nothing but the time changed.
    pub fn handle_packet(&mut self, now: Duration, packet: &[u8], draw: Draw) -> Result<Verdict, NoMemory> {
        self.0.handle_packet(current(now), packet, draw.0).map(Verdict::of)
    }

    /// The next packet to send (RFC 9260, 6.10): control chunks that are due, and then user data as far as the windows and the packet limit allow.
    /// `None` if there is nothing to send. A packet that is returned counts as sent: its timers are started, and what it has isn't sent again unless it
    /// is found missing or one of them expires.
    ///
    /// # Errors
    /// An allocation failed: nothing changed, not even the time.
    pub fn poll_transmit(&mut self, now: Duration) -> Result<Option<Sent>, NoMemory> {
        Ok(self.0.poll_transmit(current(now))?.map(Sent::of))
    }

    /// Advances the time: messages whose lifetime is over are abandoned (RFC 3758, 3.5), and if the data timer is due, those that may not be retransmitted
    /// again (RFC 7496, 3.1); then each timer that is due expires once, and what it retransmits is due again (RFC 9260, 6.3.3). Call it no later than
    /// [`next_moment`](Self::next_moment) says, and at the end of each message's lifetime, which `next_moment` doesn't count; then call `poll_transmit`.
    /// It allocates no memory.
    pub fn on_moment(&mut self, now: Duration) {
        self.0.on_moment(current(now));
    }
}

/// It shows state, ends and numbers, and neither keys nor tags nor bytes of messages.
impl fmt::Debug for Endpoint {
    fn fmt(&self, f: &mut fmt::Formatter<'_>) -> fmt::Result {
        crate::readers::shown(&self.0, &mut f.debug_struct("Endpoint"))
    }
}
