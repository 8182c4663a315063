//! Why calls of an endpoint are refused: of several reasons the first, in the order of the variants. A refused call changes nothing, unless its
//! documentation says what it left.

use crate::mirror::{mirror, mirror_error, said};
use crate::{sctp_association, sctp_send, sctp_terms};
use core::fmt;

mirror_error! {
    /// What is wrong with a configuration.
    pub enum ConfigError of sctp_terms::ConfigFault {
        /// A port is 0.
        Port: "a port is 0",
        /// The packet limit isn't within 576 to 1,500 bytes.
        PacketLimit: "the packet limit isn't within 576 to 1,500 bytes",
        /// The fragment size isn't within 4 to 1,400 bytes, or headers of 32 bytes and a fragment, padded to a multiple of 4, exceed the packet limit.
        Fragment: "the fragment size isn't within 4 to 1,400 bytes, or doesn't fit a packet",
        /// The receive buffer isn't within 65,536 to 16,777,216 bytes.
        Buffer: "the receive buffer isn't within 65,536 to 16,777,216 bytes",
        /// A number of streams isn't within 1 to 1,024.
        Streams: "a number of streams isn't within 1 to 1,024",
    }
}

mirror_error! {
    /// Why no association is begun.
    pub enum ConnectError of sctp_terms::ConnectFault {
        /// The endpoint is a listener, or has been used already.
        State: "the endpoint is a listener, or has been used already",
    }
}

mirror_error! {
    /// Why no shutdown begins.
    pub enum ShutdownError of sctp_terms::ShutdownFault {
        /// No association is open: none was opened, it is still being opened, or it is over.
        NotOpen: "no association is open",
    }
}

mirror_error! {
    /// Why an association isn't aborted.
    pub enum AbortError of sctp_terms::AbortFault {
        /// There is no peer to send an ABORT to: the state is `Closed`, `Listen` or `CookieWait`.
        State: "there is no peer to send an ABORT to",
        /// The reason doesn't fit one packet.
        TooLong: "the reason is too long for one packet",
        /// The allocation of the packet failed.
        NoMemory: "out of memory",
    }
}

mirror_error! {
    /// Why a stream isn't reset.
    pub enum ResetError of sctp_terms::ResetFault {
        /// The association isn't established, or the peers haven't agreed on the reset of streams (RFC 6525, 5.1).
        State: "the association isn't established, or resets no streams",
        /// There is no such outgoing stream.
        NoSuchStream: "there is no such stream",
        /// An allocation failed.
        NoMemory: "out of memory",
    }
}

/// Why a message isn't queued.
#[derive(Clone, Copy, Debug, PartialEq, Eq, Hash)]
#[non_exhaustive]
pub enum SendError {
    /// The association isn't established.
    NotOpen,
    /// The stream number isn't below the number of outgoing streams.
    NoSuchStream,
    /// The stream is being reset, or the peer refused to reset it (RFC 6525, 5.1).
    Resetting,
    /// The message is empty (RFC 9260, 3.3.1: a DATA chunk has at least one byte).
    Empty,
    /// The message has more than [`LONGEST_MESSAGE`](crate::LONGEST_MESSAGE) bytes.
    TooLong,
    /// [`QUEUE_LIMIT`](crate::QUEUE_LIMIT) messages wait in the queue already.
    QueueFull,
    /// No ticket is left, or the TSNs assigned and still to be assigned would be more than 2^63 - 1.
    Spent,
    /// An allocation failed.
    NoMemory,
}

said! {
    SendError {
        NotOpen: "the association isn't established",
        NoSuchStream: "there is no such stream",
        Resetting: "the stream is being reset",
        Empty: "the message is empty",
        TooLong: "the message is too long",
        QueueFull: "too many messages wait",
        Spent: "no more messages can be numbered",
        NoMemory: "out of memory",
    }
}

impl SendError {
    pub(crate) fn of(proved: sctp_association::Refused) -> SendError {
        use sctp_association::Refused;
        use sctp_send::SendFault;
        match proved {
            Refused::NotOpen => SendError::NotOpen,
            Refused::Fault(SendFault::NoSuchStream) => SendError::NoSuchStream,
            Refused::Fault(SendFault::Resetting) => SendError::Resetting,
            Refused::Fault(SendFault::Empty) => SendError::Empty,
            Refused::Fault(SendFault::TooLong) => SendError::TooLong,
            Refused::Fault(SendFault::QueueFull) => SendError::QueueFull,
            Refused::Fault(SendFault::Spent) => SendError::Spent,
            Refused::Fault(SendFault::NoMemory) => SendError::NoMemory,
        }
    }
}

/// A message doesn't fit a buffer: nothing was written.
#[derive(Clone, Copy, Debug, PartialEq, Eq, Hash)]
#[non_exhaustive]
pub struct BufferTooSmall {
    /// How many bytes the message has.
    pub needed: usize,
}

impl fmt::Display for BufferTooSmall {
    fn fmt(&self, f: &mut fmt::Formatter<'_>) -> fmt::Result {
        write!(f, "the message has {} bytes, more than the buffer", self.needed)
    }
}

impl core::error::Error for BufferTooSmall {}
