//! Why a call of the library is refused, in the words of `sctp_endpoint.h`.

use crate::raw;
use std::fmt;

const OK: u32 = 0;
const NEEDS_ROOM: u32 = 10;

/// Why a call is refused: it changed nothing, except for [`Endpoint::handle_packet`] if memory allocation fails.
#[derive(Clone, Copy, Debug, PartialEq, Eq)]
pub enum Error {
    /// The stream isn't below the number of streams agreed on.
    NoSuchStream,
    /// The message has no bytes.
    Empty,
    /// The message has more than 65,536 bytes, or the reason of an ABORT doesn't fit one packet.
    TooLong,
    /// 1,024 messages are queued: send again after the next SACK.
    QueueFull,
    /// The TSNs or the tickets of this association are used up.
    Spent,
    /// Memory allocation failed.
    NoMemory,
    /// The association isn't established; for `shutdown`: nor is it being closed.
    NotOpen,
    /// The call isn't allowed in this state.
    BadState,
    /// The stream is being reset, or the peer refused to reset it.
    Resetting,
    /// There is no channel on the stream, or it is being closed.
    NoChannel,
    /// There is no such stream both ways, or none is free.
    NoStream,
    /// The stream is one of those on which the peer opens channels.
    WrongHalf,
    /// There is a channel on the stream.
    Used,
    /// More than 65,535 retransmissions or milliseconds.
    OutOfRange,
    /// The buffer is too small: so many bytes are needed. Nothing is lost.
    NeedsRoom(usize),
    /// A port is 0.
    BadPort,
    /// The packet limit isn't in 576 to 1,500.
    BadPacketLimit,
    /// The fragment isn't in 4 to 1,400, or 32 bytes of headers and it, padded to 4, don't fit a packet.
    BadFragment,
    /// The receive buffer isn't in 65,536 to 16,777,216.
    BadBuffer,
    /// A number of streams isn't in 1 to 1,024.
    BadStreams,
    /// The bytes of the key are all 0.
    ZeroKey,
    /// A number that no call of this crate's `sctp_endpoint.h` returns: the library is for another header.
    Unknown(u32),
}

impl Error {
    fn of(result: u32, length: usize) -> Error {
        match result {
            1 => Error::NoSuchStream,
            2 => Error::Empty,
            3 => Error::TooLong,
            4 => Error::QueueFull,
            5 => Error::Spent,
            6 => Error::NoMemory,
            7 => Error::NotOpen,
            8 => Error::BadState,
            NEEDS_ROOM => Error::NeedsRoom(length),
            14 => Error::Resetting,
            15 => Error::NoChannel,
            16 => Error::NoStream,
            17 => Error::WrongHalf,
            18 => Error::Used,
            19 => Error::OutOfRange,
            21 => Error::BadPort,
            22 => Error::BadPacketLimit,
            23 => Error::BadFragment,
            24 => Error::BadBuffer,
            25 => Error::BadStreams,
            26 => Error::ZeroKey,
            other => Error::Unknown(other),
        }
    }
}

impl Error {
    fn code(self) -> u32 {
        match self {
            Error::NoSuchStream => 1,
            Error::Empty => 2,
            Error::TooLong => 3,
            Error::QueueFull => 4,
            Error::Spent => 5,
            Error::NoMemory => 6,
            Error::NotOpen => 7,
            Error::BadState => 8,
            Error::NeedsRoom(_) => NEEDS_ROOM,
            Error::Resetting => 14,
            Error::NoChannel => 15,
            Error::NoStream => 16,
            Error::WrongHalf => 17,
            Error::Used => 18,
            Error::OutOfRange => 19,
            Error::BadPort => 21,
            Error::BadPacketLimit => 22,
            Error::BadFragment => 23,
            Error::BadBuffer => 24,
            Error::BadStreams => 25,
            Error::ZeroKey => 26,
            Error::Unknown(other) => other,
        }
    }
}

/// In the library's words.
impl fmt::Display for Error {
    fn fmt(&self, f: &mut fmt::Formatter<'_>) -> fmt::Result {
        let mut text = [0; 96];
        let length = unsafe { raw::sctp_endpoint_name(self.code(), text.as_mut_ptr(), text.len()) };
        write!(f, "{}", String::from_utf8_lossy(&text[..length]))?;
        match self {
            Error::NeedsRoom(bytes) => write!(f, ": {bytes} bytes are needed"),
            Error::Unknown(result) => write!(f, ": {result}"),
            _ => Ok(()),
        }
    }
}

impl std::error::Error for Error {}

pub(crate) fn checked(result: u32) -> Result<(), Error> {
    checked_at(result, 0)
}

/// The same, of a call that says how many bytes its buffer must have.
pub(crate) fn checked_at(result: u32, length: usize) -> Result<(), Error> {
    if result == OK {
        Ok(())
    } else {
        Err(Error::of(result, length))
    }
}
