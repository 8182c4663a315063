//! Why calls of channels are refused, and why a message of the peer is: of several reasons the first, in the order of the variants.

use crate::error::{ResetError, SendError};
use crate::mirror::{mirror, mirror_error, said};
use crate::{sctp_channels, sctp_dcep};
use core::error::Error;
use core::fmt;

/// Why no channel is opened. Nothing changed.
#[derive(Clone, Copy, Debug, PartialEq, Eq, Hash)]
#[non_exhaustive]
pub enum OpenError {
    /// Its DATA_CHANNEL_OPEN would have more than 65,536 bytes.
    TooLong,
    /// More than 65,535 retransmissions, or a lifetime of more than 65,535 milliseconds.
    OutOfRange,
    /// There is no such stream both ways, as before an association; or, if none was asked for, none is free.
    NoStream,
    /// The stream is one of those on which the peer opens channels (RFC 8832, 6).
    WrongHalf,
    /// There is a channel on the stream, or one is still being closed.
    Used,
    /// The endpoint doesn't take the DATA_CHANNEL_OPEN, or its allocation failed.
    Refused(SendError),
}

impl OpenError {
    pub(crate) fn of(proved: sctp_channels::OpenFault) -> OpenError {
        use sctp_channels::OpenFault;
        match proved {
            OpenFault::TooLong => OpenError::TooLong,
            OpenFault::OutOfRange => OpenError::OutOfRange,
            OpenFault::NoStream => OpenError::NoStream,
            OpenFault::WrongHalf => OpenError::WrongHalf,
            OpenFault::Used => OpenError::Used,
            OpenFault::Refused(why) => OpenError::Refused(SendError::of(why)),
        }
    }
}

impl fmt::Display for OpenError {
    fn fmt(&self, f: &mut fmt::Formatter<'_>) -> fmt::Result {
        f.write_str(match self {
            OpenError::TooLong => "label and protocol are too long for a DATA_CHANNEL_OPEN",
            OpenError::OutOfRange => "more than 65,535 retransmissions or milliseconds",
            OpenError::NoStream => "there is no such stream, or none is free",
            OpenError::WrongHalf => "the stream is one of the peer's",
            OpenError::Used => "there is a channel on the stream",
            OpenError::Refused(_) => "the endpoint doesn't take the DATA_CHANNEL_OPEN",
        })
    }
}

impl Error for OpenError {
    fn source(&self) -> Option<&(dyn Error + 'static)> {
        match self {
            OpenError::Refused(why) => Some(why),
            _ => None,
        }
    }
}

/// Why a message isn't sent on a channel.
#[derive(Clone, Copy, Debug, PartialEq, Eq, Hash)]
#[non_exhaustive]
pub enum ChannelSendError {
    /// There is no channel on the stream, or it is being closed.
    NoChannel,
    /// The endpoint doesn't take it, or its allocation failed.
    Refused(SendError),
}

impl ChannelSendError {
    pub(crate) fn of(proved: sctp_channels::SendFault) -> ChannelSendError {
        match proved {
            sctp_channels::SendFault::NoChannel => ChannelSendError::NoChannel,
            sctp_channels::SendFault::Refused(why) => ChannelSendError::Refused(SendError::of(why)),
        }
    }
}

impl fmt::Display for ChannelSendError {
    fn fmt(&self, f: &mut fmt::Formatter<'_>) -> fmt::Result {
        f.write_str(match self {
            ChannelSendError::NoChannel => "there is no open channel on the stream",
            ChannelSendError::Refused(_) => "the endpoint doesn't take the message",
        })
    }
}

impl Error for ChannelSendError {
    fn source(&self) -> Option<&(dyn Error + 'static)> {
        match self {
            ChannelSendError::NoChannel => None,
            ChannelSendError::Refused(why) => Some(why),
        }
    }
}

/// Why a channel isn't closed. Nothing changed.
#[derive(Clone, Copy, Debug, PartialEq, Eq, Hash)]
#[non_exhaustive]
pub enum CloseError {
    /// There is no channel on the stream, or it is being closed already.
    NoChannel,
    /// The endpoint doesn't reset the stream.
    Refused(ResetError),
}

impl CloseError {
    pub(crate) fn of(proved: sctp_channels::CloseFault) -> CloseError {
        match proved {
            sctp_channels::CloseFault::NoChannel => CloseError::NoChannel,
            sctp_channels::CloseFault::Refused(why) => CloseError::Refused(ResetError::of(why)),
        }
    }
}

impl fmt::Display for CloseError {
    fn fmt(&self, f: &mut fmt::Formatter<'_>) -> fmt::Result {
        f.write_str(match self {
            CloseError::NoChannel => "there is no open channel on the stream",
            CloseError::Refused(_) => "the endpoint doesn't reset the stream",
        })
    }
}

impl Error for CloseError {
    fn source(&self) -> Option<&(dyn Error + 'static)> {
        match self {
            CloseError::NoChannel => None,
            CloseError::Refused(why) => Some(why),
        }
    }
}

mirror_error! {
    /// Why no low threshold of the buffered amount is set. Nothing changed.
    pub enum ThresholdError of sctp_channels::ThresholdFault {
        /// There is no channel on the stream, or it is being closed.
        NoChannel: "there is no open channel on the stream",
        /// An allocation failed.
        NoMemory: "out of memory",
    }
}

mirror_error! {
    /// What is wrong with a message of DCEP (RFC 8832, 5).
    pub enum ControlError of sctp_dcep::ControlFault {
        /// It is neither an OPEN nor an ACK.
        UnknownMessage: "neither DATA_CHANNEL_OPEN nor DATA_CHANNEL_ACK",
        /// An OPEN that lacks a part of its fields or texts.
        OpenCutShort: "the DATA_CHANNEL_OPEN is cut short",
        /// An ACK of more than one byte.
        AckWithMore: "the DATA_CHANNEL_ACK has more than one byte",
        /// A channel type that isn't one of the six (RFC 8832, 5.1).
        UnknownType: "unknown channel type",
    }
}
