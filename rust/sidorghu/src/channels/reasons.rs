//! Why a message of the peer is refused or ignored.

use super::error::ControlError;
use crate::sctp_channels as proved;
use core::fmt;

/// Why what the peer began opens no channel.
#[derive(Clone, Copy, Debug, PartialEq, Eq, Hash)]
#[non_exhaustive]
pub enum Refusal {
    /// It is no DATA_CHANNEL_OPEN.
    BadOpening(ControlError),
    /// The stream is one of those on which this side opens channels (RFC 8832, 6).
    WrongHalf,
    /// There is no outgoing stream of this number.
    NoWayBack,
}

impl Refusal {
    pub(crate) fn of(proved: proved::Refusal) -> Refusal {
        match proved {
            proved::Refusal::BadOpening(fault) => Refusal::BadOpening(ControlError::of(fault)),
            proved::Refusal::WrongHalf => Refusal::WrongHalf,
            proved::Refusal::NoWayBack => Refusal::NoWayBack,
        }
    }
}

impl fmt::Display for Refusal {
    fn fmt(&self, f: &mut fmt::Formatter<'_>) -> fmt::Result {
        match self {
            Refusal::BadOpening(fault) => write!(f, "bad DATA_CHANNEL_OPEN: {fault}"),
            Refusal::WrongHalf => f.write_str("the stream is one of this side's"),
            Refusal::NoWayBack => f.write_str("there is no outgoing stream of this number"),
        }
    }
}

/// Why a message of the peer is ignored.
#[derive(Clone, Copy, Debug, PartialEq, Eq, Hash)]
#[non_exhaustive]
pub enum Ignored {
    /// There is no channel on the stream.
    NoChannel,
    /// A DATA_CHANNEL_OPEN on a stream that has a channel.
    OpenAgain,
    /// A DATA_CHANNEL_ACK for which no channel waits.
    StrayAck,
    /// The DATA_CHANNEL_ACK, after a message that overtook it.
    LateAck,
    /// A message of DCEP with a fault.
    BadControl(ControlError),
    /// A payload protocol identifier that isn't one of data channels, or that of a partial message (RFC 8831, 8).
    OtherPayload,
    /// The channel is being closed.
    Closing,
    /// The opening of a channel on the stream was refused.
    Refused,
}

impl Ignored {
    pub(crate) fn of(proved: proved::Ignored) -> Ignored {
        match proved {
            proved::Ignored::NoChannel => Ignored::NoChannel,
            proved::Ignored::OpenAgain => Ignored::OpenAgain,
            proved::Ignored::StrayAck => Ignored::StrayAck,
            proved::Ignored::LateAck => Ignored::LateAck,
            proved::Ignored::BadControl(fault) => Ignored::BadControl(ControlError::of(fault)),
            proved::Ignored::OtherPayload => Ignored::OtherPayload,
            proved::Ignored::Closing => Ignored::Closing,
            proved::Ignored::Refused => Ignored::Refused,
        }
    }
}

impl fmt::Display for Ignored {
    fn fmt(&self, f: &mut fmt::Formatter<'_>) -> fmt::Result {
        f.write_str(match self {
            Ignored::NoChannel => "there is no channel on the stream",
            Ignored::OpenAgain => "the stream has a channel",
            Ignored::StrayAck => "no channel waits for a DATA_CHANNEL_ACK",
            Ignored::LateAck => "a message overtook this DATA_CHANNEL_ACK",
            Ignored::BadControl(fault) => return write!(f, "bad message of DCEP: {fault}"),
            Ignored::OtherPayload => "another payload protocol identifier",
            Ignored::Closing => "the channel is being closed",
            Ignored::Refused => "the opening of the channel was refused",
        })
    }
}
