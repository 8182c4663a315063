//! What a channel is opened with, and what is sent on it.

use crate::sctp_dcep;
use crate::time::{length, millis};
use alloc::string::String;
use alloc::vec::Vec;
use core::time::Duration;

pub use crate::sctp_dcep::Content;

/// How long the messages of a channel are retransmitted (RFC 8832, 5.1). Unless both endpoints support partial reliability, each is reliable.
#[derive(Clone, Copy, Debug, Default, PartialEq, Eq, Hash)]
pub enum Reliability {
    /// Until they are acknowledged.
    #[default]
    Reliable,
    /// At most this number of times (RFC 7496): up to 65,535 to open a channel.
    MaxRetransmits(u32),
    /// For this time at most (RFC 7496), rounded up to milliseconds: up to 65,535 ms to open a channel.
    MaxPacketLifetime(Duration),
}

impl Reliability {
    pub(crate) fn proved(self) -> sctp_dcep::Reliability {
        match self {
            Reliability::Reliable => sctp_dcep::Reliability::Reliable,
            Reliability::MaxRetransmits(times) => sctp_dcep::Reliability::MaxRetransmits(times),
            Reliability::MaxPacketLifetime(time) => sctp_dcep::Reliability::MaxPacketLifetime(length(time)),
        }
    }

    pub(crate) fn of(proved: sctp_dcep::Reliability) -> Reliability {
        match proved {
            sctp_dcep::Reliability::Reliable => Reliability::Reliable,
            sctp_dcep::Reliability::MaxRetransmits(times) => Reliability::MaxRetransmits(times),
            sctp_dcep::Reliability::MaxPacketLifetime(time) => Reliability::MaxPacketLifetime(millis(time)),
        }
    }
}

/// What a channel is opened with: ordered and reliable, with priority 256, which is a browser's default, unless something else is asked for.
///
/// ```
/// use sidorghu::channels::{ChannelOptions, Reliability};
///
/// let newest_alone = ChannelOptions::new("positions").unordered().reliability(Reliability::MaxRetransmits(0));
/// assert_ne!(newest_alone, ChannelOptions::new("positions"));
/// ```
#[derive(Clone, Copy, Debug, PartialEq, Eq)]
#[must_use = "options do nothing until a channel is opened with them"]
pub struct ChannelOptions<'a>(pub(crate) sctp_dcep::Opening<'a>);

impl<'a> ChannelOptions<'a> {
    /// This label, which should be UTF-8.
    pub fn new(label: &'a (impl AsRef<[u8]> + ?Sized)) -> ChannelOptions<'a> {
        ChannelOptions(sctp_dcep::Opening {
            label: label.as_ref(),
            protocol: &[],
            ordered: true,
            reliability: sctp_dcep::Reliability::Reliable,
            priority: 256,
        })
    }

    /// The name of the protocol used on it, which should be UTF-8.
    pub fn protocol(self, protocol: &'a (impl AsRef<[u8]> + ?Sized)) -> ChannelOptions<'a> {
        ChannelOptions(sctp_dcep::Opening { protocol: protocol.as_ref(), ..self.0 })
    }

    /// Its messages are delivered as soon as they are complete, without regard to the order of sending.
    pub fn unordered(self) -> ChannelOptions<'a> {
        self.ordered(false)
    }

    /// Its messages are delivered in the order of sending, or not.
    pub fn ordered(self, ordered: bool) -> ChannelOptions<'a> {
        ChannelOptions(sctp_dcep::Opening { ordered, ..self.0 })
    }

    /// How long its messages are retransmitted.
    pub fn reliability(self, reliability: Reliability) -> ChannelOptions<'a> {
        ChannelOptions(sctp_dcep::Opening { reliability: reliability.proved(), ..self.0 })
    }

    /// Its priority (RFC 8831, 6.4): it is sent to the peer and has no other effect.
    pub fn priority(self, priority: u16) -> ChannelOptions<'a> {
        ChannelOptions(sctp_dcep::Opening { priority, ..self.0 })
    }
}

/// Text.
impl<'a> From<&'a str> for Content<'a> {
    fn from(text: &'a str) -> Content<'a> {
        Content::Text(text.as_bytes())
    }
}

/// Text.
impl<'a> From<&'a String> for Content<'a> {
    fn from(text: &'a String) -> Content<'a> {
        Content::Text(text.as_bytes())
    }
}

/// Binary data.
impl<'a> From<&'a [u8]> for Content<'a> {
    fn from(bytes: &'a [u8]) -> Content<'a> {
        Content::Binary(bytes)
    }
}

/// Binary data.
impl<'a> From<&'a Vec<u8>> for Content<'a> {
    fn from(bytes: &'a Vec<u8>) -> Content<'a> {
        Content::Binary(bytes)
    }
}

/// Binary data.
impl<'a, const N: usize> From<&'a [u8; N]> for Content<'a> {
    fn from(bytes: &'a [u8; N]) -> Content<'a> {
        Content::Binary(bytes)
    }
}
