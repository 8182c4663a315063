//! How a message is sent.

use core::time::Duration;

/// How a message is sent: in order, reliably, and with payload protocol identifier 0, unless something else is asked for.
///
/// ```
/// use sidorghu::SendOptions;
/// use std::time::Duration;
///
/// let soon_useless = SendOptions::new().unordered().payload_id(53).until(Duration::from_secs(3));
/// assert_ne!(soon_useless, SendOptions::default());
/// ```
#[derive(Clone, Copy, Debug, PartialEq, Eq, Hash)]
#[must_use = "options do nothing until a message is sent with them"]
pub struct SendOptions {
    pub(crate) ordered: bool,
    pub(crate) payload_id: u32,
    pub(crate) until: Option<Duration>,
    pub(crate) max_retransmits: Option<u16>,
}

impl SendOptions {
    /// In order, until it is acknowledged, with payload protocol identifier 0.
    pub const fn new() -> SendOptions {
        SendOptions { ordered: true, payload_id: 0, until: None, max_retransmits: None }
    }

    /// Delivered as soon as it is complete, without regard to the order of sending (RFC 9260, 6.6).
    pub const fn unordered(self) -> SendOptions {
        self.ordered(false)
    }

    /// Delivered in the order of sending on its stream, or not (RFC 9260, 6.6).
    pub const fn ordered(self, ordered: bool) -> SendOptions {
        SendOptions { ordered, ..self }
    }

    /// The payload protocol identifier, which is passed on to the peer's user (RFC 9260, 3.3.1).
    pub const fn payload_id(self, payload_id: u32) -> SendOptions {
        SendOptions { payload_id, ..self }
    }

    /// The end of its lifetime, on the clock of `now` and rounded up to milliseconds: an [`on_moment`](crate::Endpoint::on_moment) at or after it
    /// abandons the message (RFC 3758, 3.5). [`next_moment`](crate::Endpoint::next_moment) doesn't count it: call `on_moment` at this time, too. A
    /// message that was sent, in part at least, is abandoned only if partial reliability was agreed on.
    pub const fn until(self, until: Duration) -> SendOptions {
        SendOptions { until: Some(until), ..self }
    }

    /// Each of its fragments is retransmitted this number of times at most, 0 for never: when the data timer expires, or a fragment is found
    /// missing, and it was retransmitted that often, the whole message is abandoned (RFC 7496, 3.1). It has no effect unless partial reliability
    /// was agreed on.
    pub const fn max_retransmits(self, times: u16) -> SendOptions {
        SendOptions { max_retransmits: Some(times), ..self }
    }
}

impl Default for SendOptions {
    fn default() -> SendOptions {
        SendOptions::new()
    }
}
