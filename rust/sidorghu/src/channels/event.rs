//! What is reported of channels (RFC 8831, 6.4 to 6.7; RFC 8832, 6).

use super::options::Reliability;
use super::reasons::{Ignored, Refusal};
use crate::error::BufferTooSmall;
use crate::sctp_channels as proved;
use crate::values::NoMemory;
use crate::{Message, message};
use alloc::vec::Vec;
use core::fmt;

/// What is reported of a stream.
#[derive(Debug, PartialEq)]
#[non_exhaustive]
#[must_use = "it is reported once"]
pub enum Event {
    /// The peer opened a channel. It is open.
    Incoming {
        /// Its stream.
        stream: u16,
        /// What it was opened with.
        parameters: Parameters,
    },
    /// A channel that was opened here is open at the peer, too.
    Opened {
        /// Its stream.
        stream: u16,
    },
    /// A message of the peer.
    Message {
        /// The stream of the channel.
        stream: u16,
        /// It is text, which should be UTF-8; else binary data.
        text: bool,
        /// Its bytes.
        payload: Payload,
    },
    /// A channel that was opened here or reported as incoming is closed in both directions, or the association is over. Another one may be opened on its
    /// stream.
    Closed {
        /// Its stream.
        stream: u16,
    },
    /// The buffered amount of a channel was above the threshold that was set for it, and isn't any more.
    BufferedAmountLow {
        /// Its stream.
        stream: u16,
    },
    /// The peer began what opens no channel. This side's half of the stream is reset (RFC 8832, 6), and what else the peer sends on it is ignored until it
    /// resets its half. Then the stream may be used again; no `Closed` is reported.
    Refused {
        /// The stream.
        stream: u16,
        /// The reason.
        why: Refusal,
    },
    /// A message of the peer is ignored.
    Ignored {
        /// Its stream.
        stream: u16,
        /// The reason.
        why: Ignored,
    },
}

impl Event {
    pub(crate) fn of(event: proved::Event) -> Event {
        match event {
            proved::Event::Incoming { stream, parameters } => Event::Incoming { stream, parameters: Parameters::of(parameters) },
            proved::Event::Opened { stream } => Event::Opened { stream },
            proved::Event::Message { stream, text, message } => Event::Message { stream, text, payload: Payload(message.map(Message)) },
            proved::Event::Closed { stream } => Event::Closed { stream },
            proved::Event::BufferedAmountLow { stream } => Event::BufferedAmountLow { stream },
            proved::Event::Refused { stream, why } => Event::Refused { stream, why: Refusal::of(why) },
            proved::Event::Ignored { stream, why } => Event::Ignored { stream, why: Ignored::of(why) },
        }
    }

    /// The stream that it is reported of.
    pub fn stream(&self) -> u16 {
        match self {
            Event::Incoming { stream, .. }
            | Event::Opened { stream }
            | Event::Message { stream, .. }
            | Event::Closed { stream }
            | Event::BufferedAmountLow { stream }
            | Event::Refused { stream, .. }
            | Event::Ignored { stream, .. } => *stream,
        }
    }
}

/// The parameters of a channel that the peer opened (RFC 8832, 5.1).
#[derive(Clone, PartialEq, Eq)]
#[non_exhaustive]
pub struct Parameters {
    /// Its name, which should be UTF-8.
    pub label: Vec<u8>,
    /// The name of the protocol used on it, which should be UTF-8.
    pub protocol: Vec<u8>,
    /// Its messages are delivered in the order in which they were sent.
    pub ordered: bool,
    /// How long they are retransmitted.
    pub reliability: Reliability,
    /// Its priority (RFC 8831, 6.4).
    pub priority: u16,
}

impl Parameters {
    fn of(proved: proved::Parameters) -> Parameters {
        Parameters {
            label: proved.label.into(),
            protocol: proved.protocol.into(),
            ordered: proved.ordered,
            reliability: Reliability::of(proved.reliability),
            priority: proved.priority,
        }
    }

    /// The label as text; `None` if it isn't UTF-8.
    pub fn label_text(&self) -> Option<&str> {
        core::str::from_utf8(&self.label).ok()
    }
}

/// It shows label and protocol as text, or as bytes if they aren't UTF-8.
impl fmt::Debug for Parameters {
    fn fmt(&self, f: &mut fmt::Formatter<'_>) -> fmt::Result {
        f.debug_struct("Parameters")
            .field("label", &Name(&self.label))
            .field("protocol", &Name(&self.protocol))
            .field("ordered", &self.ordered)
            .field("reliability", &self.reliability)
            .field("priority", &self.priority)
            .finish()
    }
}

/// A name that should be UTF-8.
struct Name<'a>(&'a [u8]);

impl fmt::Debug for Name<'_> {
    fn fmt(&self, f: &mut fmt::Formatter<'_>) -> fmt::Result {
        match core::str::from_utf8(self.0) {
            Ok(text) => write!(f, "{text:?}"),
            Err(_) => write!(f, "b\"{}\"", self.0.escape_ascii()),
        }
    }
}

/// The bytes of a message on a channel: it may be empty.
///
/// Its memory is freed when it is dropped; [`Channels::give_back_payload`](super::Channels::give_back_payload) reuses it.
#[derive(PartialEq)]
pub struct Payload(pub(crate) Option<Message>);

impl Payload {
    /// How many bytes it has.
    pub fn len(&self) -> usize {
        self.0.as_ref().map_or(0, Message::len)
    }

    /// Whether it has none.
    pub fn is_empty(&self) -> bool {
        self.0.is_none()
    }

    /// Its fragments, first to last: together they are its bytes.
    pub fn parts(&self) -> impl Iterator<Item = &[u8]> + Clone {
        self.0.iter().flat_map(Message::parts)
    }

    /// A copy of its bytes.
    ///
    /// # Errors
    /// An allocation failed.
    pub fn to_vec(&self) -> Result<Vec<u8>, NoMemory> {
        self.0.as_ref().map_or(Ok(Vec::new()), Message::to_vec)
    }

    /// Appends its bytes to a list.
    ///
    /// # Errors
    /// An allocation failed: nothing was appended.
    pub fn append_to(&self, bytes: &mut Vec<u8>) -> Result<(), NoMemory> {
        self.0.as_ref().map_or(Ok(()), |it| message::append(&it.0, bytes))
    }

    /// Copies its bytes to the beginning of a buffer, and returns how many they are.
    ///
    /// # Errors
    /// The buffer is too small: nothing was written.
    pub fn copy_into(&self, buffer: &mut [u8]) -> Result<usize, BufferTooSmall> {
        self.0.as_ref().map_or(Ok(0), |it| it.copy_into(buffer))
    }
}

/// It shows how many bytes there are, and none of them.
impl fmt::Debug for Payload {
    fn fmt(&self, f: &mut fmt::Formatter<'_>) -> fmt::Result {
        f.debug_struct("Payload").field("len", &self.len()).finish_non_exhaustive()
    }
}
