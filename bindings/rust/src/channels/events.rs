//! What is reported of channels.

use super::{Channels, Parameters, Reliability};
use crate::error::checked_at;
use crate::{raw, Error};

const NOTHING: u32 = 9;
const NEEDS_ROOM: u32 = 10;

/// Why the peer was refused or ignored; `sctp_channels.h` says what each is.
#[derive(Clone, Copy, Debug, PartialEq, Eq)]
pub enum Reason {
    UnknownMessage,
    OpenCutShort,
    AckWithMore,
    UnknownType,
    WrongHalf,
    NoWayBack,
    NoChannel,
    OpenAgain,
    StrayAck,
    LateAck,
    OtherPayload,
    Closing,
    WasRefused,
}

/// What is reported of a stream.
#[derive(Clone, Debug, PartialEq, Eq)]
pub enum Event {
    /// The peer opened a channel. It is open.
    Incoming { stream: u16, parameters: Parameters },
    /// A channel that was opened here is open at the peer, too.
    Opened { stream: u16 },
    /// A message: text, which should be UTF-8, or binary data.
    Message { stream: u16, text: bool, bytes: Vec<u8> },
    /// A channel is closed both ways, or the association is over. Another one may be opened on its stream.
    Closed { stream: u16 },
    /// The peer began what opens no channel. What else it sends on the stream is ignored until it resets it.
    Refused { stream: u16, why: Reason },
    /// A message of the peer is ignored.
    Ignored { stream: u16, why: Reason },
    /// The buffered amount of a channel was above its threshold, and is at most that now.
    BufferedAmountLow { stream: u16 },
}

impl Channels {
    /// Takes the next event. Call it after each packet until it returns None.
    pub fn next_event(&mut self) -> Result<Option<Event>, Error> {
        let (mut told, mut bytes) = (raw::ChannelEvent::default(), Vec::new());
        loop {
            let result = unsafe {
                raw::sctp_channels_next_event(&mut self.0, &mut told, bytes.as_mut_ptr(), bytes.len())
            };
            match result {
                NOTHING => return Ok(None),
                NEEDS_ROOM => bytes.resize(told.length, 0),
                _ => {
                    checked_at(result, told.length)?;
                    return Ok(Some(event_of(&told, bytes)));
                }
            }
        }
    }
}

fn event_of(told: &raw::ChannelEvent, mut bytes: Vec<u8>) -> Event {
    let stream = told.stream;
    match told.kind {
        1 => {
            let protocol = bytes.split_off(told.label_length);
            let (ordered, priority) = (told.ordered, told.priority);
            let reliability = Reliability::of(told.reliability, told.limit);
            Event::Incoming { stream, parameters: Parameters { label: bytes, protocol, ordered, reliability, priority } }
        }
        2 => Event::Opened { stream },
        3 => Event::Message { stream, text: told.text, bytes },
        4 => Event::Closed { stream },
        5 => Event::Refused { stream, why: reason_of(told.reason) },
        6 => Event::Ignored { stream, why: reason_of(told.reason) },
        _ => Event::BufferedAmountLow { stream },
    }
}

fn reason_of(number: u32) -> Reason {
    [
        Reason::UnknownMessage,
        Reason::OpenCutShort,
        Reason::AckWithMore,
        Reason::UnknownType,
        Reason::WrongHalf,
        Reason::NoWayBack,
        Reason::NoChannel,
        Reason::OpenAgain,
        Reason::StrayAck,
        Reason::LateAck,
        Reason::OtherPayload,
        Reason::Closing,
        Reason::WasRefused,
    ][number as usize - 1]
}
