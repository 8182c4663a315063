//! Messages: sending, taking, abandoning.

use crate::error::{checked, checked_at};
use crate::values::{fate_of, head_of};
use crate::{raw, Endpoint, Error, Fate, Head, Message, NEVER, OK};

const NOTHING: u32 = 9;

impl Endpoint {
    /// Queues a message, and returns its ticket. `until` is the time at which its lifetime is over and it is abandoned, by the next `on_moment`:
    /// lifetimes aren't part of `next_moment`.
    pub fn send(
        &mut self,
        stream: u16,
        ordered: bool,
        payload_id: u32,
        bytes: &[u8],
        until: Option<u64>,
    ) -> Result<u64, Error> {
        let mut ticket = 0;
        checked(unsafe {
            raw::sctp_endpoint_send(
                &mut self.0,
                stream,
                ordered,
                payload_id,
                bytes.as_ptr(),
                bytes.len(),
                until.unwrap_or(NEVER),
                &mut ticket,
            )
        })?;
        Ok(ticket)
    }

    /// Queues a message with a limit of retransmissions, and returns its ticket: it is abandoned as soon as a fragment of it, which was
    /// retransmitted `max_retransmits` times already, would be retransmitted once more. With 0 no fragment is retransmitted. A limit counts
    /// only if both endpoints use partial reliability.
    pub fn send_with_max_retransmits(
        &mut self,
        stream: u16,
        ordered: bool,
        payload_id: u32,
        bytes: &[u8],
        until: Option<u64>,
        max_retransmits: u16,
    ) -> Result<u64, Error> {
        let mut ticket = 0;
        checked(unsafe {
            raw::sctp_endpoint_send_with_max_retransmits(
                &mut self.0,
                stream,
                ordered,
                payload_id,
                bytes.as_ptr(),
                bytes.len(),
                until.unwrap_or(NEVER),
                max_retransmits,
                &mut ticket,
            )
        })?;
        Ok(ticket)
    }

    /// The first stream, from `from` on, on which a message is ready.
    pub fn readable(&mut self, from: u16) -> Option<u16> {
        let mut stream = 0;
        let result = unsafe { raw::sctp_endpoint_readable(&mut self.0, from, &mut stream) };
        (result == OK).then_some(stream)
    }

    /// Describes the first message that is ready on a stream, and leaves it there.
    pub fn peek(&mut self, stream: u16) -> Option<Head> {
        let mut told = raw::Message::default();
        let result = unsafe { raw::sctp_endpoint_peek(&mut self.0, stream, &mut told) };
        (result == OK).then(|| head_of(&told))
    }

    /// Takes the first message that is ready on a stream, None if there is none.
    pub fn take(&mut self, stream: u16) -> Option<Message> {
        let mut bytes = vec![0; self.peek(stream)?.length];
        let head = self.take_into(stream, &mut bytes).ok()??;
        Some(Message {
            stream: head.stream,
            ordered: head.ordered,
            number: head.number,
            payload_id: head.payload_id,
            bytes,
        })
    }

    /// Takes the first message that is ready on a stream: its bytes are written to the beginning of the buffer. If that is too small, the
    /// message stays, and the error says how many bytes it has.
    pub fn take_into(&mut self, stream: u16, buffer: &mut [u8]) -> Result<Option<Head>, Error> {
        let mut told = raw::Message::default();
        let result =
            unsafe { raw::sctp_endpoint_take(&mut self.0, stream, &mut told, buffer.as_mut_ptr(), buffer.len()) };
        if result == NOTHING {
            return Ok(None);
        }
        checked_at(result, told.length)?;
        Ok(Some(head_of(&told)))
    }

    /// Abandons a message, and returns what has become of it.
    pub fn abandon(&mut self, ticket: u64) -> Fate {
        let mut fate = 0;
        let result = unsafe { raw::sctp_endpoint_abandon(&mut self.0, ticket, &mut fate) };
        debug_assert_eq!(result, OK);
        fate_of(fate)
    }

    /// Whether the peer has acknowledged all of a message that wasn't abandoned.
    pub fn acknowledged(&mut self, ticket: u64) -> bool {
        let mut is = false;
        unsafe { raw::sctp_endpoint_acknowledged(&mut self.0, ticket, &mut is) };
        is
    }

    /// Whether a message was sent, at least in part, and then abandoned.
    pub fn abandoned(&mut self, ticket: u64) -> bool {
        let mut is = false;
        unsafe { raw::sctp_endpoint_abandoned(&mut self.0, ticket, &mut is) };
        is
    }
}
