//! Resets of streams (RFC 6525).

use crate::error::checked;
use crate::{raw, Endpoint, Error, Reset, OK};

impl Endpoint {
    /// Asks for the reset of an outgoing stream: from now on `send` refuses its messages. Once all that was sent on it is acknowledged, the peer
    /// is asked to reset it; once the peer has done so, the stream takes messages again, whose numbers on the wire begin anew at 0. If the peer
    /// refuses, it takes none until this is called again. Both endpoints must have been configured with `stream_reset`.
    pub fn reset(&mut self, stream: u16) -> Result<(), Error> {
        checked(unsafe { raw::sctp_endpoint_reset(&mut self.0, stream) })
    }

    /// Whether the reset of an outgoing stream was asked for and isn't done: false also if the peer refused it.
    pub fn resetting(&mut self, stream: u16) -> bool {
        let mut is = false;
        unsafe { raw::sctp_endpoint_resetting(&mut self.0, stream, &mut is) };
        is
    }

    /// Reports a reset by the peer, of the lowest stream of which one wasn't reported; None if there is none.
    pub fn take_reset(&mut self) -> Option<Reset> {
        let (mut stream, mut earlier) = (0, 0);
        let result = unsafe { raw::sctp_endpoint_take_reset(&mut self.0, &mut stream, &mut earlier) };
        (result == OK).then_some(Reset { stream, earlier })
    }
}
