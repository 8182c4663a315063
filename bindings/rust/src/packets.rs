//! What needs no endpoint: what a packet says, and the library's version.

use crate::raw;
use crate::values::{AbortCause, PacketHeader};

const OK: u32 = 0;

/// The version of the library.
pub fn version() -> String {
    let mut text = [0; 96];
    let length = unsafe { raw::sctp_endpoint_version(text.as_mut_ptr(), text.len()) };
    String::from_utf8_lossy(&text[..length]).into_owned()
}

/// The ports and the verification tag of a packet, for a program with several peers at one socket; None if it is shorter than 12 bytes. Nothing
/// else of the packet is checked, so it may be anyone's.
pub fn peek_packet(packet: &[u8]) -> Option<PacketHeader> {
    let mut header = PacketHeader { source: 0, destination: 0, tag: 0 };
    let result = unsafe {
        raw::sctp_endpoint_peek_packet(
            packet.as_ptr(),
            packet.len(),
            &mut header.source,
            &mut header.destination,
            &mut header.tag,
        )
    };
    (result == OK).then_some(header)
}

/// Why a peer aborted: what the first ABORT in a packet says, whoever sent it; None if the bytes aren't a valid packet with an ABORT.
pub fn abort_cause(packet: &[u8]) -> Option<AbortCause> {
    let mut said = AbortCause { cause: 0, info: vec![0; packet.len()] };
    let mut length = 0;
    let result = unsafe {
        raw::sctp_endpoint_abort_cause(
            packet.as_ptr(),
            packet.len(),
            &mut said.cause,
            said.info.as_mut_ptr(),
            said.info.len(),
            &mut length,
        )
    };
    said.info.truncate(length);
    (result == OK).then_some(said)
}
