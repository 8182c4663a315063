//! Messages that were received.

use crate::error::BufferTooSmall;
use crate::sctp_recv;
use crate::values::NoMemory;
use alloc::vec::Vec;
use core::fmt;

/// The calls that read a message.
macro_rules! reads_message {
    ($name:ty) => {
        impl $name {
            /// The stream that it was received on, from 0.
            pub fn stream(&self) -> u16 {
                self.0.stream
            }

            /// Whether it was sent as ordered.
            pub fn is_ordered(&self) -> bool {
                self.0.ordered
            }

            /// The payload protocol identifier that it was sent with.
            pub fn payload_id(&self) -> u32 {
                self.0.payload_id
            }

            /// Its number among the messages of its stream and kind, ordered or unordered, from 0; `None` for an unordered one if I-DATA isn't used.
            pub fn number(&self) -> Option<u64> {
                self.0.number
            }

            /// The number of its bytes.
            #[expect(clippy::len_without_is_empty, reason = "no message is empty")]
            pub fn len(&self) -> usize {
                self.0.len()
            }

            /// The data of its fragments, first to last, as they were received: together they are its bytes.
            pub fn parts(&self) -> impl ExactSizeIterator<Item = &[u8]> + Clone {
                self.0.parts().iter().map(|part| &part[..])
            }

            /// A copy of its bytes.
            ///
            /// # Errors
            /// An allocation failed.
            pub fn to_vec(&self) -> Result<Vec<u8>, NoMemory> {
                let mut bytes = Vec::new();
                bytes.try_reserve_exact(self.len()).map_err(|_| NoMemory)?;
                self.append_to(&mut bytes)?;
                Ok(bytes)
            }

            /// Appends its bytes to a list.
            ///
            /// # Errors
            /// An allocation failed: nothing was appended.
            pub fn append_to(&self, bytes: &mut Vec<u8>) -> Result<(), NoMemory> {
                append(&self.0, bytes)
            }

            /// Copies its bytes to the beginning of a buffer, and returns how many they are.
            ///
            /// # Errors
            /// The buffer is too small: nothing was written.
            pub fn copy_into(&self, buffer: &mut [u8]) -> Result<usize, BufferTooSmall> {
                self.0.copy_into(buffer).map_err(|needed| BufferTooSmall { needed })
            }
        }

        /// It shows how many bytes there are, and none of them.
        impl fmt::Debug for $name {
            fn fmt(&self, f: &mut fmt::Formatter<'_>) -> fmt::Result {
                shown(&self.0, f)
            }
        }
    };
}

/// A complete message that was taken from an endpoint, in the fragments in which it was received.
///
/// Its memory is freed when it is dropped; [`Endpoint::give_back`](crate::Endpoint::give_back) reuses it.
#[derive(PartialEq)]
#[must_use = "it was taken from the endpoint, and is lost if it is dropped"]
pub struct Message(pub(crate) sctp_recv::Message);

/// A complete message that waits at an endpoint to be taken.
#[derive(Clone, Copy, PartialEq)]
pub struct WaitingMessage<'a>(pub(crate) &'a sctp_recv::Message);

reads_message!(Message);
reads_message!(WaitingMessage<'_>);

/// Appends the bytes of a message: the list becomes one of the proved code's, and is made of it again, without a copy.
pub(crate) fn append(message: &sctp_recv::Message, bytes: &mut Vec<u8>) -> Result<(), NoMemory> {
    let mut list = core::mem::take(bytes).into();
    let answer = message.copy_to(&mut list);
    *bytes = list.into();
    answer
}

fn shown(message: &sctp_recv::Message, f: &mut fmt::Formatter<'_>) -> fmt::Result {
    f.debug_struct("Message")
        .field("stream", &message.stream)
        .field("ordered", &message.ordered)
        .field("payload_id", &message.payload_id)
        .field("number", &message.number)
        .field("len", &message.len())
        .finish_non_exhaustive()
}
